#!/usr/bin/env bash
#SBATCH --job-name=press
#SBATCH --ntasks=1
#SBATCH --output=press-%A_%a.out
# Where a cluster has Slurm, "farm.sbatch" beside the press commands is an array job: each task does one page of a PDF by press/all.
#
#     sbatch --array=1-$(press/plates --count IN.pdf) press/farm.sbatch IN.pdf OUT [option of press/all ...]
#
# A page that failed is done again by its number, --array=3,17, and the proof sheet of all pages is made after them by press/proof.
# The commands are looked for in the folder that the variable PRESS names; otherwise in the folder "press" of the one that
# sbatch was called in; or else the installed command "press" is taken. IN.pdf, OUT and the commands must have the same paths on all
# nodes.
#
# Where PRESS_LOCAL names a folder on the node's own disk, press/all makes the page there, and moves it into OUT when it is done: with
# --tiff-only its plates then never go over the network. OUT/job.json has the page as if it had been made in OUT.

# SPDX-License-Identifier: Apache-2.0
set -u
name=farm.sbatch
case ${1-} in -h | --help) sed -n '5,/^$/{s/^# \{0,1\}//;p}' "$0"; exit 0 ;; esac
[ -n "${SLURM_ARRAY_TASK_ID-}" ] || { echo "$name: it is run by sbatch, as an array job (see $name --help)" >&2; exit 2; }
(($# >= 2)) || { echo "$name: IN.pdf or OUT is missing (see $name --help)" >&2; exit 2; }
press=${PRESS:-${SLURM_SUBMIT_DIR:-.}/press}
page=$SLURM_ARRAY_TASK_ID
if [ -x "$press/all" ]; then
  all=("$press/all")
elif command -v press >/dev/null; then
  all=(press all)
else
  echo "$name: no press commands in $press, and no command press: set PRESS to their folder" >&2
  exit 3
fi
exec "${all[@]}" --page "$page" --quiet "$@"
