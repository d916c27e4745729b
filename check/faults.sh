#!/usr/bin/env bash
# SPDX-License-Identifier: Apache-2.0
# Faults of the system and of disks, in turn, on the programs as they are built; check/README.md says which.
# faults.sh [PROGRAM ..] [--short] [--side N]
set -eu
here=$(cd "$(dirname "$(readlink -f "$0")")" && pwd)
export PYTHONPATH=$here
# The disks that it mounts are seen by no one else, and are gone with it.
if unshare --mount true 2>/dev/null; then exec unshare --mount python3 -m faults "$@"; fi
exec python3 -m faults "$@"
