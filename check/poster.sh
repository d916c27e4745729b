#!/usr/bin/env bash
# SPDX-License-Identifier: Apache-2.0
# Makes the expected files of examples/poster with the slow program and compares them with those that are kept there.
# With --write they are put in their place; with --whole the nearest edge is sought over the whole page for each sample.
set -eu
here=$(cd "$(dirname "$0")" && pwd)
poster=$here/../examples/poster
out=$(mktemp -d)
trap 'rm -rf "$out"' EXIT
inks=(Cyan Magenta Yellow Black)

whole=() write=
for word in "$@"; do
  case $word in
    --whole) whole=(--whole) ;;
    --write) write=yes ;;
    *) echo "check/poster: no such option: $word" >&2; exit 2 ;;
  esac
done

words=()
for ink in "${inks[@]}"; do
  gzip -dc "$poster/plates/$ink.pgm.gz" > "$out/$ink.in"
  words+=("$ink:$out/$ink.in:$out/$ink.pgm")
done
begun=$SECONDS
PYTHONPATH=$here python3 -B -m slow "${whole[@]}" trap page "$poster/poster.job" "$out/report" "${words[@]}"
echo "check/poster: the slow program took $((SECONDS - begun)) seconds"

if [ -n "$write" ]; then
  gzip -9n "$out"/*.pgm
  mkdir -p "$poster/expected"
  cp "$out/report" "$out"/*.pgm.gz "$poster/expected"
  echo "check/poster: examples/poster/expected is written"
else
  cmp "$out/report" "$poster/expected/report"
  for ink in "${inks[@]}"; do
    gzip -dc "$poster/expected/$ink.pgm.gz" | cmp - "$out/$ink.pgm"
  done
  echo "check/poster: the files of examples/poster/expected are what the slow program makes"
fi
