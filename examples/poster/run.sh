#!/usr/bin/env bash
# SPDX-License-Identifier: Apache-2.0
# Traps the poster, compares its plates and its report with what must come out, and draws pictures of it where python3 is at hand.
set -eu
cd "$(dirname "$0")"
out=out
inks=(Cyan Magenta Yellow Black)

rm -rf "$out"
mkdir -p "$out/plates" "$out/trapped"
words=()
for ink in "${inks[@]}"; do
  gzip -dc "plates/$ink.pgm.gz" > "$out/plates/$ink.pgm"
  words+=("$ink:$out/plates/$ink.pgm:$out/trapped/$ink.pgm")
done

# What is written does not depend on how many workers share the page, nor on the rows of a band.
for shared in "--workers 4 --band 64" "--workers 3 --band 17"; do
  # shellcheck disable=SC2086
  ../../bin/trap page $shared poster.job "$out/report" "${words[@]}"
  cmp "$out/report" expected/report
  for ink in "${inks[@]}"; do
    gzip -dc "expected/$ink.pgm.gz" | cmp - "$out/trapped/$ink.pgm"
  done
done
cat "$out/report"
echo "examples/poster: the trapped plates and the report are as expected"

if command -v python3 >/dev/null; then
  python3 make.py "$out/made"
  for ink in "${inks[@]}"; do
    cmp "$out/made/$ink.pgm" "$out/plates/$ink.pgm"
  done
  python3 show.py "$out/plates" "$out/trapped" "$out"
  echo "examples/poster: pictures are in $PWD/$out: before.png, after.png, register.png, close.png"
else
  echo "examples/poster: no pictures, there is no python3 to draw them"
fi
