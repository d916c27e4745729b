#!/usr/bin/env bash
# SPDX-License-Identifier: Apache-2.0
# Draws the pictures of README.md here, from label.pdf and lid.pdf. draw.sh lid draws those of the lid alone.
set -eu
cd "$(dirname "$0")"
press=../../press

lid() {
  rm -rf out whole
  "$press/all" lid.pdf out --preset flexo --quiet --no-proof
  "$press/all" lid.pdf whole --preset flexo --no-thin-zones --trap-within media --quiet --no-proof
  "$press/look" out/page-001 lid.png --shrink 3
  "$press/look" out/page-001 silver.png --misregister "PANTONE 287 C=1,1" "PANTONE 877 C=-1,-1" --part 760,400,200,160 --enlarge 4
  for run in out whole; do
    "$press/look" "$run/page-001" "type-$run.png" --part 1030,448,320,50 --enlarge 3
    "$press/look" "$run/page-001" "bar-$run.png" --part 440,8,1220,80
  done
  rm -rf out whole
}

lid
[ "${1-}" != lid ] || exit 0
rm -rf out
"$press/all" label.pdf out --quiet
off=(--misregister "Label Red=2,1" "Yellow=-1,2" "Magenta=1,-1" "Black=1,1")
"$press/look" out/page-001 badge.png "${off[@]}" --part 1716,83,300,300 --enlarge 2
"$press/look" out/page-001 close.png "${off[@]}" --part 480,560,200,160 --enlarge 4
"$press/look" out/page-002 zone.png --misregister Cyan=0,-1 "Label Red=2,1" Yellow=-1,1 Magenta=1,-1 --part 110,170,200,160 --enlarge 4
"$press/look" out/page-001 front.png --shrink 4
"$press/look" out/page-002 back.png --shrink 4
"$press/look" out/page-001 traps.png --traps --part 420,180,560,560 >/dev/null
rm -rf out
