#!/usr/bin/env bash
# SPDX-License-Identifier: Apache-2.0
# Compiles the examples of the library, runs each and compares what it makes with what must come out of examples/poster. It says
# what it skips where a tool is not there. What it makes lies in out/.
set -eu
cd "$(dirname "$0")"
top=../..
out=out
inks=(Cyan Magenta Yellow Black)
CC=${CC:-cc}

there() { command -v "$1" >/dev/null; }
skip() { echo "examples/library: $1: skipped, $2"; }
well() { echo "examples/library: $1"; }

there "$CC" || { skip "all" "there is no C compiler"; exit 0; }
$top/library/build >/dev/null
library=$top/library/out
rm -rf $out
mkdir -p $out/plates $out/trapped

# compiled NAME WORD ..: the program, linked with the one archive.
compiled() {
  "$CC" -std=c99 -D_POSIX_C_SOURCE=200809L -O2 -Wall -Wextra -Werror -I$top/library -o "$out/$1" "$1.c" $library/libtrap.a "${@:2}"
}

# trap_files JOB REPORT NAME:IN:OUT ..: traps plates as files, by the program trap where it is there, else by page.c.
# Of three names that are known the newest.
# shellcheck disable=SC2012
program=$(ls -t "${CHECK_PROGRAMS:-.}/trap" $top/crates/trap/out/trap $top/out/release/trap 2>/dev/null | head -n 1)
by=${program:+trap}
trap_files() { if [ -n "$program" ]; then "$program" page "$@"; else $out/page -8 "$@"; fi; }

# compare_rip PROGRAM WORDS JOB PLATE ..: what a RIP traps while it renders the label, and what becomes of the plates as files that it
# writes untrapped. WORDS are those between the PDF and the job; the plates come in the order in which the RIP has them.
compare_rip() {
  local rip=$1 dpi=$2 job=$3 page plate words
  rm -rf $out/rendered $out/ripped $out/paged
  mkdir $out/rendered $out/ripped $out/paged
  # shellcheck disable=SC2086
  $out/"$rip" ../label/label.pdf $dpi - $out/rendered >$out/told
  # shellcheck disable=SC2086
  $out/"$rip" ../label/label.pdf $dpi "$job" $out/ripped >$out/told
  for page in 1 2; do
    words=()
    for plate in Cyan Magenta Yellow Black "${@:4}"; do
      [ ! -f "$out/rendered/$page-$plate.pgm" ] || words+=("$plate:$out/rendered/$page-$plate.pgm:$out/paged/$page-$plate.pgm")
    done
    trap_files "$job" "$out/paged/$page.report" "${words[@]}"
    # a RIP that traps by tiles writes no report
    [ -f "$out/ripped/$page.report" ] || rm "$out/paged/$page.report"
  done
  diff -r $out/paged $out/ripped
  ! diff -rq $out/rendered $out/ripped >$out/told || { echo "examples/library: $rip changed nothing" >&2; exit 1; }
}

# A page of PGM files, held as bytes and as 16-bit numbers.
compiled page
for ink in "${inks[@]}"; do gzip -dc "$top/examples/poster/plates/$ink.pgm.gz" >$out/plates/"$ink.pgm"; done
for width in -8 ""; do
  words=()
  for ink in "${inks[@]}"; do words+=("$ink:$out/plates/$ink.pgm:$out/trapped/$ink.pgm"); done
  # shellcheck disable=SC2086
  $out/page $width $top/examples/poster/poster.job $out/report "${words[@]}"
  cmp $out/report $top/examples/poster/expected/report
  for ink in "${inks[@]}"; do gzip -dc "$top/examples/poster/expected/$ink.pgm.gz" | cmp - $out/trapped/"$ink.pgm"; done
  rm $out/report $out/trapped/*
done
well "page.c gives the plates and the report of the poster, as bytes and as words"

# job_at DPI: a job for the poster's plates at another resolution: two zones of other widths, a triangle over the right part of the page.
job_at() {
  LC_ALL=C awk -v dpi="$1" '
    function points(pixels) { return sprintf("%.4f", pixels * 72 / dpi) }
    BEGIN {
      print "<< /HWResolution [" dpi " " dpi "] /TrappingDetails << /Type 1001 /ColorantDetails << /Cyan << /NeutralDensity 0.61 >>"
      print "/Magenta << /NeutralDensity 0.76 >> /Yellow << /NeutralDensity 0.16 >> /Black << /NeutralDensity 1.7 >> >> >> >> setpagedevice"
      print "<< /TrapWidth " points(3.1) " >> settrapparams 0 0 moveto " points(400) " 0 lineto " points(400) " " points(300)
      print "lineto 0 " points(300) " lineto settrapzone << /TrapWidth " points(5.2) " /BlackWidth 0.6 /TrapColorScaling 0.5 >> settrapparams"
      print points(90) " 5 moveto " points(390) " " points(11) " lineto " points(290) " " points(295) " lineto settrapzone showpage"
    }'
}

# compare_windows PROGRAM: what a program makes in windows of the poster's plates, beside one call and, where it is built, trapsheet.
# At 2,540 dpi windows lie on a grid of 127 pixels.
compare_windows() {
  local dpi
  for dpi in 600 2540; do
    job_at $dpi >$out/job
    $out/page -8 $out/job $out/whole.report "${words[@]}"
    for ink in "${inks[@]}"; do mv $out/trapped/"$ink.pgm" $out/trapped/"$ink.whole"; done
    $out/"$1" $dpi $out/job $out/report "${words[@]}"
    cmp $out/whole.report $out/report
    for ink in "${inks[@]}"; do cmp $out/trapped/"$ink.whole" $out/trapped/"$ink.pgm"; done
    ! cmp -s $out/plates/Yellow.pgm $out/trapped/Yellow.pgm || { echo "examples/library: $1 changed nothing" >&2; exit 1; }
    [ -z "$sheet" ] || "$sheet" 2 $out/job $out/report "${words[@]}"
    cmp $out/whole.report $out/report
    for ink in "${inks[@]}"; do cmp $out/trapped/"$ink.whole" $out/trapped/"$ink.pgm"; done
    rm $out/report $out/trapped/*
  done
  # with another grid than the job's the library refuses
  ! $out/"$1" 600 $out/job $out/report "${words[@]}" 2>$out/told || { echo "examples/library: $1: any grid is taken" >&2; exit 1; }
  grep -qx "call: Place" $out/told
  rm -f $out/trapped/*
}

# The same page tile by tile, from four threads, and band by band.
compiled tiles -pthread
compiled bands
sheet=$("$top/tools/program" --there trapsheet 2>$out/told) || sheet=
words=()
for ink in "${inks[@]}"; do words+=("$ink:$out/plates/$ink.pgm:$out/trapped/$ink.pgm"); done
for windows in tiles bands; do
  $out/$windows 300 $top/examples/poster/poster.job $out/report "${words[@]}"
  cmp $out/report $top/examples/poster/expected/report
  for ink in "${inks[@]}"; do gzip -dc "$top/examples/poster/expected/$ink.pgm.gz" | cmp - $out/trapped/"$ink.pgm"; done
  rm $out/report $out/trapped/*
  compare_windows $windows
done
well "tiles.c and bands.c give them too, tile by tile from four threads and band by band, and at 600 and 2,540 dpi what page.c${sheet:+ and trapsheet} give"

# The header is C++ too.
if there c++; then
  echo '#include "trap.h"
int main() { return trap_planes8(0, 0, 0, 0, 0, 0, 0, 0, 0, 0, 0, 0, 0) != 0; }' >$out/header.cpp
  c++ -std=c++98 -pedantic -Wno-long-long -Wall -Wextra -Werror -fsyntax-only -I$top/library $out/header.cpp
  well "trap.h is read by a C++ compiler"
else
  skip "trap.h in C++" "there is no C++ compiler"
fi

# Ghostscript's own raster.
if flags=$(./libgs-flags); then
  # shellcheck disable=SC2086
  compiled rip_gs $flags
  compare_rip rip_gs "300 1050x700" label.job Gold_Foil Label_Red
  well "rip_gs.c traps the two pages of the label in Ghostscript's own raster, as ${by:-page.c} does with its plates as files"
else
  skip "rip_gs.c" "libgs and its headers (libgs-dev) are not there"
fi

# MuPDF's pixels, rendered band by band. Debian's library is a static one, so what it needs has to be there too.
if there pkg-config && flags=$(pkg-config --cflags --libs --static mupdf 2>$out/told); then
  # shellcheck disable=SC2086
  "$CC" -std=c99 -D_POSIX_C_SOURCE=200809L -O2 -Wall -Wextra -Werror -I$top/library $flags -c -o $out/rip_mupdf.o rip_mupdf.c
  # shellcheck disable=SC2086
  if "$CC" -o $out/rip_mupdf $out/rip_mupdf.o $library/libtrap.a $flags -lharfbuzz 2>$out/told; then
    compare_rip rip_mupdf 300 label.job Label_Red Gold_Foil
    well "rip_mupdf.c traps the two pages of the label as MuPDF renders them, as ${by:-page.c} does with its plates as files"
  else
    skip "rip_mupdf.c" "a library that MuPDF needs is not there"
  fi
else
  skip "rip_mupdf.c" "MuPDF's library and headers (libmupdf-dev) are not there"
fi

# Poppler's pixels, trapped tile by tile.
if there c++ && there pkg-config && pkg-config --atleast-version=22.6 poppler &&
  flags=$(pkg-config --cflags --libs poppler) && [ -f "$(pkg-config --variable=includedir poppler)/poppler/SplashOutputDev.h" ]; then
  # shellcheck disable=SC2086
  c++ -std=c++17 -O2 -Wall -Wextra -Werror -I$top/library -o $out/rip_poppler rip_poppler.cc $library/libtrap.a ${flags//-I/-isystem }
  compare_rip rip_poppler 300 label.job Label_Red Gold_Foil
  # at 254 dpi the windows of a job with zones lie on a grid of 127 pixels, as at 2,540
  sed 's/\[300 300\]/[254 254]/; s/^showpage$/3 2 moveto 240 9 lineto 150 160 lineto settrapzone showpage/' label.job >$out/label-254.job
  compare_rip rip_poppler 254 $out/label-254.job Label_Red Gold_Foil
  well "rip_poppler.cc traps the two pages of the label in tiles, at 300 and 254 dpi, as ${by:-page.c} does with its plates as files"
else
  skip "rip_poppler.cc" "Poppler's library and its private headers (libpoppler-private-dev), 22.6 or newer, are not there"
fi

if there python3; then
  TRAP_LIBRARY=$PWD/$library/libtrap.so.1 python3 -B picture.py $out/traps.ppm
  well "picture.py drew the traps"
else
  skip "picture.py" "there is no python3"
fi
