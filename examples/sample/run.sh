#!/usr/bin/env bash
# SPDX-License-Identifier: Apache-2.0
# Traps a sample page of four million samples three times, with one worker twice and once with seven, and compares what is told.
set -eu
cd "$(dirname "$0")"
out=out
rm -rf "$out"
mkdir "$out"
for run in 1 1 7; do
  ../../bin/trap sample 7 2048 2048 "$run" > "$out/told"
  if [ -e "$out/first" ]; then
    cmp "$out/first" "$out/told"
  else
    mv "$out/told" "$out/first"
  fi
done
grep -q '^page 2048 2048 255 plates 4$' "$out/first"
grep -q '^end$' "$out/first"
rm -r "$out"
echo "examples/sample: the same report at each run"
