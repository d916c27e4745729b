#!/usr/bin/env bash
# SPDX-License-Identifier: Apache-2.0
# Runs the program on each plate of this folder, and compares what it writes with a reader of its own.
set -eu
here=$(cd "$(dirname "$0")" && pwd)
out=$(mktemp -d)
trap 'rm -rf "$out"' EXIT
printf '<< /Enabled false >> settrapparams showpage' > "$out/job"
count=0
for plate in "$here"/*.pgm; do
  "$here/../../bin/trap" page "$out/job" "$out/report" "Ink:$plate:$out/plate"
  python3 "$here/check.py" "$plate" "$out/plate" || { echo "examples/plates: $(basename "$plate") differs" >&2; exit 1; }
  count=$((count + 1))
done
echo "examples/plates: $count plates were read and written again, as expected"
