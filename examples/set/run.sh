#!/usr/bin/env bash
# SPDX-License-Identifier: Apache-2.0
# The traps of the poster as a file of their own: makes the set, looks at it, puts it onto the plates, and compares these with
# the plates that `trap page` has to write.
set -eu
cd "$(dirname "$0")"
out=out
poster=../poster
inks=(Cyan Magenta Yellow Black)

rm -rf "$out"
mkdir -p "$out/plates" "$out/trapped"
traps=()
apply=()
for ink in "${inks[@]}"; do
  gzip -dc "$poster/plates/$ink.pgm.gz" > "$out/plates/$ink.pgm"
  traps+=("$ink:$out/plates/$ink.pgm")
  apply+=("$out/plates/$ink.pgm:$out/trapped/$ink.pgm")
done
../../bin/trapset traps "$poster/poster.job" "$out/poster.set" "${traps[@]}"

head -n 4 "$out/poster.set"
echo "... $(grep -c '^run ' "$out/poster.set") runs, $(awk '$1 == "run" { n += $4 } END { print n }' "$out/poster.set") samples"

../../bin/trapset apply "$out/poster.set" "${apply[@]}"
for ink in "${inks[@]}"; do
  gzip -dc "$poster/expected/$ink.pgm.gz" | cmp - "$out/trapped/$ink.pgm"
done
echo "examples/set: the set gives the plates that trap page writes"

# The same set is for no other plates.
if told=$(../../bin/trapset apply "$out/poster.set" "${apply[0]}"); then
  echo "examples/set: one plate took the set of four" >&2
  exit 1
fi
[ "$told" = "set: Differs" ]
