#!/usr/bin/env bash
# SPDX-License-Identifier: Apache-2.0
# Compiles the Rust crates over library/out and runs their tests on the poster, without a network: they have no dependencies. It says
# that it skips them where cargo is not there.
set -eu
top=$(cd "$(dirname "$0")/../.." && pwd)
out=$top/check/out/rust

command -v cargo >/dev/null || { echo "check/library/rust.sh: skipped, there is no cargo"; exit 0; }
rm -rf "$out"
mkdir -p "$out/poster/plates" "$out/poster/expected"
cp "$top/examples/poster/poster.job" "$out/poster"
cp "$top/examples/poster/expected/report" "$out/poster/report"
for ink in Cyan Magenta Yellow Black; do
  for folder in plates expected; do gzip -dc "$top/examples/poster/$folder/$ink.pgm.gz" >"$out/poster/$folder/$ink.pgm"; done
done
export TRAP_LIBRARY_DIR=$top/library/out TRAP_STATIC=1 TRAP_POSTER=$out/poster CARGO_TARGET_DIR=$out/target
cargo test --quiet --offline --manifest-path "$top/rust/Cargo.toml" >"$out/told" 2>&1 || { cat "$out/told" >&2; exit 1; }
echo "library: the Rust crates trap the poster, as bytes, as words and in bands"
