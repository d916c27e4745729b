#!/usr/bin/env bash
# SPDX-License-Identifier: Apache-2.0
# Tries the library beside the slow program and under the eyes of Valgrind, AddressSanitizer and ThreadSanitizer: library.sh COUNT
# SEED [--short]. The sanitizers see the C programs, each request for memory and each lock, and not what the library itself reads and
# writes; Valgrind sees all. With --short the runs under Valgrind are left out. It says what it skips where a tool is not there.
set -eu
here=$(cd "$(dirname "$0")" && pwd)
top=$(dirname "$here")
out=$here/out/library
CC=${CC:-cc}
[ $# -ge 2 ] || { echo "usage: library.sh COUNT SEED [--short]" >&2; exit 2; }

there() { command -v "$1" >/dev/null; }
skip() { echo "check/library.sh: $1: skipped, $2"; }

there "$CC" || { skip "all" "there is no C compiler"; exit 0; }
there python3 || { skip "all" "there is no python3"; exit 0; }
"$top/library/build" >/dev/null
mkdir -p "$out"
rm -rf "${out:?}"/*
library=$top/library/out

# What the library asks the system for: memory, and moving it. So it opens no file and starts no thread. And it keeps nothing: the
# archive has one variable, a byte whose address stands for a block that was refused, and which nobody reads or writes; the shared
# object has, besides, what the linker puts into each, 8 bytes of .data and of .bss in all.
bare() {
  local wanted="free malloc memcpy memmove memset realloc" found
  found=$(nm -D --undefined-only "$library/libtrap.so.1" | sed -n 's/^ *U \([^@]*\).*/\1/p' | sort | tr '\n' ' ')
  [ "$found" = "$wanted " ] || { echo "check/library.sh: libtrap.so.1 asks for $found" >&2; return 1; }
  found=$(size -A "$library/libtrap.so.1" | awk '$1 ~ /^[.](t?data|t?bss)$/ { sum += $2 } END { print sum + 0 }')
  [ "$found" -le 16 ] || { echo "check/library.sh: libtrap.so.1 has $found bytes of variables" >&2; return 1; }
  found=$(nm "$library/libtrap.a" | awk '$2 ~ /^[BbCDdGgSs]$/ { print $3 }')
  [ "$found" = nothing ] || { echo "check/library.sh: libtrap.a has other variables: $found" >&2; return 1; }
  echo "library: it asks for ${wanted// /, } alone, and keeps nothing"
}

# What others see of the library: the exports alone, in the archive too. And its tables of addresses cannot be written once it is loaded.
closed() {
  local found
  found=$(nm -g --defined-only "$library/libtrap.a" | awk 'NF == 3 && $3 !~ /^trap_/ { print $3 }')
  [ -z "$found" ] || { echo "check/library.sh: libtrap.a has other global names: $found" >&2; return 1; }
  found=$(readelf -dlW "$library/libtrap.so.1" | grep -cE 'BIND_NOW|GNU_RELRO')
  [ "$found" -ge 2 ] || { echo "check/library.sh: libtrap.so.1 is not linked with -z relro and -z now" >&2; return 1; }
  echo "library: its global names are the exports, and its tables are read-only"
}

# The toolchain's crates that have code in the library are those that THIRD-PARTY names for it, besides libc's allocator.
noted() {
  local crate
  for crate in $(nm "$library/libtrap.a" | awk '$2 == "t" { print $3 }' | sed -n 's/::.*//p' | sort -u); do
    grep -q "^${crate}[: ]" "$top/crates.txt" || grep -q "^  ${crate}  .*libtrap" "$top/THIRD-PARTY" ||
      { echo "check/library.sh: libtrap.a has code of $crate, and THIRD-PARTY does not name it" >&2; return 1; }
  done
  echo "library: THIRD-PARTY names the toolchain's crates that have code in it"
}

# compiled NAME WORD ..: a program of this folder, against the header.
compiled() { "$CC" -std=c99 -O2 -g -Wall -Wextra -Werror -I"$top/library" -o "$out/$1" "$here/library/$1.c" "${@:2}"; }

python3 -B "$here/library/boundary.py"
if there nm; then noted; else skip "crates in the library" "there is no nm"; fi
if there nm && there size; then bare; else skip "what the library asks for" "there is no nm"; fi
if there nm && there readelf && there objcopy; then closed; else skip "what others see of the library" "there is no readelf or objcopy"; fi
python3 -B "$here/library.py" "$1" "$2"
if python3 -c 'import numpy' 2>/dev/null; then
  TRAP_LIBRARY=$library/libtrap.so.1 python3 -B "$here/library/arrays.py"
else
  skip "NumPy arrays" "python3 has no numpy"
fi

"$here/library/rust.sh"

compiled refused "$library/libtrap.a" -Wl,--wrap=malloc,--wrap=realloc,--wrap=free
"$out/refused"
compiled handle "$library/libtrap.a" -Wl,--wrap=malloc,--wrap=realloc,--wrap=free
"$out/handle"
shared=(-pthread -L"$library" -ltrap "-Wl,-rpath,$library")
compiled threads "${shared[@]}"
"$out/threads"
compiled stack -pthread "$library/libtrap.a"
"$out/stack"
compiled stated "$library/libtrap.a"
"$out/stated"
compiled random -pthread "$library/libtrap.a"
"$out/random" 20000 "$2" 8

# The page of the poster, whose files are written as they have to be.
plates() {
  local ink
  for ink in Cyan Magenta Yellow Black; do
    gzip -dc "$top/examples/poster/plates/$ink.pgm.gz" >"$out/$ink.pgm"
    words+=("$ink:$out/$ink.pgm:$out/$ink.trapped.pgm")
  done
}
words=()
plates
page() { "$@" "$top/examples/poster/poster.job" "$out/report" "${words[@]}" && cmp "$out/report" "$top/examples/poster/expected/report"; }

# The sanitizers of older compilers fail now and then where the kernel scatters addresses widely: they run without that, where it may be had.
steady=(setarch -R)
"${steady[@]}" true 2>/dev/null || steady=()

# sanitized NAME SANITIZERS FILE WORD ..: a program with these sanitizers; or a line, where the compiler has none.
sanitized() {
  "$CC" -std=c99 -D_POSIX_C_SOURCE=200809L -O1 -g "-fsanitize=$2" -I"$top/library" -o "$out/$1" "$3" "${@:4}" 2>"$out/told" ||
    { skip "$1" "the compiler has no $2"; return 1; }
}

if sanitized page.asan address,undefined "$top/examples/library/page.c" "$library/libtrap.a" &&
  sanitized tiles.asan address,undefined "$top/examples/library/tiles.c" "$library/libtrap.a" -pthread &&
  sanitized bands.asan address,undefined "$top/examples/library/bands.c" "$library/libtrap.a"; then
  page "${steady[@]}" "$out/page.asan"
  page "${steady[@]}" "$out/page.asan" -8
  page "${steady[@]}" "$out/tiles.asan" 300
  page "${steady[@]}" "$out/bands.asan" 300
  echo "library: AddressSanitizer finds nothing on the poster, as a page, tile by tile and band by band"
fi
if flags=$("$top/examples/library/libgs-flags"); then
  # shellcheck disable=SC2086
  if sanitized rip.asan address,undefined "$top/examples/library/rip_gs.c" "$library/libtrap.a" $flags; then
    mkdir "$out/ripped"
    # Ghostscript's library lets some memory go only with the process.
    ASAN_OPTIONS=detect_leaks=0 "${steady[@]}" "$out/rip.asan" "$top/examples/label/label.pdf" 150 525x350 \
      "$top/examples/library/label.job" "$out/ripped" >"$out/told"
    echo "library: AddressSanitizer finds nothing in the RIP over Ghostscript's library"
  fi
else
  skip "the RIP" "libgs and its headers (libgs-dev) are not there"
fi
if sanitized threads.tsan thread "$here/library/threads.c" "${shared[@]}"; then
  "${steady[@]}" "$out/threads.tsan" >"$out/told"
  echo "library: ThreadSanitizer finds nothing between eight threads in the shared object"
fi
for kind in address,undefined thread; do
  if sanitized "random.${kind%%,*}" "$kind" "$here/library/random.c" -pthread "$library/libtrap.a"; then
    "${steady[@]}" "$out/random.${kind%%,*}" 3000 "$2" 8 >"$out/told"
    echo "library: with -fsanitize=$kind nothing is found in random calls by eight threads"
  fi
done

[ "${3:-}" != --short ] || exit 0
if ! there valgrind; then
  skip "memory and threads" "there is no valgrind"
  exit 0
fi
"$CC" -std=c99 -D_POSIX_C_SOURCE=200809L -O2 -g -I"$top/library" -o "$out/page" "$top/examples/library/page.c" "$library/libtrap.a"
"$CC" -std=c99 -D_POSIX_C_SOURCE=200809L -O2 -g -I"$top/library" -o "$out/tiles" -pthread "$top/examples/library/tiles.c" "$library/libtrap.a"
"$CC" -std=c99 -D_POSIX_C_SOURCE=200809L -O2 -g -I"$top/library" -o "$out/bands" "$top/examples/library/bands.c" "$library/libtrap.a"
page valgrind -q --error-exitcode=9 --leak-check=full "$out/page" -8
page valgrind -q --error-exitcode=9 --leak-check=full "$out/tiles" 300
page valgrind -q --error-exitcode=9 --leak-check=full "$out/bands" 300
echo "library: Valgrind finds nothing on the poster, as a page, tile by tile and band by band"
valgrind -q --tool=helgrind --error-exitcode=9 "$out/threads" 16
echo "library: Valgrind's helgrind finds nothing between eight threads"
valgrind -q --error-exitcode=9 --leak-check=full "$out/random" 500 "$2" 2 >"$out/told"
valgrind -q --error-exitcode=9 --leak-check=full "$out/handle" >"$out/told"
valgrind -q --tool=helgrind --error-exitcode=9 "$out/random" 300 "$2" 8 >"$out/told"
echo "library: Valgrind finds nothing in random calls, and nothing in a job that is opened and closed"
