#!/usr/bin/env bash
# The plain streams of the corpus are those that are stored, by the second program and by the proved translator through the library
# for C. Exit status 1 on any difference. plains.sh plain puts the plain C translator of bench/ in the place of the proved archive.
set -eu
cd "$(dirname "$0")/.."
export LC_ALL=C
case ${1:-} in "" | plain) ;; *) echo "usage: plains.sh [plain]" >&2; exit 1 ;; esac

. tests/need.sh
. tests/x86.sh
need python3 python3
room=$(mktemp -d)
trap 'rm -rf "$room"' EXIT

(cd second && cargo build --release --offline --quiet)
if [ "${1:-}" = plain ]; then
  x86_cc -O2 -Wall -Wextra -DPLAIN tests/plain.c bench/reader.c bench/plain.c -o "$room/plain"
else
  archive door
  x86_cc -O2 -Wall -Wextra tests/plain.c target/staticlib/libdoor.a -o "$room/plain"
fi
python3 tests/plains.py tests/vectors/corpus second/target/release/second plain
python3 tests/plains.py tests/vectors/corpus ${x86_emulator:+"$x86_emulator"} "$room/plain"
