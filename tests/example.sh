#!/usr/bin/env bash
# The examples over the proved door: what each prints must be the text stored in tests/vectors/example. The picture of page.c must be
# the second program's page; what the jobs in pieces tell, in C and in Rust, must be what the second program finds. Exit status 1 on any
# difference. example.sh plain puts the plain C reader of bench/ in the place of the proved archive.
set -eu
cd "$(dirname "$0")/.."
export LC_ALL=C
case ${1:-} in "" | plain) ;; *) echo "usage: example.sh [plain]" >&2; exit 1 ;; esac

. tests/need.sh
. tests/x86.sh
need cargo cargo
need gcc gcc # cargo links by it
need xz xz-utils
room=$(mktemp -d)
trap 'rm -rf "$room"' EXIT
stored=tests/vectors/example corpus=tests/vectors/corpus second=second/target/release/second
(cd second && cargo build --release --offline --quiet)

# ---- C
strict="-O2 -Wall -Wextra -Werror -pedantic"
plain=() # options that give the plain reader's functions the door's names
for name in afresh sound dots run translate park unpark; do plain+=("-Dplain_$name=rov_$name"); done
if [ "${1:-}" = plain ]; then
  in_c() { x86_cc $strict "${plain[@]}" "examples/$1.c" bench/reader.c bench/plain.c bench/park.c -o "$room/$1"; }
else
  ./rovinuset archive -o "$room/librovinuset.a" >/dev/null
  in_c() { x86_cc $strict "examples/$1.c" "$room/librovinuset.a" -o "$room/$1"; }
fi
in_c page
in_c pieces

# ---- Rust. For x86-64 if rustc can, which on another machine it can where that target's standard library is installed; if not, the example is
# linked with plain C for this machine: then it shows that the wrapper and the example are right, not that they fit the proved archive.
x86=x86_64-unknown-linux-gnu over="the proved archive"
if [ "${1:-}" != plain ] && [ -d "$(rustc --print sysroot)/lib/rustlib/$x86/lib" ]; then
  target=(--target "$x86")
  if [ "$(uname -m)" != x86_64 ]; then
    export CARGO_TARGET_X86_64_UNKNOWN_LINUX_GNU_LINKER=x86_64-linux-gnu-gcc CARGO_TARGET_X86_64_UNKNOWN_LINUX_GNU_RUNNER=$x86_emulator
    export CARGO_TARGET_X86_64_UNKNOWN_LINUX_GNU_RUSTFLAGS="-C target-feature=+crt-static"
  fi
else
  target=() over="plain C"
  for file in reader plain park; do gcc $strict "${plain[@]}" -c "bench/$file.c" -o "$room/$file.o"; done
  rm -f "$room/librovinuset.a"
  ar rcs "$room/librovinuset.a" "$room/reader.o" "$room/plain.o" "$room/park.o"
fi
in_rust() { (cd examples/rust && ROVINUSET_LIB=$room cargo "$1" --release --offline --quiet "${target[@]}" "${@:2}"); }

# ---- what they print
failed=0 jobs=0
# prints NAME STATUS COMMAND..: the command, standard input as it is, must print $stored/NAME.txt and end with STATUS.
prints() {
  local name=$1 expected=$2 status=0
  shift 2
  jobs=$((jobs + 1))
  "$@" >"$room/printed" || status=$?
  if [ "$status" -ne "$expected" ] || ! diff "$stored/$name.txt" "$room/printed"; then
    echo "example: $name: another text, or status $status where $expected is right"
    failed=1
  fi
}
page() { x86_run "$room/page" "$@"; }
pieces() { x86_run "$room/pieces" "$@"; }

# Not by pipes: behind a pipe, `failed` would be another shell's.
prints paper 0 page < <(printf '\33&f1S\33*t300R\33*b2W\377\200\f')
prints corpus 0 page "$corpus/gm-curve-150.pcl" 2552 3304 "$room/picture"
"$second" pages 2552 3304 <"$corpus/gm-curve-150.pcl" | cmp - "$room/picture" || failed=1
prints measure 2 page - 7 800 < <(printf 'a\f')
prints longer 2 page < <(head -c 1048577 /dev/zero)

job=$room/job.pcl
xz -dc "$corpus/hp2xx-300-pcl3gui.pcl.xz" >"$job"
prints pieces 0 pieces "$job" 2552 3304
prints pieces 0 in_rust run -- "$job" 2552 3304
# The same text at any number of items to a turn, but for the number of turns; and the text is that of the second program's trace.
sed 's/ in [0-9]* turns//' "$stored/pieces.txt" >"$room/wanted"
for items in 1 7 4780 4781 18446744073709551615; do
  for program in pieces "in_rust run --"; do
    jobs=$((jobs + 1))
    $program "$job" 2552 3304 "$items" | sed 's/ in [0-9]* turns//' | diff "$room/wanted" - || failed=1
  done
done
"$second" trace 2552 3304 <"$job" | awk -F'\t' '
  $1 == "ITEM" && $4 > 0 { print "place " $2 ": finding " $4 }
  $1 == "PAGE" { print "page " $2 ": " $3 " dots"; pages = $2 }
  $1 == "END" { print "end: x " $2 ", y " $3 ", stack depth " $NF }
  $1 == "COUNT" { print $2 " items, " $3 " findings, " pages " pages: as in one go" }' | diff - "$room/wanted" || failed=1
prints refused 2 pieces "$job" 7 800
prints refused 2 in_rust run -- "$job" 7 800

in_rust test >"$room/tests" 2>&1 || {
  cat "$room/tests"
  failed=1
}
[ "$failed" -ne 0 ] || echo "example: $jobs jobs, as stored; the Rust example and its tests over $over"
exit "$failed"
