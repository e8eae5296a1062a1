#!/usr/bin/env bash
# The library as firmware takes it: ./rovinuset archive and what it says, its link line, the header in C and in C++, and what
# docs/DOOR.md says of it: what the archive references, that it has no data, the names with their numbers, the stack. A line for each
# failed check, then the count.
set -eu
cd "$(dirname "$0")/.."
export LC_ALL=C
. tests/need.sh
. tests/x86.sh
need readelf binutils
root=$PWD
room=$(mktemp -d)
trap 'rm -rf "$room"' EXIT

checks=0 failed=0
# check WHAT COMMAND..: the command must succeed.
check() {
  checks=$((checks + 1))
  "${@:2}" && return 0
  failed=$((failed + 1))
  echo "firmware: $1"
}
# unbuilt TEXT WORDS..: $command with these words and $path must end by 2, print nothing, and say this in its last line.
unbuilt() {
  local status=0
  PATH=$path "$command" "${@:2}" >"$room/printed" 2>"$room/said" || status=$?
  [ "$status" -eq 2 ] && [ ! -s "$room/printed" ] && tail -n 1 "$room/said" | grep -qF "$1"
}

# ---- the command
command=$root/rovinuset path=$PATH
"$command" archive >"$room/told"
check "the archive is the library door" cmp target/staticlib/libdoor.a target/librovinuset.a
check "it says where the archive is" grep -qxF "archive: $root/target/librovinuset.a" "$room/told"
check "it says where the header is" grep -qxF "header: $root/include/rovinuset.h" "$room/told"
(cd "$room" && "$command" archive -o mine.a >/dev/null)
check "-o FILE" cmp target/staticlib/libdoor.a "$room/mine.a"
"$command" archive -o - >"$room/mine.a" 2>"$room/said"
check "-o -" cmp target/staticlib/libdoor.a "$room/mine.a"
check "its lines are on standard error then" grep -qx "archive: -" "$room/said"
check "-o in no folder" unbuilt "no such folder: $room/none" archive -o "$room/none/mine.a"
check "-o a folder" unbuilt "a folder, not a file: $room" archive -o "$room"
check "-o nothing" unbuilt "archive takes -o once, and the file to write behind it" archive -o ""
check "another word" unbuilt "archive takes -o and a file" archive mine.a
check "bench with a word" unbuilt "bench takes no words" bench mine

# ---- where it cannot be built: a copy of the project without its crates, and a path without the kit
mkdir "$room/tools" "$room/copy" "$room/copy/crates"
for tool in bash dirname readlink; do ln -s "$(type -P "$tool")" "$room/tools/"; done
cp -r rovinuset tools tests crates.txt "$room/copy/"
command=$room/copy/rovinuset path=$room/tools
check "no kit" unbuilt "the Rattle kit (rt) is not here" archive
path=$PATH
: >"$room/copy/target"
check "no place to build" unbuilt "door cannot be proved and built: no permission to write in: $room/copy/target" archive
rm "$room/copy/target"
check "nothing to prove" unbuilt "door was not built: $room/copy/target/rovinuset.log says why" archive

# ---- C, the link line as it is printed, and C++
cat >"$room/job.c" <<'C'
#include "rovinuset.h"
int main(void) {
    uint8_t state[ROV_STATE];
    return rov_afresh(640, 800, state, sizeof state) == ROV_CARRIED_OUT && rov_sound(640, 800, state, sizeof state) ? 0 : 1;
}
C
for standard in c99 c11 c17; do
  check "$standard" x86_cc -std=$standard -Wall -Wextra -Werror -pedantic -Iinclude "$room/job.c" target/librovinuset.a -o "$room/job"
done
check "the link line" bash -c "cd '$room' && $(sed -n 's/^link: //p' "$room/told")"
check "a job linked so" x86_run "$room/a.out"
for standard in c++11 c++20; do
  check "$standard" x86_cxx -x c++ -std=$standard -Wall -Wextra -Werror -pedantic -Iinclude "$room/job.c" -x none target/librovinuset.a -o "$room/job"
  check "a job in $standard" x86_run "$room/job"
done

# ---- what docs/DOOR.md says of the archive
readelf -sW target/librovinuset.a | awk '$7 == "UND" && NF > 7 { print $8 }' | sort >"$room/references"
check "it references memcpy and memset alone" diff - "$room/references" < <(printf 'memcpy\nmemset\n')
readelf -sW target/librovinuset.a | awk '$5 == "GLOBAL" && $7 != "UND" { print $8 }' | sort >"$room/defined"
check "it defines the seven calls alone" diff - "$room/defined" < <(printf 'rov_%s\n' afresh dots park run sound translate unpark)
# Sections that are loaded and writable would be data of its own.
check "it has no data" [ -z "$(readelf -SW target/librovinuset.a | grep ' WA')" ]

check "there is no recursion" python3 tests/calls.py target/librovinuset.a

# ---- its tables: each name of the header with its number or offset, and the stack
names=0
while read -r number name; do
  names=$((names + 1))
  check "docs/DOOR.md has no row for ROV_$name, $number" grep -qE "^\| $number \|( [0-9]+ \|)? \`$name\` \|" docs/DOOR.md
done < <(sed -nE 's/^ *ROV_([A-Z_]+) = ([0-9]+).*/\2 \1/p' include/rovinuset.h)
check "the header has 18 numbers and 18 offsets, not $names of both" [ "$names" -eq 36 ]
measured=0
while read -r call used; do
  measured=$((measured + 1))
  said=$(sed -nE "s/^\| \`$call\` \| ([0-9,]+) \|$/\1/p" docs/DOOR.md | tr -d ,)
  check "$call used $used bytes of stack, docs/DOOR.md says ${said:-nothing}" [ "$used" -le "${said:-0}" ]
done < <(bench/stack | sed -nE 's/^\| `(rov_[a-z]+)` \| ([0-9]+) \|$/\1 \2/p')
check "the stack of seven calls is measured, not of $measured" [ "$measured" -eq 7 ]

echo "firmware: $checks checks, $failed failed"
[ "$failed" -eq 0 ]
