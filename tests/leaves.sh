#!/usr/bin/env bash
# The proved leaves against the second program: leaves.sh [COUNT [SEED]] runs COUNT cases of each kind (values, items, rows of
# each method, paintings, numbers written) through both and compares what they say. Exit status 1 on any difference.
set -eu
cd "$(dirname "$0")/.."
export LC_ALL=C
count=${1:-5000} seed=${2:-1}

. tests/need.sh
. tests/x86.sh
need python3 python3
room=$(mktemp -d)
trap 'rm -rf "$room"' EXIT

(cd second && cargo build --release --offline --quiet)
archive leaf_door
x86_cc -O2 -Wall -Wextra tests/leaves.c target/staticlib/libleaf_door.a -o "$room/leaves"

failed=0
for kind in V I D P N; do
  cases=$count
  [ "$kind" != D ] || cases=$((count * 12)) # enough for COUNT rows of each method
  python3 tests/leafcases.py "$kind" "$cases" "$seed" >"$room/cases"
  [ "$(wc -l <"$room/cases")" -eq "$cases" ] || { echo "leaves: $kind: the generator wrote another number of cases" >&2; exit 1; }
  if [ "$kind" = D ]; then
    for method in 0 1 2 3; do
      [ "$(grep -c "^D $method " "$room/cases")" -ge "$count" ] || { echo "leaves: D: too few rows of method $method" >&2; exit 1; }
    done
  fi
  x86_run "$room/leaves" "$room/cases" >"$room/proved"
  second/target/release/second leaves "$room/cases" >"$room/second"
  [ "$(wc -l <"$room/second")" -eq "$cases" ] || { echo "leaves: $kind: the second program wrote another number of lines" >&2; exit 1; }
  differ=$(paste -d '|' "$room/cases" "$room/proved" "$room/second" | awk -F '|' '$2 != $3' | tee "$room/differ" | wc -l)
  echo "leaves: $kind: $cases cases, $differ differences"
  head -n 5 "$room/differ" | cut -c 1-300
  [ "$differ" -eq 0 ] || failed=1
done
exit "$failed"
