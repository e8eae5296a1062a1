# What door.sh, steps.sh, translations.sh and parkings.sh share: cases through a driver in C and through the second program. resumed.sh takes the driver
# alone. To be sourced at the project's root.
export LC_ALL=C
. tests/need.sh
. tests/x86.sh

# begin NAME DRIVER CRATE [COUNT [SEED [plain]]]: makes both programs; the driver over the crate's proved archive, or over the plain C reader of bench/.
begin() {
  name=$1 count=${4:-5000} seed=${5:-1} side=${6:-proved}
  case $side in proved | plain) ;; *) echo "usage: $name.sh [COUNT [SEED [plain]]]" >&2; exit 1 ;; esac
  need python3 python3
  room=$(mktemp -d)
  trap 'rm -rf "$room"' EXIT
  : >"$room/met"
  : >"$room/differ"
  cases=0
  (cd second && cargo build --release --offline --quiet)
  if [ "$side" = plain ]; then
    x86_cc -O2 -Wall -Wextra -DPLAIN "tests/$2.c" bench/reader.c bench/plain.c bench/park.c -o "$room/driver"
  else
    archive "$3"
    x86_cc -O2 -Wall -Wextra "tests/$2.c" "target/staticlib/lib$3.a" -o "$room/driver"
  fi
}

# chunk WORDS..: the cases that runcases.py writes for these words. Adds to the files `met` and `differ`.
chunk() {
  local made lines
  python3 tests/runcases.py "$@" >"$room/cases"
  x86_run "$room/driver" "$room/cases" "$room/outcomes" >"$room/said"
  second/target/release/second cases "$room/cases" >"$room/second"
  made=$(wc -l <"$room/cases")
  for lines in said second; do
    [ "$(wc -l <"$room/$lines")" -eq "$made" ] || { echo "$name: $*: $lines has another number of lines than $made" >&2; exit 1; }
  done
  cat "$room/outcomes" >>"$room/met"
  paste "$room/cases" "$room/said" "$room/second" | awk -F '\t' -v words="$*" '$2 != $3 { print words "\t" $0 }' >>"$room/differ"
  cases=$((cases + made))
}

# chunks LETTER: COUNT cases of this kind, some at a time, so that a million needs little room.
chunks() {
  local left=$count part=0 most=20000 now before=$cases
  while [ "$left" -gt 0 ]; do
    part=$((part + 1))
    now=$((left < most ? left : most))
    chunk "$1" "$now" "$seed.$part"
    left=$((left - now))
  done
  [ $((cases - before)) -eq "$count" ] || { echo "$name: the generator wrote another number of cases" >&2; exit 1; }
}

# end: what was met and how often, the first differences, the counts. Exit status 1 on any difference, or if with 5000 cases and more an
# outcome was never met.
end() {
  local failed=0 differ enough=5000
  awk -F '\t' -v name="$name" '!($2 in sum) { order[++n] = $2 } { sum[$2] += $1 }
    END { for (i = 1; i <= n; i++) print name ": " order[i] ": " sum[order[i]] }' "$room/met" | tee "$room/sums"
  if [ "$count" -ge "$enough" ] && grep -q ': 0$' "$room/sums"; then
    echo "$name: something was never met"
    failed=1
  fi
  head -n 5 "$room/differ" | awk -F '\t' '{ print "cases " $1; for (i = 2; i <= 4; i++) print "  " substr($i, 1, 300) }'
  differ=$(wc -l <"$room/differ")
  echo "$name: $side: $cases cases, $differ differences, $SECONDS seconds"
  [ "$differ" -eq 0 ] || failed=1
  exit "$failed"
}
