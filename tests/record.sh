#!/usr/bin/env bash
# ./rovinuset record: what a browser shows of the records and the second program says of their marks, papers, what a record leaves out and says so, exit
# statuses, wrong words, and disks that are full. A line for each failed check, then the count. Exit status 1 on a failure. record.sh pictures writes the pictures of docs/ instead.
set -eu
cd "$(dirname "$0")/.."
. tests/checks.sh
need chromium chromium
need tidy tidy
root=$PWD
room=$(mktemp -d)
trap 'rm -rf "$room"' EXIT
curve=$root/tests/vectors/damaged/damaged-curve.pcl

if [ "${1-}" = pictures ]; then
  ./rovinuset record "$curve" -o "$room/record.html" || [ $? -eq 1 ]
  ./rovinuset draw "$curve" -o "$room" || [ $? -eq 1 ]
  python3 -B tests/recorded.py pictures chromium "$room/record.html" docs
  cp "$room/page-1.png" docs/damaged-curve.png
  printf '#!/bin/sh\nexec %s "%s" "$@"\n' "${x86_emulator:+"\"$x86_emulator\""}" "$root/target/bin/pages" >"$room/pages"
  chmod +x "$room/pages"
  while read -r job picture; do python3 -B tests/upright.py "$room/pages" "tests/vectors/$job.pcl" "docs/curve-$picture.png"; done <<'JOBS'
corpus/netpbm-pbmtolj-curve-150-packbits sent
damaged/flat-curve-before before
damaged/flat-curve after
JOBS
  exit
fi

said="the damaged curve"
right "not as make.py makes it" python3 -B tests/vectors/damaged/make.py --check
said="the flat curve"
right "not as flat.py makes it" python3 -B tests/vectors/damaged/flat.py --check
said="the browser"
(cd second && cargo build --release --offline --quiet)
mkdir "$room/browser"
right "shows something else" python3 -B tests/recorded.py shown chromium "$root/rovinuset" "$root/second/target/release/second" "$room/browser"
cd "$room" # it works from anywhere
for record in browser/*.pcl.html; do
  said="tidy: $record"
  right "$(tidy -e -q "$record" 2>&1)" [ -z "$(tidy -e -q "$record" 2>&1)" ]
done

# whole FILE: a record, from its first line to its last.
whole() { right "$1 is no record" [ "$(head -n 1 "$1") $(tail -n 1 "$1")" = "<!DOCTYPE html> </html>" ]; }
# page_is TEXT: so the record says the page's measure.
page_is() { right "another page: $(grep '<dt>Page measure' record.html)" grep -qF "<dt>Page measure</dt><dd>$1</dd>" record.html; }

printf '\33*t300R\33*b2W\377\200' >clean.pcl
damaged="finding 7, damaged row: 9, the first at place 1538"
call record "$curve" -o record.html
tells 1 "$damaged" "$default" "1 page, 9 findings, 93504 dots: record.html"
page_is "2,552 by 3,304 dots, 300 an inch (216.1 mm by 279.7 mm), the default"
cp record.html first.html
call record -o record.html <"$curve"
tells 1 "$damaged" "$default" "1 page, 9 findings, 93504 dots: record.html"
right "does not name standard input" grep -q '<h1>Record of standard input</h1>' record.html
call record 2552 3304 "$curve" -o record.html
tells 1 "$damaged" "1 page, 9 findings, 93504 dots: record.html"
page_is "2,552 by 3,304 dots, 300 an inch (216.1 mm by 279.7 mm)"
call record "$curve" -o record.html --all
tells 1 "$damaged" "$default" "1 page, 9 findings, 93504 dots: record.html"
right "with all of it another record" cmp -s first.html record.html
call record 640 800 clean.pcl -o record.html
tells 0 "1 page, 0 findings, 9 dots: record.html"
call record -o record.html /dev/null
tells 0 "the job is empty: it has no bytes" "$default" "0 pages, 0 findings, 0 dots: record.html"
right "the record does not say so" grep -q 'This job is empty: it has no bytes.' record.html
call record 641 800 clean.pcl -o record.html
refuses "rovinuset: record: refused, number 10: page measure not allowed"
right "the record does not say the refusal" grep -q 'This job was refused, number 10' record.html
page_is "641 by 800 dots"
whole record.html
call record 123456 98765432109876543210 clean.pcl -o record.html
refuses "rovinuset: record: refused, number 10: page measure not allowed"
page_is "123,456 by a million or more dots"
head -c 1048577 /dev/zero >long.pcl
call record long.pcl -o record.html
refuses "rovinuset: record: refused, number 12: job longer than 1,048,576 bytes"
right "the record does not say the refusal" grep -q 'This job was refused, number 12' record.html
ln -s record.html link.html
call record "$curve" -o link.html
tells 1 "$damaged" "$default" "1 page, 9 findings, 93504 dots: link.html"
right "the link is gone" [ -L link.html ]
right "another record behind the link" cmp -s first.html record.html
# Standard output, by any of its names: the record is there, and the summary on standard error.
for goal in - /dev/stdout /dev/fd/1; do
  call record "$curve" -o $goal
  right "status $status, not 1" [ "$status" -eq 1 ]
  right "not the record on standard output" cmp -s first.html printed
  right "says: $(cat errors)" cmp -s errors <(printf '%s\n' "$damaged" "$default" "1 page, 9 findings, 93504 dots: standard output")
  "${command[@]}" record "$curve" -o $goal 2>errors | cat >printed
  right "not the record in a pipe" cmp -s first.html printed
  right "says: $(cat errors)" [ "$(tail -n 1 errors)" = "1 page, 9 findings, 93504 dots: standard output" ]
done
call record 641 800 clean.pcl -o -
right "status $status, not 2" [ "$status" -eq 2 ]
in_words "rovinuset: record: refused, number 10: page measure not allowed"
whole printed

# ---- papers
while read -r paper said_so; do
  call record $paper clean.pcl -o record.html
  tells 0 "1 page, 0 findings, 9 dots: record.html"
  page_is "$said_so, $paper"
done <<'PAPERS'
a4 2,480 by 3,508 dots, 300 an inch (210.0 mm by 297.0 mm)
letter 2,552 by 3,300 dots, 300 an inch (216.1 mm by 279.4 mm)
legal 2,552 by 4,200 dots, 300 an inch (216.1 mm by 355.6 mm)
a5 1,752 by 2,480 dots, 300 an inch (148.3 mm by 210.0 mm)
PAPERS
cp "$curve" a4
call record a4 -o record.html <clean.pcl
tells 0 "1 page, 0 findings, 9 dots: record.html"
call record ./a4 -o record.html
tells 1 "$damaged" "$default" "1 page, 9 findings, 93504 dots: record.html"

# ---- what is left out is said, in the record and on the terminal; a plain stream that is too long leaves the text uncounted.
printf '\33&f1S%.0s' {1..501} >many.pcl
many="finding 5, push when full, pop when empty: 501, the first at place 0"
call record 640 800 many.pcl -o record.html
tells 1 "$many" "nothing was drawn: no page has a dot" "the record shows 0 of 0 pages and lists 500 of 501 findings: record --all has all" "0 pages, 501 findings, 0 dots: record.html"
right "another list" [ "$(grep -c '^<tr id="finding-' record.html)" -eq 500 ]
call record --all 640 800 many.pcl -o record.html
tells 1 "$many" "nothing was drawn: no page has a dot" "0 pages, 501 findings, 0 dots: record.html"
right "another list" [ "$(grep -c '^<tr id="finding-' record.html)" -eq 501 ]
said="record -o - | head -c 10"
{ status=0; "${command[@]}" record --all 640 800 many.pcl -o - 2>errors || status=$?; echo "$status" >ended; } | head -c 10 >printed
right "status $(cat ended), not 2" [ "$(cat ended)" -eq 2 ] # who reads no further has had enough
right "says: $(cat errors)" [ ! -s errors ]
head -c 41 /dev/zero | tr '\0' '\f' >feeds.pcl
call record 640 800 feeds.pcl -o record.html
tells 0 "nothing was drawn: no page has a dot" "the record shows 40 of 41 pages and lists 0 of 0 findings: record --all has all" "41 pages, 0 findings, 0 dots: record.html"
right "other pictures" [ "$(grep -c '^<figure id="page-' record.html)" -eq 40 ]
call record 640 800 feeds.pcl -o record.html --all
tells 0 "nothing was drawn: no page has a dot" "41 pages, 0 findings, 0 dots: record.html"
right "other pictures" [ "$(grep -c '^<figure id="page-' record.html)" -eq 41 ]
yes "$(printf '\33&acccC')" | tr -d '\n' | head -c 700000 >growing.pcl # each of its four commands is written as five bytes
call record 640 800 growing.pcl -o record.html
tells 0 "nothing was drawn: no page has a dot" "text bytes were not counted: the plain stream is longer than 1,048,576 bytes" "0 pages, 0 findings, 0 dots: record.html"
right "the record does not say it" grep -q 'Text bytes were not counted: the plain stream is longer than 1,048,576 bytes.' record.html

# Wrong words and files: a record that was there stays as it was.
cp first.html record.html
mkdir folder
call record "$curve"
refuses "record needs -o and where to write"
call record "$curve" -o
refuses "record takes -o once, and where to write behind it"
call record "$curve" -o record.html -o other.html
refuses "record takes -o once, and where to write behind it"
call record --all "$curve" --all -o record.html
refuses "record takes --all once"
call record --pages 3 "$curve" -o record.html
refuses "no such option: --pages (a file of that name is ./--pages)"
call record 640 "$curve" -o record.html
refuses "not a number of dots"
call record clean.pcl many.pcl -o record.html
refuses "rovinuset: record takes one job, and here are two: clean.pcl, many.pcl"
call record 640 800 clean.pcl many.pcl -o record.html
refuses "record takes the page's measure, or nothing, and one job"
call record nowhere.pcl -o record.html
refuses "no such file: nowhere.pcl"
call record folder -o record.html
refuses "a directory, not a job: folder"
call record "$curve" -o folder
refuses "a folder, not a file: folder"
call record "$curve" -o nowhere/record.html
refuses "no such folder: nowhere"
call record "$curve" -o absent/
refuses "absent"
right "a file was made" [ ! -e absent ]
cp clean.pcl job.pcl
call record job.pcl -o ./job.pcl
refuses "the record would be written over the job: ./job.pcl"
call record -o job.pcl <job.pcl
refuses "the record would be written over the job: job.pcl"
ln -s job.pcl to_job.pcl
call record job.pcl -o to_job.pcl
refuses "the record would be written over the job: to_job.pcl"
right "the job is another" cmp -s clean.pcl job.pcl
# A job that cannot be read has no record.
for goal in record.html none.html; do
  call record /proc/self/mem -o $goal
  refuses "rovinuset: record: the job could not be read: Input/output error"
  call record -o $goal <&-
  refuses "the job could not be read: standard input is closed"
  for kind in socket network busy; do
    said="record, $kind" status=0
    python3 "$root/tests/breaks.py" $kind "${command[@]}" record -o $goal >printed 2>errors || status=$?
    refuses "rovinuset: record: the job could not be read: "
  done
done
right "it has a record" [ ! -e none.html ]
right "the record is another" cmp -s first.html record.html

# Disks that are full: nothing is left under the name, and a record that was there stays.
call record clean.pcl -o /dev/full
refuses "rovinuset: record: not written: No space left on device"
for output in unwritten closed; do
  rm -f other.html
  $output record 640 800 clean.pcl -o other.html
  refuses "rovinuset: record: other.html is written, its summary is not: No space left on device"
  whole other.html
  $output record 640 800 clean.pcl -o -
  refuses "rovinuset: record: not written: No space left on device"
done
limited() (ulimit -f 8 && call record "$curve" -o "$1" && exit "$status")
for goal in record.html none.html; do
  status=0
  limited $goal || status=$?
  said="record of 27 KiB to $goal, files of 8 KiB at most"
  refuses "not written: File too large"
done
right "the record is another" cmp -s first.html record.html
right "a part of it stays: $(ls -A)" [ -z "$(ls -A | grep -x 'none.html\|.*\.part\|\.rovinuset.*')" ]
# A program that breaks off leaves no record.
stub checkout
for lines in 'exit 1' 'cat >/dev/null; printf "SIZE\t640\t800\nFAULT\t0\t5\n" >&2' 'printf "P4\n640 800\n..."; printf "SIZE\t640\t800\nPAGE\t1\t0\nEND\t0\t0\t0\t0\n" >&2'; do
  fake checkout pages "$lines"
  for goal in record.html none.html -; do
    said="record -o $goal, over a program that does: $lines" status=0
    checkout/rovinuset record 640 800 clean.pcl -o $goal >printed 2>errors || status=$?
    refuses "rovinuset: record: not written: the program broke off: "
  done
done
right "the record is another" cmp -s first.html record.html
right "a part of it stays: $(ls -A)" [ -z "$(ls -A | grep -x 'none.html\|.*\.part\|\.rovinuset.*')" ]
# A long job: on a terminal a line of progress says how far it is, and is wiped at the end. Where the program is not asked it does not say how far it is.
page='printf "P4\n640 800\n"; head -c 64000 /dev/zero'
fake checkout pages 'sleep 1.3' "$page" 'printf "SIZE\t640\t800\nPAGE\t1\t0\n" >&2' '[ "$3" != 1 ] || printf "AT\t12\n" >&2' 'sleep 0.8' 'printf "END\t0\t0\t0\t0\n" >&2'
cat >terminal.py <<'TEXT'
import pty, sys
sys.exit(pty.spawn(["sh", "-c", 'exec "$@" <clean.pcl', "-", *sys.argv[1:]]) >> 8)
TEXT
said="record on a terminal, slowly" status=0
timeout 60 python3 terminal.py checkout/rovinuset record 640 800 - -o slow.html </dev/null >printed || status=$?
right "status $status, not 0" [ "$status" -eq 0 ]
right "no line of progress: $(cat -v printed)" grep -q $'\r0 pages, 0 findings, 0 of 14 bytes so far' printed
right "it does not go on: $(cat -v printed)" grep -q $'\r1 pages*, 0 findings, 12 of 14 bytes so far' printed
right "the line is not wiped: $(cat -v printed)" grep -q $'so far *\r  *\rnothing was drawn: no page has a dot\r$' printed
right "another end: $(cat -v printed)" [ "$(tail -n 1 printed)" = $'1 page, 0 findings, 0 dots: slow.html\r' ]
mv slow.html wanted.html
said="record, slowly, with standard error elsewhere" status=0
checkout/rovinuset record 640 800 - -o slow.html <clean.pcl >printed 2>errors || status=$?
tells 0 "nothing was drawn: no page has a dot" "1 page, 0 findings, 0 dots: slow.html"
right "another record than on a terminal" cmp -s wanted.html slow.html
bound
chmod 500 folder
call record clean.pcl -o folder/record.html
refuses "no permission to write in: folder"
chmod 700 folder
chmod 400 record.html
call record clean.pcl -o record.html
refuses "no permission to write: record.html"
right "the record is another" cmp -s first.html record.html

counted record
