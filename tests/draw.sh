#!/usr/bin/env bash
# ./rovinuset draw as a user gives it: the corpus, a folder that tells of one job, papers, what is said besides findings, how many pages are drawn, exit
# statuses, wrong words, and disks that are full. A line for each failed check, then the count. Exit status 1 on a failure.
set -eu
cd "$(dirname "$0")/.."
. tests/checks.sh
root=$PWD second=$PWD/second/target/release/second
(cd second && cargo build --release --offline --quiet)
said="the corpus"
right "is drawn otherwise" python3 tests/drawn.py tests/vectors/corpus "$root/rovinuset" "$second" ${x86_emulator:+"$x86_emulator"} target/bin/pages
room=$(mktemp -d)
trap 'chmod -R u+rwx "$room"; rm -rf "$room"' EXIT
cd "$room" # it works from anywhere

# has FOLDER FILES..: the folder has just these.
has() {
  local folder=$1
  shift
  right "$folder has $(ls -A "$folder" | tr '\n' ' ')" [ "$(ls -A "$folder")" = "$(printf '%s\n' "$@")" ]
}
# kept FOLDER: what the next calls must leave as it is. stays: whether they did, byte for byte.
kept() {
  kept=$1
  rm -rf before
  cp -a "$kept" before
}
stays() { right "what was in $kept is another: $(diff -rq before "$kept" || :)" diff -rq before "$kept"; }

printf '\33&f1S\33*t300R\33*b2W\377\200\fA' >paper.pcl # the paper's example, and a letter on a second page
printf '\33*t300R\33*b2W\377\200' >clean.pcl
found='finding 5, push when full, pop when empty: 1, the first at place 0'
letter='1 text byte moved the cursor and was not drawn'
call draw 640 800 paper.pcl -o new/folder
tells 1 "$found" "$letter" "2 pages, 1 finding, 9 dots: new/folder"
has new/folder findings.txt page-1.png page-2.png
"$second" pages 640 800 <paper.pcl >both.pbm
cat >wanted <<TEXT
Job: paper.pcl
Bytes: 21
SHA-256 of the job: $(sha256sum <paper.pcl | cut -d ' ' -f 1)
Page: 640 by 800 dots, 300 an inch
Note: $letter

Pages: 2
page-1.png: 9 dots, SHA-256 of the page as PBM $(head -c 64011 both.pbm | sha256sum | cut -d ' ' -f 1)
page-2.png: 0 dots, SHA-256 of the page as PBM $(tail -c 64011 both.pbm | sha256sum | cut -d ' ' -f 1)

Findings: 1
place 0, page 1: finding 5, push when full, pop when empty. The command was left out.

End: x 720, y 4500 (1/7200 inch), stack depth 0, findings 1

The program's own lines:
TEXT
printf 'SIZE\t640\t800\nFAULT\t0\t5\nMARK\t0\t5\t0\t4500\nPAGE\t1\t9\nPAGE\t2\t0\nEND\t720\t4500\t0\t1\n' >>wanted
right "findings.txt has another text: $(diff wanted new/folder/findings.txt || :)" cmp -s wanted new/folder/findings.txt

# A folder tells of one job: nothing of an earlier one stays, other files do.
echo mine >new/folder/page-1.txt
call draw -o new/folder 640 800 clean.pcl
tells 0 "1 page, 0 findings, 9 dots: new/folder"
has new/folder findings.txt page-1.png page-1.txt
# A job that is refused has no drawing, and takes the place of none.
kept new/folder
call draw 641 800 clean.pcl -o new/folder
refuses "rovinuset: draw: refused, number 10: page measure not allowed"
stays
head -c 1048577 /dev/zero >long.pcl
call draw long.pcl -o new/folder
refuses "rovinuset: draw: refused, number 12: job longer than 1,048,576 bytes"
stays
for words in "641 800 clean.pcl" long.pcl; do
  call draw $words -o none/inside/it
  refuses "rovinuset: draw: refused, number 1"
  right "a folder is left of it" [ ! -e none ]
done
mkdir there
call draw 641 800 clean.pcl -o there/inside
refuses "rovinuset: draw: refused, number 10"
has there

# Standard input: named, not named; and a job of no bytes.
call draw 640 800 - -o new <clean.pcl
tells 0 "1 page, 0 findings, 9 dots: new"
right "findings.txt names another job" grep -qx 'Job: standard input' new/findings.txt
call draw -o new <clean.pcl
tells 0 "$default" "1 page, 0 findings, 9 dots: new"
call draw -o new /dev/null
tells 0 "the job is empty: it has no bytes" "$default" "0 pages, 0 findings, 0 dots: new"
right "findings.txt does not say so" grep -qx 'Note: the job is empty: it has no bytes' new/findings.txt
right "another page stays" [ ! -e new/page-1.png ]
call draw 640 800 -o new </dev/null
tells 0 "the job is empty: it has no bytes" "0 pages, 0 findings, 0 dots: new"
call draw "-o" "a folder" 640 800 clean.pcl
tells 0 "1 page, 0 findings, 9 dots: a folder"
LC_ALL=C.UTF-8 call draw 640 800 -o $'\377' clean.pcl # a name that is no text
tells 0 $'1 page, 0 findings, 9 dots: \377'

# ---- papers: a name stands where W and H do. A picture has the paper's dots, and what is written says the paper's name.
measure() { python3 -c 'import struct, sys; print(*struct.unpack(">II", open(sys.argv[1], "rb").read()[16:24]))' "$1"; }
while read -r paper wide high; do
  call draw $paper clean.pcl -o papers
  tells 0 "1 page, 0 findings, 9 dots: papers"
  right "a picture of $(measure papers/page-1.png) dots" [ "$(measure papers/page-1.png)" = "$wide $high" ]
  right "findings.txt has another page" grep -qx "Page: $wide by $high dots, 300 an inch, $paper" papers/findings.txt
  mv papers named
  call draw $wide $high clean.pcl -o papers
  right "another picture than by its measure" cmp -s named/page-1.png papers/page-1.png
  right "findings.txt names a paper that was not given" grep -qx "Page: $wide by $high dots, 300 an inch" papers/findings.txt
  rm -r named
done < <(papers)
call draw clean.pcl -o papers
right "a picture of $(measure papers/page-1.png) dots" [ "$(measure papers/page-1.png)" = "2552 3304" ]
right "findings.txt does not say that nothing was given" grep -qx "Page: 2552 by 3304 dots, 300 an inch, the default" papers/findings.txt
call draw 2552 3304 clean.pcl -o papers
tells 0 "1 page, 0 findings, 9 dots: papers"
right "findings.txt says that nothing was given" grep -qx "Page: 2552 by 3304 dots, 300 an inch" papers/findings.txt
# A file with a paper's name is given with its folder.
cp paper.pcl a4
call draw a4 -o papers <clean.pcl
tells 0 "1 page, 0 findings, 9 dots: papers"
right "the file was taken" grep -qx 'Job: standard input' papers/findings.txt
call draw ./a4 -o papers
tells 1 "$found" "$letter" "$default" "2 pages, 1 finding, 9 dots: papers"
call draw a4 ./a4 -o papers
tells 1 "$found" "$letter" "2 pages, 1 finding, 9 dots: papers"
right "findings.txt names another job" grep -qx 'Job: a4' papers/findings.txt

# ---- what is said besides findings: a blank drawing, and text. moved COUNT JOB: so many text bytes are said of the job, here and in findings.txt.
moved() {
  local lines=()
  printf "$2" >text.pcl
  call draw 640 800 text.pcl -o texts
  case $1 in 0) ;; 1) lines=("$letter") ;; *) lines=("$1 text bytes moved the cursor and were not drawn") ;; esac
  said="draw, a job of ${2//$'\n'/ }"
  grep -v '^finding \|^nothing was drawn\|^[0-9]* pages*, ' printed >given || :
  right "says: $(cat given)" cmp -s given <(printf '%s\n' "${lines[@]}" | sed '/^$/d')
  right "findings.txt says: $(grep ^Note: texts/findings.txt)" cmp -s <(sed -n 's/^Note: //p' texts/findings.txt) <(grep '^nothing\|cursor' printed)
}
moved 10 'Hello world'
moved 1 A
moved 0 '   '
moved 2 '\200\377'
moved 0 '\177\r\n\t\b\1'
moved 5 '\33&p7Xtext  !'
moved 4 '\33&p5X\1A \177B'           # whatever byte it is, but a space: in the payload each moves as text
moved 0 '\33*b3WABC'                 # a row
moved 1 '\33*b3WABCD'
moved 0 '\33*b2VAB\33(s2WAB'         # payload of what is not carried
moved 0 '\33&p9Xabc'                 # payload that is short is not taken
moved 4 '\33&p1xA2XBCD'              # two in one sequence, and a letter behind it
moved 0 '\33*rbC'                    # the second letter is a command, not text
moved 2 '\33&a5c\nAB'                # the line feed breaks the sequence
moved 3 '\33E1\33=2\0333'"3"         # what is behind two bytes
moved 1,000 "$(printf '%01000d' 0)"
printf 'A\f' >text.pcl
call draw 640 800 text.pcl -o texts
tells 0 "nothing was drawn: no page has a dot" "$letter" "1 page, 0 findings, 0 dots: texts"
printf ' ' >text.pcl # no page at all
call draw 640 800 text.pcl -o texts
tells 0 "nothing was drawn: no page has a dot" "0 pages, 0 findings, 0 dots: texts"
yes "$(printf '\33&acccC')" | tr -d '\n' | head -c 700000 >growing.pcl # each of its four commands is written as five bytes
call draw 640 800 growing.pcl -o texts
tells 0 "nothing was drawn: no page has a dot" "text bytes were not counted: the plain stream is longer than 1,048,576 bytes" "0 pages, 0 findings, 0 dots: texts"
head -c 1048576 /dev/zero | tr '\0' A >text.pcl
call draw 640 800 text.pcl -o texts
tells 0 "nothing was drawn: no page has a dot" "1,048,576 text bytes moved the cursor and were not drawn" "1 page, 0 findings, 0 dots: texts"

# ---- how many pages are drawn: all are counted and named, whichever have a picture.
python3 -c 'import sys; sys.stdout.buffer.write(b"\33*t300R" + b"".join(b"\33*b1W%c\33&f1S\f" % (2 ** (n + 1) - 1) for n in range(5)))' >five.pcl
five='finding 5, push when full, pop when empty: 5, the first at place 13'
call draw 640 800 five.pcl -o whole
tells 1 "$five" "5 pages, 5 findings, 15 dots: whole"
has whole findings.txt page-{1,2,3,4,5}.png
call draw 640 800 five.pcl -o whole --pages 5
tells 1 "$five" "5 pages, 5 findings, 15 dots: whole"
has whole findings.txt page-{1,2,3,4,5}.png
call draw 640 800 five.pcl -o whole --pages 1000000
tells 1 "$five" "5 pages, 5 findings, 15 dots: whole"
# drawn_pages RANGE WORDS PAGE..: with --pages RANGE these pages have the pictures that they have when all are drawn; it is said as WORDS.
drawn_pages() {
  local range=$1 words=$2 names=() page
  shift 2
  for page; do names+=("page-$page.png"); done
  rm -rf some
  call draw --pages "$range" 640 800 five.pcl -o some
  tells 1 "$five" "drawn: $words; --pages N or A-B chooses others" "5 pages, 5 findings, 15 dots: some"
  has some findings.txt "${names[@]}"
  for page; do right "page $page is another" cmp -s "whole/page-$page.png" "some/page-$page.png"; done
  right "findings.txt does not say it" grep -qx "Note: drawn: $words; --pages N or A-B chooses others" some/findings.txt
  for page in 1 2 3 4 5; do
    if [ -e "some/page-$page.png" ]; then
      right "findings.txt has another page $page" grep -qxF "$(grep "^page-$page.png: " whole/findings.txt)" some/findings.txt
    else
      right "findings.txt has another page $page" grep -qx "page $page: $page dots*, not drawn" some/findings.txt
    fi
  done
  right "findings.txt has other findings" cmp -s <(sed -n '/^Findings/,$p' whole/findings.txt) <(sed -n '/^Findings/,$p' some/findings.txt)
}
drawn_pages 2 "pages 1 to 2 of 5" 1 2
drawn_pages 2-3 "pages 2 to 3 of 5" 2 3
drawn_pages 4-4 "pages 4 to 4 of 5" 4
drawn_pages 4-9 "pages 4 to 5 of 5" 4 5
drawn_pages 6-9 "none of 5 pages"
kept whole
for range in 0 3-2 x 2- -2 0-3 1-0 2-3-4 1,2 +1 " 1" ""; do
  call draw 640 800 five.pcl -o whole --pages "$range"
  case $range in "") refuses "draw takes --pages once, and a number of pages or a range" ;; *) refuses "not a number of pages, nor a range: $range" ;; esac
done
call draw 640 800 five.pcl -o whole --pages
refuses "draw takes --pages once"
call draw 640 800 five.pcl -o whole --pages 1 --pages 2
refuses "draw takes --pages once"
stays
# A job of more pages than are drawn where nothing is said. Pictures of another job that has more stay in no case.
head -c 2500 /dev/zero | tr '\0' '\f' >feeds.pcl
call draw 64 80 feeds.pcl -o whole
tells 0 "nothing was drawn: no page has a dot" "drawn: pages 1 to 1,000 of 2,500; --pages N or A-B chooses others" "2500 pages, 0 findings, 0 dots: whole"
right "other pictures" [ "$(ls -A whole | sort -V)" = "$(printf 'findings.txt\n'; seq -f 'page-%.0f.png' 1000)" ]
right "findings.txt does not name each page" [ "$(grep -cE '^page-[0-9]+\.png: 0 dots, SHA-256 .*[0-9a-f]{64}$' whole/findings.txt) $(grep -cE '^page [0-9]+: 0 dots, not drawn$' whole/findings.txt)" = "1000 1500" ]
right "findings.txt does not count them" grep -qx 'Pages: 2500' whole/findings.txt
right "findings.txt has other lines of the program" [ "$(grep -cP '^PAGE\t' whole/findings.txt)" -eq 2500 ]
call draw 64 80 feeds.pcl -o whole --pages 2499-2500
tells 0 "nothing was drawn: no page has a dot" "drawn: pages 2,499 to 2,500 of 2,500; --pages N or A-B chooses others" "2500 pages, 0 findings, 0 dots: whole"
has whole findings.txt page-2499.png page-2500.png
call draw 64 80 feeds.pcl -o whole --pages 3000
tells 0 "nothing was drawn: no page has a dot" "2500 pages, 0 findings, 0 dots: whole"
right "other pictures" [ "$(ls -A whole | wc -l)" -eq 2501 ]
call draw 640 800 clean.pcl -o whole
has whole findings.txt page-1.png

# A job that cannot be read: the earlier drawing stays, and nothing of this one is there.
call draw -o new clean.pcl
kept new
call draw -o new /proc/self/mem
refuses "rovinuset: draw: the job could not be read: Input/output error"
stays
for kind in socket network busy; do
  said="draw, $kind" status=0
  python3 "$root/tests/breaks.py" $kind "${command[@]}" draw -o new >printed 2>errors || status=$?
  refuses "rovinuset: draw: the job could not be read: "
  stays
  said="draw, $kind, a folder that is not there" status=0
  python3 "$root/tests/breaks.py" $kind "${command[@]}" draw -o none/inside >printed 2>errors || status=$?
  refuses "rovinuset: draw: the job could not be read: "
  right "a folder was made" [ ! -e none ]
done
call draw -o none <&-
refuses "the job could not be read: standard input is closed"

# Wrong words and files: nothing is made.
mkdir other
call draw clean.pcl
refuses "draw needs -o and where to write"
call draw clean.pcl -o
refuses "draw takes -o once, and where to write behind it"
call draw clean.pcl -o none -o none
refuses "draw takes -o once, and where to write behind it"
call draw clean.pcl -o ""
refuses "draw takes -o once, and where to write behind it"
call draw clean.pcl -- -o none
refuses "draw needs -o and where to write"
call draw 640 clean.pcl -o none
refuses "not a number of dots: clean.pcl"
call draw six eight clean.pcl -o none
refuses "not a number of dots: six"
call draw -640 800 clean.pcl -o none
refuses "not a number of dots: -640"
call draw 640 800 clean.pcl clean.pcl -o none
refuses "draw takes the page's measure, or nothing, and one job"
call draw a4 clean.pcl paper.pcl -o none
refuses "draw takes the page's measure, or nothing, and one job"
call draw clean.pcl paper.pcl -o none
refuses "rovinuset: draw takes one job, and here are two: clean.pcl, paper.pcl"
call draw -x clean.pcl -o none
refuses "rovinuset: no such option: -x (a file of that name is ./-x)"
call draw --all clean.pcl -o none
refuses "rovinuset: no such option: --all (a file of that name is ./--all)"
call draw nowhere.pcl -o none
refuses "no such file: nowhere.pcl"
call draw other -o none
refuses "a directory, not a job: other"
call draw -o none <other
refuses "a directory, not a job: standard input"
call draw clean.pcl -o paper.pcl
refuses "not a folder: paper.pcl"
call draw clean.pcl -o paper.pcl/folder
refuses "the folder cannot be made: paper.pcl/folder"
call draw clean.pcl -o -
refuses "draw writes a folder, not standard output"
right "a folder was made" [ ! -e none ]
cp clean.pcl ./-x
call draw 640 800 ./-x -o dashed
tells 0 "1 page, 0 findings, 9 dots: dashed"
call draw 640 800 -o dashed -- -x
tells 0 "1 page, 0 findings, 9 dots: dashed"
call draw -o dashed -- 640 800 -x
tells 0 "1 page, 0 findings, 9 dots: dashed"
right "findings.txt names another job" grep -qx 'Job: -x' dashed/findings.txt
call draw 640 800 clean.pcl -o ./-
tells 0 "1 page, 0 findings, 9 dots: ./-"
has ./- findings.txt page-1.png

# Disks that are full: no picture of it is left, whole or broken, and an earlier drawing stays. The first page has room, the second has none.
cat >noise.py <<'TEXT'
import random
noise = random.Random(1)
rows = b"".join(b"\33*b319W" + noise.randbytes(319) for _ in range(800))
open("noise.pcl", "wb").write(b"A\f\33*t300R" + rows + b"\f")
TEXT
python3 noise.py
limited() (ulimit -f 100 && call draw noise.pcl -o "$1" && exit "$status")
call draw paper.pcl -o full
kept full
for folder in full none/inside; do
  status=0
  limited $folder || status=$?
  said="draw noise.pcl -o $folder, files of 100 KiB at most"
  refuses "not written: File too large"
done
stays
right "a folder is left of it" [ ! -e none ]
# What is drawn is there, where only the summary cannot be told: that is said, and it is no clean end.
for output in unwritten closed; do
  call draw paper.pcl -o full
  $output draw 640 800 clean.pcl -o full
  refuses "rovinuset: draw: full is written, its summary is not: No space left on device"
  has full findings.txt page-1.png
done
# small_disk COMMAND..: the command in a room of its own, where the folder `small` is a disk of 64 KiB that has a drawing already.
small_disk() {
  local mapped=()
  [ "$(id -u)" = 0 ] || mapped=(--map-root-user)
  unshare --mount "${mapped[@]}" bash -c 'mount -t tmpfs -o size=64k none small && cp earlier/* small || exit; "$@"; status=$?; cp -a small left; exit $status' - "$@"
}
mkdir small
call draw 640 800 paper.pcl -o earlier
if small_disk true 2>/dev/null; then
  rm -r left
  said="draw noise.pcl -o small, a disk of 64 KiB" status=0
  small_disk "${command[@]}" draw noise.pcl -o small >printed 2>errors || status=$?
  refuses "not written: No space left on device"
  right "it leaves something else: $(diff -rq earlier left || :)" diff -rq earlier left
else
  echo "draw: no disk can be mounted here: a full one is tried by the largest size of a file alone"
fi

# tool LINES..: draw, where these lines of a shell stand for the program `pages`.
stub checkout
call draw 640 800 paper.pcl -o broken
kept broken
tool() {
  status=0
  fake checkout pages "$@"
  checkout/rovinuset draw 640 800 clean.pcl -o broken >printed 2>errors || status=$?
}
page='printf "P4\n640 800\n"; head -c 64000 /dev/zero'
# The stub is the command itself: a program that gives a blank page is drawn.
said="the stub"
tool "$page" 'printf "SIZE\t640\t800\nPAGE\t1\t0\nEND\t0\t0\t0\t0\n" >&2'
tells 0 "nothing was drawn: no page has a dot" "1 page, 0 findings, 0 dots: broken"
call draw 640 800 paper.pcl -o broken
stays
# A program that breaks off, or whose lines and pages do not agree: nothing is left of it.
said="a page that is cut"
tool 'printf "P4\n640 800\n..."; printf "SIZE\t640\t800\nPAGE\t1\t0\nEND\t0\t0\t0\t0\n" >&2'
refuses "rovinuset: draw: not written: the program broke off: a page that it did not end"
stays
said="no last line"
tool "$page" 'printf "SIZE\t640\t800\nPAGE\t1\t0\n" >&2'
refuses "not written: the program broke off: no last line"
stays
said="other dots"
tool "$page" 'printf "SIZE\t640\t800\nPAGE\t1\t9\nEND\t0\t0\t0\t0\n" >&2'
refuses "not written: the program broke off: its pages have other dots than its lines say"
stays
said="a page too few"
tool "$page" 'printf "SIZE\t640\t800\nPAGE\t1\t0\nPAGE\t2\t0\nEND\t0\t0\t0\t0\n" >&2'
refuses "not written: the program broke off: "
stays
said="a page too many"
tool "$page" "$page" 'printf "SIZE\t640\t800\nPAGE\t1\t0\nEND\t0\t0\t0\t0\n" >&2'
refuses "not written: the program broke off: "
stays
said="a line that it has no word for"
tool 'printf "UNWRITTEN\n" >&2'
refuses "not written: the program broke off: UNWRITTEN"
# A finding has one mark, right behind it: not none, not another's, not two; and a mark has a finding.
while read -r lines strange; do
  said="lines $lines"
  tool "printf 'SIZE\\t640\\t800\\n$lines' >&2"
  refuses "not written: the program broke off: $(printf "$strange")"
done <<'LINES'
FAULT\t0\t5\nEND\t0\t0\t0\t1\n END\t0\t0\t0\t1
FAULT\t0\t5\n no last line
FAULT\t0\t5\nMARK\t1\t5\t0\t0\nEND\t0\t0\t0\t1\n MARK\t1\t5\t0\t0
FAULT\t0\t5\nMARK\t0\t4\t0\t0\nEND\t0\t0\t0\t1\n MARK\t0\t4\t0\t0
FAULT\t0\t5\nMARK\t0\t5\t0\nEND\t0\t0\t0\t1\n MARK\t0\t5\t0
FAULT\t0\t5\nMARK\t0\t5\t0\t0\nMARK\t0\t5\t0\t0\nEND\t0\t0\t0\t1\n MARK\t0\t5\t0\t0
FAULT\t0\t5\nFAULT\t1\t5\nMARK\t0\t5\t0\t0\nMARK\t1\t5\t0\t0\nEND\t0\t0\t0\t2\n FAULT\t1\t5
MARK\t0\t5\t0\t0\nEND\t0\t0\t0\t0\n MARK\t0\t5\t0\t0
LINES
stays
said="the program plain fails"
fake checkout plain 'cat >/dev/null; exit 1'
tool "$page" 'printf "SIZE\t640\t800\nPAGE\t1\t0\nEND\t0\t0\t0\t0\n" >&2'
refuses "not written: the program broke off: "
stays
said="the program plain says something else"
fake checkout plain 'cat >/dev/null; echo UNWRITTEN >&2'
tool "$page" 'printf "SIZE\t640\t800\nPAGE\t1\t0\nEND\t0\t0\t0\t0\n" >&2'
refuses "not written: the program broke off: UNWRITTEN"
stays
fake checkout plain 'cat >/dev/null'
said="a program that cannot be started"
printf '#!/nowhere/sh\n' >checkout/target/bin/pages
status=0
checkout/rovinuset draw 640 800 clean.pcl -o broken >printed 2>errors || status=$?
refuses "not written: No such file or directory"
stays
said="stopped"
tool "$page" 'sleep 0.5; kill $PPID; sleep 5'
refuses "rovinuset: draw: not written: stopped"
stays

# A long job: a line of progress on a terminal, wiped at the end. Here the program waits before it begins, and behind its first page, of which it says how far
# in the job that is, where it is asked.
cat >terminal.py <<'TEXT'
import pty, sys
sys.exit(pty.spawn(["sh", "-c", 'exec "$@" <clean.pcl', "-", *sys.argv[1:]]) >> 8)
TEXT
fake checkout pages 'sleep 1.7' "$page" 'printf "SIZE\t640\t800\nFAULT\t0\t5\nMARK\t0\t5\t0\t0\nPAGE\t1\t0\n" >&2' '[ "$3" != 1 ] || printf "AT\t12\n" >&2' 'sleep 1.2' \
  'printf "END\t0\t0\t0\t1\n" >&2'
said="draw on a terminal, slowly" status=0
timeout 60 python3 terminal.py checkout/rovinuset draw 640 800 - -o new </dev/null >printed || status=$?
right "status $status, not 1" [ "$status" -eq 1 ]
right "no line of progress: $(cat -v printed)" grep -q $'\r0 pages, 0 findings, 0 of 14 bytes so far' printed
right "it does not go on: $(cat -v printed)" grep -q $'\r1 pages*, 1 findings*, 12 of 14 bytes so far' printed
right "the line is not wiped: $(cat -v printed)" grep -q $'so far\r  *\rfinding 5, push when full, pop when empty: 1, the first at place 0\r$' printed
right "another end: $(cat -v printed)" [ "$(tail -n 1 printed)" = $'1 page, 1 finding, 0 dots: new\r' ]
said="draw, slowly, with standard error elsewhere" status=0
checkout/rovinuset draw 640 800 clean.pcl -o new >printed 2>errors || status=$?
tells 1 "$found" "nothing was drawn: no page has a dot" "1 page, 1 finding, 0 dots: new"

# Permissions.
bound
: >shut.pcl
mkdir shut
chmod 0 shut.pcl
chmod 500 shut
call draw shut.pcl -o none
refuses "no permission to read: shut.pcl"
call draw clean.pcl -o shut
refuses "no permission to write in: shut"
call draw clean.pcl -o shut/folder
refuses "the folder cannot be made: shut/folder"
right "a folder was made" [ ! -e none ]

counted draw
