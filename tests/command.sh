#!/usr/bin/env bash
# The one command, as a user gives it: reports, pages, plain streams and parked texts that are right, papers, jobs that cannot be read, help, and words that
# are wrong.
# A line for each failed check, then the count. Exit status 1 on a failure.
set -eu
cd "$(dirname "$0")/.."
. tests/checks.sh
need xz xz-utils
root=$PWD second=$PWD/second/target/release/second corpus=$PWD/tests/vectors/corpus
for name in report pages plain park unpark; do proved_program "$name"; done
(cd second && cargo build --release --offline --quiet)
room=$(mktemp -d)
trap 'rm -rf "$room"' EXIT
cd "$room" # it works from anywhere

# gives STATUS EXPECTED: $status and the file `printed` must be these; EXPECTED is a file.
gives() {
  right "status $status, not $1" [ "$status" -eq "$1" ]
  right "another text" cmp -s "$2" printed
}
# quietly: nothing on standard error.
quietly() { right "says on standard error: $(cat errors)" [ ! -s errors ]; }
# refused NUMBER: status 2, nothing on standard output, and one line that says the refusal.
refused() { refuses "rovinuset: plain: refused, number $1: "; }
# refused_by WORD NUMBER TEXT: status 2, the line REFUSED and nothing else on standard output, and one line that says the refusal.
refused_by() {
  right "status $status, not 2" [ "$status" -eq 2 ]
  right "prints: $(cat printed)" cmp -s printed <(printf 'REFUSED\t%s\n' "$2")
  in_words "rovinuset: $1: refused, number $2: $3"
}
# parks: status 0, the lines of a parked text, and nothing on standard error.
parks() {
  right "status $status, not 0" [ "$status" -eq 0 ]
  right "no parked text: $(cat printed)" [ "$(cut -f 1 printed | tr '\n' ' ')" = "JOB ROW " ]
  quietly
}
# lines_of W H FILE: the lines of this job by the second program's trace and its marks, to the file `lines`.
lines_of() {
  "$second" marks "$1" "$2" <"$3" >marks
  "$second" trace "$1" "$2" <"$3" | awk -F '\t' -v size="SIZE\t$1\t$2" 'BEGIN { OFS = FS; print size }
    $1 == "ITEM" && $4 > 0 { print "FAULT", $2, $4; mark = "none"; getline mark <"marks"; print "MARK", mark; found++ }
    $1 == "PAGE" { print }
    $1 == "END" { print "END", $2, $3, $15, found + 0 }' >lines
}
# emptily: standard error says that the job is empty, and nothing else.
emptily() { in_words "rovinuset: the job is empty: it has no bytes"; }

printf '\33&f1S\33*t300R\33*b2W\377\200\f' >paper.pcl
printf 'SIZE\t640\t800\nFAULT\t0\t5\nPAGE\t1\t9\nEND\t0\t4500\t0\t1\n' >paper.txt
call report paper.pcl
gives 1 paper.txt
call report <paper.pcl
gives 1 paper.txt
call report - <paper.pcl
gives 1 paper.txt
: >empty
"$second" report <empty >empty.txt
call report empty
gives 0 empty.txt
emptily
head -c 65536 /dev/zero | tr '\0' A >long
"$second" report <long >wanted
call report long
gives 0 wanted
quietly
printf A | cat long - >longer
printf 'SIZE\t640\t800\nREFUSED\t12\n' >longer.txt
call report longer
gives 2 longer.txt
in_words "rovinuset: report: refused, number 12: job longer than 65,536 bytes"
for job in gm-curve-150 hp2xx-75 groff-lj4-letter; do
  "$second" report <"$corpus/$job.pcl" >wanted
  call report "$corpus/$job.pcl"
  gives "$(tail -n 1 wanted | awk '{ print ($5 > 0) }')" wanted # 0 clean, 1 findings
  quietly
  # On the same page, by the other program: the same lines.
  call report 640 800 "$corpus/$job.pcl"
  gives "$(tail -n 1 wanted | awk '{ print ($5 > 0) }')" wanted
  quietly
done
call report 640 800 paper.pcl
gives 1 paper.txt
call report 640 800 - <paper.pcl
gives 1 paper.txt
call report 640 800 <paper.pcl
gives 1 paper.txt
call report 640 800 empty
gives 0 empty.txt
emptily

# The pages and lines of other jobs on other pages: the second program's pages, and its lines out of its trace and its marks.
paged=0
while read -r job page wide high; do
  case $job in
  /*) file=$job ;;
  *.xz) xz -dc "$corpus/$job" >unpacked && file=unpacked ;;
  *) file=$corpus/$job ;;
  esac
  paged=$((paged + 1))
  lines_of "$wide" "$high" "$file"
  "$second" pages "$wide" "$high" <"$file" >wanted
  found=$(tail -n 1 lines | awk '{ print ($5 > 0) }')
  call pages ${page//x/ } "$file"
  gives "$found" wanted
  right "other lines: $(diff lines errors | head -n 3)" cmp -s lines errors
  said="target/bin/pages $wide $high <$file"
  x86_run "$root/target/bin/pages" "$wide" "$high" <"$file" 2>by_program >/dev/null
  right "other lines than the program's" cmp -s by_program errors
  grep -v '^MARK' lines >wanted
  call report ${page//x/ } "$file"
  gives "$found" wanted
  quietly
done <<JOBS
gm-curve-150.pcl 2552x3304 2552 3304
gm-curve-150.pcl a4 2480 3508
gnuplot-hppj-180.pcl.xz a5 1752 2480
groff-lj4-letter.pcl letter 2552 3300
netpbm-pbmtolj-three-150.pcl.xz 8x1 8 1
hp2xx-75.pcl 1000x151 1000 151
gnuplot-pcl5.pcl 4800x6800 4800 6800
barcode-table.pcl legal 2552 4200
$corpus/../damaged/damaged-curve.pcl 640x800 640 800
$corpus/../damaged/flat-curve.pcl 2552x3304 2552 3304
JOBS
said="pages" && right "$paged jobs, not 10" [ "$paged" -eq 10 ]
call pages "$corpus/gm-curve-150.pcl"
"$second" pages 2552 3304 <"$corpus/gm-curve-150.pcl" >wanted
gives 1 wanted # on the page of draw and record
call pages 640 800 <empty
gives 0 empty
right "says: $(cat errors)" cmp -s errors <(cat empty.txt; echo "rovinuset: the job is empty: it has no bytes")
call pages 641 800 paper.pcl
gives 2 empty
right "says: $(cat errors)" [ "$(grep -v '^rovinuset: ' errors)" = $'SIZE\t641\t800\nREFUSED\t10' ]
right "no words: $(cat errors)" grep -q '^rovinuset: pages: refused, number 10: page measure not allowed' errors
head -c 1048577 /dev/zero >longer
call pages 640 800 longer
gives 2 empty
right "says: $(cat errors)" [ "$(grep -v '^rovinuset: ' errors)" = $'SIZE\t640\t800\nREFUSED\t12' ]
right "no words: $(cat errors)" grep -q '^rovinuset: pages: refused, number 12: job longer than 1,048,576 bytes' errors
# Who reads no further has had enough: it is no clean end, and nothing is said of it.
printf 'A\f%.0s' {1..60} >sixty.pcl
for word in pages plain report; do
  case $word in pages) words="640 800 sixty.pcl" ;; plain) words="$corpus/gm-letter-300.pcl" ;; report) words="8 1 feeds.pcl" ;; esac
  head -c 300000 /dev/zero | tr '\0' '\f' >feeds.pcl
  said="$word $words | head -c 10"
  { status=0; "${command[@]}" $word $words 2>errors || status=$?; echo "$status" >ended; } | head -c 10 >printed
  right "status $(cat ended), not 2" [ "$(cat ended)" -eq 2 ]
  right "says: $(cat errors)" [ -z "$(grep -v '^[A-Z]*'$'\t' errors)" ]
  right "not the beginning" [ "$(wc -c <printed)" -eq 10 ]
done
# A report on a page that is given takes as long a job as any.
head -c 1048576 /dev/zero | tr '\0' A >longest
lines_of 640 800 longest
call report 640 800 longest
gives 0 lines
quietly
call report 640 800 longer
gives 2 longer.txt
in_words "rovinuset: report: refused, number 12: job longer than 1,048,576 bytes"
# SIZE has the measure as it was given, up to a million. Nothing takes the memory of such a page, 125 GB.
while read -r wide high size; do
  printf "SIZE\\t$size\\nREFUSED\\t10\\n" >wanted
  call report $wide $high paper.pcl
  gives 2 wanted
  in_words "rovinuset: report: refused, number 10: page measure not allowed"
  call pages $wide $high paper.pcl
  right "status $status, not 2" [ "$status" -eq 2 ]
  right "other lines: $(cat errors)" cmp -s wanted <(grep '^[A-Z]' errors)
  for word in plain "draw -o measured"; do
    call $word $wide $high paper.pcl
    refuses "rovinuset: ${word%% *}: refused, number 10: page measure not allowed"
  done
done <<'TEXT'
641 800 641\t800
0 00 0\t0
99999 100000 99999\t100000
999999 1000000 999999\t1000000
1000001 98765432109876543210 1000000\t1000000
TEXT

# ---- papers: a name stands where W and H do.
{ printf '\33*b600W'; head -c 600 /dev/zero | tr '\0' '\1'; } >row.pcl # wider than any of them: it is cut at the page's width
while read -r paper wide high; do
  call report $paper row.pcl
  right "another page" [ "$(head -n 1 printed)" = "SIZE"$'\t'"$wide"$'\t'"$high" ]
  cp printed lines
  call report $wide $high row.pcl
  gives 0 lines
  call pages $paper row.pcl
  right "another picture" [ "$(head -n 2 printed | tr '\n' ' ' | tr -d '\0')" = "P4 $wide $high " ]
  right "another page" [ "$(head -n 1 errors)" = "SIZE"$'\t'"$wide"$'\t'"$high" ]
  "$second" plain $wide $high <row.pcl >wanted
  call plain $paper row.pcl
  gives 0 wanted
  right "a row of $(wc -c <printed) bytes" [ "$(wc -c <printed)" -eq $((7 + wide / 8)) ]
  call report $paper <row.pcl
  gives 0 lines
  call report $paper - <row.pcl
  gives 0 lines
done < <(papers)
# A file with a paper's name is given with its folder.
cp paper.pcl a4
call report ./a4
gives 1 paper.txt
call report a4 <empty
right "the file was taken, or another page" [ "$(head -n 1 printed) $(wc -l <printed)" = "SIZE"$'\t'"2480"$'\t'"3508 2" ]
call report 640 800 ./a4
gives 1 paper.txt
call report a6 paper.pcl
refuses "report takes one job, and here are two: a6, paper.pcl"

printf '\33&a10c5R' >combined.pcl
printf '\33&a10C\33&a5R' >combined.txt
call plain combined.pcl
gives 0 combined.txt
quietly
call plain <combined.pcl
gives 0 combined.txt
call plain 640 800 - <combined.pcl
gives 0 combined.txt
call plain 640 800 combined.pcl
gives 0 combined.txt
call plain 8 1 <combined.pcl
gives 0 combined.txt
call plain 0000000000000000000000000008 01 combined.pcl
gives 0 combined.txt
call plain empty
gives 0 empty
emptily
# Into a file: the same bytes as on standard output.
for job in combined.pcl "$corpus/gm-curve-150.pcl" empty; do
  call plain "$job"
  cp printed wanted
  cp errors words
  was=$status
  call plain "$job" -o passed.pcl
  gives "$was" empty
  right "other words: $(cat errors)" cmp -s words errors
  right "another stream" cmp -s wanted passed.pcl
  call plain -o - "$job"
  gives "$was" wanted
  right "other words: $(cat errors)" cmp -s words errors
  call plain "$job" -o /dev/stdout
  gives "$was" wanted
done
echo mine >passed.pcl
call plain 641 800 combined.pcl -o passed.pcl
refused 10
right "what was there is another" [ "$(cat passed.pcl)" = mine ]
call plain 641 800 combined.pcl -o none.pcl
refused 10
right "a file is left of it" [ ! -e none.pcl ]
cp combined.pcl job.pcl
call plain job.pcl -o ./job.pcl
refuses "the plain stream would be written over the job: ./job.pcl"
right "the job is another" cmp -s combined.pcl job.pcl
call plain combined.pcl -o nowhere/passed.pcl
refuses "no such folder: nowhere"
call plain combined.pcl -o absent/
refuses "absent"
right "a file was made" [ ! -e absent ]
call plain combined.pcl -o /
refuses "a folder, not a file: /"
call plain combined.pcl -o
refuses "plain takes -o once"
call plain combined.pcl -o a -o b
refuses "plain takes -o once"
call plain combined.pcl -o /dev/full
refuses "rovinuset: plain: not written: No space left on device"
printf '\33*b3W\001\002\003' >wide.pcl
printf '\33*b2W\001\002' >narrow.txt
call plain 16 9 wide.pcl
gives 0 narrow.txt
call plain longest
gives 0 longest
quietly
call plain longer
refused 12
call plain 7 800 longer
refused 10
call plain 640 6801 <empty
refused 10
call plain 99999999999999999999999999999999999999 800 combined.pcl
refused 10
call plain 0 0 combined.pcl
refused 10
yes "$(printf '\33&acccC')" | tr -d '\n' | head -c 700000 >growing # each of its four commands is written as five bytes
call plain growing
refused 15
right "other plain streams" python3 "$corpus/../../plains.py" "$corpus" "${command[@]}" plain

# The page that is not said is that of draw and record: a row wider than 640 dots is passed on whole, by the program alone, too.
{ printf '\33*b300W'; head -c 300 /dev/zero | tr '\0' '\1'; } >row.pcl
for job in row.pcl "$corpus/gm-curve-150.pcl" "$corpus/../damaged/damaged-curve.pcl"; do
  x86_run "$root/target/bin/plain" 2552 3304 <"$job" >wanted
  call plain "$job"
  right "another stream than on 2552 by 3304" cmp -s wanted printed
  said="target/bin/plain <$job"
  x86_run "$root/target/bin/plain" <"$job" >printed 2>errors
  right "another stream than on 2552 by 3304" cmp -s wanted printed
  quietly
done
call plain row.pcl
gives 0 row.pcl
# What draw says of a job, plain says on standard error, and passes it on.
for job in "$corpus/gm-curve-150.pcl" "$corpus/../damaged/damaged-curve.pcl" "$corpus/../damaged/flat-curve.pcl"; do
  for page in "2552 3304" ""; do
    call draw $page "$job" -o drawn
    right "no findings, so this shows nothing" [ "$status" -eq 1 ]
    right "the page is said where it was given, or not where it was not" [ "$(grep -cxF "$default" printed)" -eq "$([ -n "$page" ]; echo $?)" ]
    sed 's/: drawn$//' printed >words
    call plain $page "$job"
    right "status $status, not 1" [ "$status" -eq 1 ]
    right "other words than draw: $(cat errors)" cmp -s words <(sed "s/: passed on as $(wc -c <printed) bytes\$//" errors)
  done
  mv printed passed.pcl
  call plain passed.pcl
  gives 0 passed.pcl # and in what is passed on there is nothing to find
  quietly
done
call plain paper.pcl
right "status $status, not 1" [ "$status" -eq 1 ]
printf '%s\n' 'finding 5, push when full, pop when empty: 1, the first at place 0' "$default" "1 page, 1 finding, 9 dots: passed on as $(wc -c <printed) bytes" >wanted
right "says: $(cat errors)" cmp -s wanted errors
# Findings that cannot be told are no clean end, and no other one.
said="plain paper.pcl 2>/dev/full" status=0
"${command[@]}" plain paper.pcl >printed 2>/dev/full || status=$?
right "status $status, not 2" [ "$status" -eq 2 ]
said="plain paper.pcl 2>&-" status=0
"${command[@]}" plain paper.pcl >both 2>&- || status=$?
right "status $status, not 2" [ "$status" -eq 2 ]
right "something else on standard output" cmp -s both printed
said="plain combined.pcl 2>&-" status=0
"${command[@]}" plain combined.pcl >printed 2>&- || status=$?
gives 0 combined.txt
said="plain nowhere 2>/dev/full" status=0
"${command[@]}" plain nowhere 2>/dev/full || status=$?
right "status $status, not 2" [ "$status" -eq 2 ]
# ---- park and unpark
# By hand, on a page of 192 by 2,400 units, where text begins at 0, 900: &a2C goes to the right edge, &f0S pushes that place, *t300R is the resolution, and
# the row of one byte begins at the left and is 24 units high.
printf '\33&a2C\33&f0S\33*t300R\33*b1W\252' >state.pcl
printf 'JOB\t8\t100\t0\t924\t0\t192\t0\t720\t1200\t0\t300\t0\t1\t0\t1\t1\nPOS\t192\t900\nROW\tAA\n' >state.txt
for words in "8 100 state.pcl" "8 100" "8 100 -" "-n 4 8 100 state.pcl" "8 -n 5 100 state.pcl" "8 100 state.pcl -n 00000000000000000000000004" \
  "8 100 -n 9999999 state.pcl" "8 100 -n 10000000 state.pcl" "8 100 state.pcl -n 18446744073709551616" "008 100 -n 99999999999999999999999999 -- state.pcl"; do
  call park $words <state.pcl
  gives 0 state.txt
  quietly
done
while read -r items text; do
  printf '%b' "$text" >wanted
  call park 8 100 state.pcl -n "$items"
  gives 0 wanted
  quietly
done <<'TEXT'
0 JOB\t8\t100\t0\t900\t0\t192\t0\t720\t1200\t0\t75\t0\t0\t0\t0\t0\nROW\t00\n
1 JOB\t8\t100\t192\t900\t0\t192\t0\t720\t1200\t0\t75\t0\t0\t0\t0\t0\nROW\t00\n
2 JOB\t8\t100\t192\t900\t0\t192\t0\t720\t1200\t0\t75\t0\t0\t0\t0\t1\nPOS\t192\t900\nROW\t00\n
3 JOB\t8\t100\t192\t900\t0\t192\t0\t720\t1200\t0\t300\t0\t0\t0\t0\t1\nPOS\t192\t900\nROW\t00\n
TEXT
call park 8 100 state.pcl -n 0
mv printed afresh.txt
call park 8 100 empty
gives 0 afresh.txt
emptily
call park 8 100 combined.pcl -n 1 # &a10c leaves its sequence open
refused_by park 16 "sequence open"
call park 8 100 combined.pcl -n 2
parks
call park 8 100 -n 1 paper.pcl # a finding: it is an item like others, and is not told
gives 0 afresh.txt
quietly
# On the page that is not said, and on papers: that is in the text.
call park combined.pcl
parks
right "another page" [ "$(cut -f 2,3 printed | head -n 1)" = $'2552\t3304' ]
right "another text than by the program alone" cmp -s printed <(x86_run "$root/target/bin/park" <combined.pcl)
while read -r paper wide high; do
  call park $paper combined.pcl
  parks
  right "another page" [ "$(cut -f 2,3 printed | head -n 1)" = "$wide"$'\t'"$high" ]
  right "a row of $(tail -n 1 printed | wc -c) bytes" [ "$(tail -n 1 printed | wc -c)" -eq $((5 + wide / 4)) ]
done < <(papers)
# Refused in this order: 10, 12, 16.
for words in "7 100 state.pcl" "8 6801 state.pcl" "0 0 state.pcl" "641 800 longer" "7 100 -n 1 combined.pcl" "99999999999999999999999999 800 state.pcl"; do
  call park $words
  refused_by park 10 "page measure not allowed"
done
cat combined.pcl longer >opened.pcl
for words in longer "opened.pcl -n 1" "8 100 longer -n 0"; do
  call park $words
  refused_by park 12 "job longer than 1,048,576 bytes"
done
call park longest
parks
# Into a file: the same bytes, and what was there stays where it is refused.
for job in state.pcl "$corpus/gm-curve-150.pcl" empty; do
  call park a4 "$job"
  cp printed wanted
  cp errors words
  call park -o parked.txt a4 "$job"
  gives 0 empty
  right "other words: $(cat errors)" cmp -s words errors
  right "another text" cmp -s wanted parked.txt
  for words in - /dev/stdout; do
    call park a4 "$job" -o $words
    gives 0 wanted
    right "other words: $(cat errors)" cmp -s words errors
  done
done
echo mine >parked.txt
for words in "10 641 800 state.pcl" "12 longer" "16 -n 1 combined.pcl"; do
  call park ${words#* } -o parked.txt
  refused_by park "${words%% *}" ""
  right "what was there is another" [ "$(cat parked.txt)" = mine ]
  call park ${words#* } -o none.txt
  refused_by park "${words%% *}" ""
  right "a file is left of it" [ ! -e none.txt ]
done
cp state.pcl job.pcl
call park 8 100 job.pcl -o ./job.pcl
refuses "the parked text would be written over the job: ./job.pcl"
right "the job is another" cmp -s state.pcl job.pcl
call park state.pcl -o nowhere/parked.txt
refuses "no such folder: nowhere"
call park state.pcl -o /
refuses "a folder, not a file: /"
call park state.pcl -o /dev/full
refuses "rovinuset: park: not written: No space left on device"
call park state.pcl -o a -o b
refuses "park takes -o once, and the file to write behind it"
for words in x -1 +1 1.5 1e3 0x1 $'\xd9\xa1' "1 " -o; do
  call park 8 100 state.pcl -n "$words"
  refuses "rovinuset: not a number of items: $words"
done
for words in "-n" "-n 1 -n 1"; do
  call park 8 100 state.pcl $words
  refuses "rovinuset: park takes -n once, and a number of items behind it"
done
call park 8 100 state.pcl -n ""
refuses "rovinuset: park takes -n once, and a number of items behind it"

# What a text holds, by hand.
printf '%b\t%s\n' W 8 H 100 x 0 y 924 L 0 R 192 T 0 HMI 720 VMI 1200 termination 0 resolution 300 method 0 started 1 margin 0 used 1 depth 1 >held.txt
printf 'POS\t192\t900\nROW\tAA\n' >>held.txt
for words in state.txt "" - /dev/stdin "-- state.txt"; do
  call unpark $words <state.txt
  gives 0 held.txt
  quietly
done
"${command[@]}" park 8 100 state.pcl | "${command[@]}" unpark >printed
said="park | unpark" && right "another text" cmp -s held.txt printed
sed 's/$/\r/' state.txt >crlf.txt
sed 's/\t100\t/\t6801\t/' state.txt >high.txt
head -c 1048576 /dev/zero >zeros.txt
head -c 2000000 /dev/zero | tr '\0' J >two.txt
{ cat state.txt && head -c 1048577 /dev/zero; } >followed.txt
while read -r words number text; do
  call unpark $words
  refused_by unpark $number "$text"
  call unpark <$words
  refused_by unpark $number "$text"
done <<'TEXT'
crlf.txt 17 text not of the form of a parked text
empty 17 text not of the form of a parked text
zeros.txt 17 text not of the form of a parked text
state.pcl 17 text not of the form of a parked text
high.txt 18 form right, but page measure not allowed or state not sound
two.txt 12 text longer than 1,048,576 bytes
longer 12 text longer than 1,048,576 bytes
followed.txt 12 text longer than 1,048,576 bytes
TEXT

# The same as by the second program: on real streams and damaged ones, with the items ending anywhere, and then on their texts.
# as_second WORDS..: what it prints is the file `wanted`; it is refused if that says so.
as_second() {
  local ended=0
  ! grep -q '^REFUSED' wanted || ended=2
  call "$@"
  gives "$ended" wanted
  right "not as many lines of words: $(cat errors)" [ "$(wc -l <errors)" -eq $((ended / 2)) ]
}
parked=0
for job in "$corpus"/{gm-curve-150,hp2xx-75,groff-lj4-letter,barcode-table,gnuplot-pcl5}.pcl "$corpus"/../damaged/{damaged,flat}-curve.pcl; do
  for words in "640 800 1" "2480 3508 7" "8 1 40" "1000 151 333" "4800 6800 100000000"; do
    read -r wide high items <<<"$words"
    "$second" park $wide $high -n $items <"$job" >wanted || :
    as_second park $wide $high "$job" -n $items
    grep -q '^REFUSED' printed || { parked=$((parked + 1)) && mv printed parked-$parked.txt; }
  done
done
said="park" && right "$parked texts of 35: too few" [ "$parked" -ge 20 ]
for ((one = 1; one <= parked; one += 3)); do
  "$second" unpark <parked-$one.txt >wanted || :
  as_second unpark parked-$one.txt
  right "not the members of the text" cmp -s <(head -n 1 parked-$one.txt) <(head -n 16 printed | cut -f 2 | paste -s | sed 's/^/JOB\t/')
done
# And on texts cut and damaged.
damaged=0
while IFS= read -r words; do
  damaged=$((damaged + 1))
  sed "$words" state.txt >damaged.txt
  right "$words changes nothing" [ "$(cmp -s state.txt damaged.txt; echo $?)" -eq 1 ]
  "$second" unpark <damaged.txt >wanted || :
  as_second unpark damaged.txt
done <<'TEXT'
1s/JOB/JOB2/
1s/JOB/job/
1s/JOB\t/JOB /
1s/^/ /
1s/\t8\t/\t9\t/
1s/\t8\t/\t16\t/
1s/\t8\t/\t08\t/
1s/\t8\t/\t7\t/
1s/\t8\t/\t9999999999\t/
1s/\t8\t/\t99999999999\t/
1s/\t8\t/\t-8\t/
1s/\t100\t/\t0\t/
1s/\t100\t/\t4294967396\t/
1s/\t924\t/\t2400\t/
1s/\t924\t/\t2401\t/
1s/\t924\t/\t925\t/
1s/\t192\t/\t193\t/
1s/\t192\t/\t0\t/
1s/\t300\t/\t76\t/
1s/\t300\t0\t/\t300\t3\t/
1s/\t300\t0\t/\t300\t4\t/
1s/\t300\t0\t1\t/\t300\t0\t2\t/
1s/\t300\t0\t1\t/\t300\t0\t0\t/
1s/\t1200\t0\t/\t1200\t3\t/
1s/\t1200\t0\t/\t1200\t4\t/
1s/\t1\t1$/\t0\t1/
1s/\t1\t1$/\t2\t1/
1s/\t1$/\t0/
1s/\t1$/\t2/
1s/\t1$/\t4294967297/
1s/$/\t0/
1s/$/\t/
1s/\t1$//
2d
2p
2s/192/193/
2s/192/0192/
2s/900/4294968196/
2s/900$/900\t0/
2s/POS/pos/
3d
3p
3s/AA/aa/
3s/AA/A/
3s/AA/AAAA/
3s/AA/FF/
3s/\tAA//
3s/\t/ /
3s/$/\n/
1s/^/\n/
TEXT
for length in 1 3 5 40 $(($(wc -c <state.txt) - 4)) $(($(wc -c <state.txt) - 1)); do
  damaged=$((damaged + 1))
  head -c $length state.txt >damaged.txt
  "$second" unpark <damaged.txt >wanted || :
  as_second unpark damaged.txt
done
said="unpark" && right "$damaged damaged texts" [ "$damaged" -ge 50 ]

# A program that fails is not a job with findings, and one whose output is of no form is not passed on.
stub checkout
echo mine >kept.pcl
for word in plain "plain -o kept.pcl" "report 640 800" report "pages 640 800" park "park -o kept.pcl" unpark; do
  for lines in 'exit 1' 'cat >/dev/null; kill -SEGV $$' 'printf "SIZE\t640\t800\n"; printf "SIZE\t640\t800\n" >&2' 'echo UNWRITTEN >&2'; do
    for name in pages plain report park unpark; do fake checkout $name "$lines"; done
    said="$word, over programs that do: $lines" status=0
    checkout/rovinuset $word <paper.pcl >printed 2>errors || status=$?
    right "status $status, not 2" [ "$status" -eq 2 ]
    right "not one line of its own: $(cat errors)" [ "$(grep -c '^rovinuset: ' errors)" -eq 1 ]
    right "something else on standard error: $(cat errors)" [ -z "$(grep -v '^rovinuset: \|^SIZE' errors)" ]
    right "prints" [ ! -s printed -o "$word" = "pages 640 800" ]
    right "writes" [ "$(cat kept.pcl)" = mine ]
  done
done
fake checkout pages 'cat >/dev/null; printf "SIZE\t640\t800\nEND\t0\t0\t0\t0\n" >&2'
fake checkout plain 'cat >/dev/null; printf "cut"; exit 1'
said="plain, over a program that breaks off" status=0
checkout/rovinuset plain <paper.pcl >printed 2>errors || status=$?
refuses "rovinuset: plain: not written: the program broke off"
# A parked text that is not whole, a number that is none of a parked text's, and one whose program failed behind it.
"$second" park 8 100 -n 4 <state.pcl >cut
for lines in 'printf "JOB\t8"' "head -n 1 cut" "head -n 2 cut" "head -c -1 cut" "sed s/AA/aa/ cut" "cat cut; echo" "cat cut; exit 1" \
  "cat cut; echo UNWRITTEN >&2" 'printf "REFUSED\t17\n"' 'printf "REFUSED\t15\n"' 'printf "REFUSED\t10"' :; do
  fake checkout park 'cat >/dev/null' "$lines"
  for word in park "park -o kept.pcl"; do
    said="$word, over a program that does: $lines" status=0
    checkout/rovinuset $word <state.pcl >printed 2>errors || status=$?
    refuses "rovinuset: park: not written: the program broke off"
    right "writes" [ "$(cat kept.pcl)" = mine ]
  done
done
"$second" unpark <cut >held
for lines in "head -n 15 held" "head -c -1 held" "sed 1d held" "sed s/depth/deep/ held" "cat held; exit 1" "cat cut" 'printf "REFUSED\t16\n"' :; do
  fake checkout unpark 'cat >/dev/null' "$lines"
  said="unpark, over a program that does: $lines" status=0
  checkout/rovinuset unpark <cut >printed 2>errors || status=$?
  refuses "rovinuset: unpark: not written: the program broke off"
done

# A job that cannot be read: the programs say UNREAD and nothing else, the command ends with 2 and one line.
unread() {
  right "says: $(cat errors)" [ "$(cat errors)" = UNREAD ]
  right "prints" [ ! -s printed ]
}
memory=/proc/self/mem # its first byte cannot be read: EIO; as long as the process that opened it goes on
exec {opened}<"$memory"
breaks="python3 $root/tests/breaks.py"
for name in report pages plain park unpark; do
  program=("$root/target/bin/$name")
  [ -z "${x86_emulator-}" ] || program=("$x86_emulator" "${program[@]}")
  said="target/bin/$name </"
  "${program[@]}" </ >printed 2>errors
  unread
  said="target/bin/$name <$memory"
  "${program[@]}" <&"$opened" >printed 2>errors
  unread
  said="target/bin/$name <&-"
  "${program[@]}" >printed 2>errors <&-
  unread
  for kind in terminal socket network busy; do
    said="target/bin/$name, $kind"
    $breaks $kind "${program[@]}" >printed 2>errors
    unread
  done
done
for word in report plain pages "report a5" park unpark; do
  case $word in unpark) what=text ;; *) what=job ;; esac
  call $word "$memory"
  refuses "the $what could not be read"
  call $word <"$memory"
  refuses "the $what could not be read"
  call $word <&-
  refuses "the $what could not be read: standard input is closed"
  call $word /dev/stdin <&- # by its name it is no empty job either
  refuses "rovinuset: "
  for kind in socket network busy; do
    said="$word, $kind" status=0
    $breaks $kind "${command[@]}" $word >printed 2>errors || status=$?
    refuses "the $what could not be read"
  done
  said="$word, terminal" status=0
  $breaks terminal "${command[@]}" $word >printed 2>errors || status=$?
  right "does not say that it waits: $(cat errors)" grep -q "reading the $what from the terminal" errors
  sed -i "/reading the $what from the terminal/d" errors
  refuses "the $what could not be read"
done
# A pipe whose writer is killed ends as any other does, for the system as for us: the bytes that came are the job.
printf '\33&a10C\33&a5' >cut.pcl
for word in report plain pages "report 640 800"; do
  call $word cut.pcl
  mv printed wanted
  mv errors words
  call $word < <(cat cut.pcl; kill -KILL "$BASHPID")
  gives 1 wanted
  right "says: $(cat errors)" cmp -s words errors
done
"$second" park 8 100 <cut.pcl >wanted
call park 8 100 < <(cat cut.pcl; kill -KILL "$BASHPID")
gives 0 wanted
quietly
call unpark < <(head -c 20 wanted; kill -KILL "$BASHPID")
refused_by unpark 17 "text not of the form of a parked text"

mkdir folder
call plain nowhere
refuses "no such file: nowhere"
call plain 640 800 folder
refuses "a directory, not a job: folder"
call plain <folder
refuses "a directory, not a job: standard input"
call plain 640 combined.pcl
refuses "not a number of dots: combined.pcl"
call plain -640 800 combined.pcl
refuses "not a number of dots: -640"
call plain 640 "" combined.pcl
refuses "not a number of dots: "
call plain 640 800 combined.pcl combined.pcl
refuses "plain takes the page's measure, or nothing, and one job"
call plain a4 combined.pcl paper.pcl
refuses "plain takes the page's measure, or nothing, and one job"
call plain combined.pcl paper.pcl
refuses "rovinuset: plain takes one job, and here are two: combined.pcl, paper.pcl"
call report <folder
refuses "a directory, not a job: standard input"
call report nowhere
refuses "no such file: nowhere"
call report folder
refuses "a directory, not a job: folder"
call report paper.pcl combined.pcl
refuses "rovinuset: report takes one job, and here are two: paper.pcl, combined.pcl"
call pages paper.pcl combined.pcl
refuses "rovinuset: pages takes one job, and here are two: paper.pcl, combined.pcl"
call pages nowhere
refuses "no such file: nowhere"
call pages folder
refuses "a directory, not a job: folder"
call pages <folder
refuses "a directory, not a job: standard input"
call park nowhere
refuses "no such file: nowhere"
call park 8 100 folder -n 1
refuses "a directory, not a job: folder"
call park <folder
refuses "a directory, not a job: standard input"
call park paper.pcl combined.pcl
refuses "rovinuset: park takes one job, and here are two: paper.pcl, combined.pcl"
call park 640 combined.pcl
refuses "not a number of dots: combined.pcl"
call park 640 800 combined.pcl combined.pcl
refuses "park takes the page's measure, or nothing, and one job"
call unpark nowhere
refuses "no such file: nowhere"
call unpark folder
refuses "a directory, not a text: folder"
call unpark <folder
refuses "a directory, not a text: standard input"
call unpark state.txt state.txt
refuses "rovinuset: unpark takes one text, and here are two: state.txt, state.txt"
call unpark 8 100 state.txt # its page is in it
refuses "rovinuset: unpark takes one text, and here are 3: 8, 100, state.txt"

# A dash: '-' is standard input, -- ends the options, and what begins with a dash is no file unless it is said.
cp combined.pcl ./-x
for words in "-x" "-x combined.pcl" "640 800 -x" "combined.pcl -x"; do
  call plain $words
  refuses "rovinuset: no such option: -x (a file of that name is ./-x)"
done
for word in report pages unpark; do
  call $word -o none paper.pcl
  refuses "rovinuset: no such option: -o (a file of that name is ./-o)"
done
call plain --pages 3 combined.pcl
refuses "rovinuset: no such option: --pages (a file of that name is ./--pages)"
for word in plain report unpark; do
  call $word -n 3 combined.pcl
  refuses "rovinuset: no such option: -n (a file of that name is ./-n)"
done
for words in "./-x" "-- -x" "640 800 -- -x" "-- 640 800 -x" "-- combined.pcl" "combined.pcl --" "-o - -- -x"; do
  call plain $words
  gives 0 combined.txt
  quietly
done
call plain -- - <combined.pcl
gives 0 combined.txt
call plain -- -o
refuses "no such file: -o"

# Help is standard output and a clean end, for all and for each command; no word is a wrong one that is said in a line.
call
ends 0 "$(tail -n 1 printed)"
cp printed usage
for word in --help -h help "help help" "help --help" "help -h"; do
  call $word
  gives 0 usage
  quietly
done
for word in draw record plain pages report park unpark archive bench; do
  said="the help" && right "$word is not in it" grep -q "^  \./rovinuset $word " usage
  call $word --help
  ends 0 "$(tail -n 1 printed)"
  right "it is of another command" grep -q "^\./rovinuset $word" printed
  right "it does not say the exit status" grep -q '^Exit status: ' printed
  cp printed its_usage
  call $word -h
  gives 0 its_usage
  call help $word
  gives 0 its_usage
  call $word nowhere --help # whatever else is given
  gives 0 its_usage
done
said="the examples of the help" && right "$(cat printed)" python3 "$root/tests/documented.py" "$root"/tools/help/{park,unpark}.txt >printed
call --version
printf 'Rovinuset %s\n' "$(cat "$root/VERSION")" >wanted
gives 0 wanted
quietly
for word in print "" Draw draw.py --draw -x; do
  call "$word" paper.pcl
  refuses "rovinuset: no such word: $word"
  right "does not say where they are" grep -q '\./rovinuset help' errors
done
call print
refuses "rovinuset: no such word: print"

for word in report "report 640 800" plain park "park 641 800" "park -n 1" unpark; do # park and unpark: the line of a refusal, too
  unwritten $word combined.pcl
  refuses "rovinuset: ${word%% *}: not written: No space left on device"
  closed $word combined.pcl
  refuses "rovinuset: ${word%% *}: not written: No space left on device"
done
unwritten unpark state.txt
refuses "rovinuset: unpark: not written: No space left on device"
unwritten plain paper.pcl
refuses "rovinuset: plain: not written: No space left on device"
# What it could not write is not said to be there: the page's line and the end are not told.
for output in unwritten closed; do
  $output pages 640 800 paper.pcl
  right "status $status, not 2" [ "$status" -eq 2 ]
  right "no words: $(cat errors)" grep -q '^rovinuset: pages: ' errors
  right "not one line of words: $(cat errors)" [ "$(grep -c '^rovinuset: ' errors)" -eq 1 ]
  right "it tells of a page that is not there: $(cat errors)" [ -z "$(grep '^PAGE\|^END' errors)" ]
done
for word in "" --help --version "draw --help"; do
  unwritten $word
  right "status $status, not 2" [ "$status" -eq 2 ]
done
: >shut
chmod 0 shut
bound # root may read everything
call report shut
refuses "no permission to read: shut"
call plain shut
refuses "no permission to read: shut"
call pages shut
refuses "no permission to read: shut"
call park shut
refuses "no permission to read: shut"
call unpark shut
refuses "no permission to read: shut"

counted command
