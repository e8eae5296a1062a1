#!/usr/bin/env bash
# The one command where things go wrong, as a new user meets them: standard streams that are closed or full, readers that go away, a checkout of somebody
# else's, two calls at once, Ctrl-C at each stage, read-only folders, FIFOs, links, names of any bytes, no kit. A line for each failed check, then the count.
# Exit status 1 on a failure. careful.sh PART.. tries these parts alone; their names are at the end.
set -eu
cd "$(dirname "$0")/.."
. tests/checks.sh
programs=(pages plain report park unpark)
for name in "${programs[@]}"; do proved_program "$name"; done
root=$PWD
rooms=$(readlink -f "$(mktemp -d)")
trap 'kill $(jobs -p) 2>/dev/null || :; chmod -R u+rwx "$rooms"; rm -rf "$rooms"' EXIT
chmod 755 "$rooms" # another user is to come in
python=$(python3 -c 'import sys; print(sys.executable)')
PATH=$(dirname "$python"):$PATH # not by a script that looks for it with each call
careful=(python3 -B "$root/tests/careful.py")

# ---- checkouts, programs and a kit of the test's own

# checkout FOLDER: all of a checkout but its sources, and nothing built.
checkout() {
  local name
  mkdir -p "$1/tests" "$1/crates" "$1/include"
  for name in "${programs[@]}" door; do mkdir -p "$1/crates/$name"; done
  cp -R "$root/rovinuset" "$root/tools" "$root/VERSION" "$root/crates.txt" "$1"
  cp "$root/tests/need.sh" "$root/tests/x86.sh" "$root/tests/archives.sh" "$1/tests"
  touch -d '2 hours ago' "$1/crates.txt" "$1/crates"
}
# built FOLDER: the same with the proved programs, and a library that is no library, but long enough to be written in part.
built() {
  checkout "$1"
  mkdir -p "$1/target/bin" "$1/target/staticlib"
  cp "${programs[@]/#/$root/target/bin/}" "$1/target/bin"
  head -c 200000 /dev/zero | tr '\0' L >"$1/target/staticlib/libdoor.a"
}
# instead PROGRAM: a shell script in the place of a proved program of the checkout `faked`. Its text is standard input; $PROGRAMS has the proved ones.
instead() {
  { printf '#!/bin/sh\n'; cat; } >faked/target/bin/"$1"
  chmod +x faked/target/bin/"$1"
}
# unfaked: all programs are the proved ones again.
unfaked() { cp "$PROGRAMS"/* faked/target/bin; }
# kit: an `rt` that proves nothing. In a crate's folder it says of two crates that it begins to prove them, as rt does, notes its own begin and its end in $RT_LOG,
# and behind that has the program or the library in out/; a program it runs, and ends as that does. $RT_DOES says what happens between: waits (a child of its own
# does, as with rt), held (until the file $LET is there), slow, fails.
kit() {
  mkdir -p kit/bin
  cat >kit/bin/rt <<'TEXT'
#!/bin/sh
name=$(basename "$PWD")
echo "begin $* $name" >>"$RT_LOG"
echo "rt: chose --jobs 2 for common"
echo "rt: chose --jobs 2 for rules"
[ -z "${STAGE-}" ] || : >"$STAGE"
case ${RT_DOES-} in
waits) sleep 600 ;;
held) n=0; while [ ! -e "$LET" ] && [ $n -lt 200 ]; do sleep 0.05; n=$((n + 1)); done ;;
slow) sleep 0.6 ;;
fails) echo "logic=not-proved functions=1"; exit 1 ;;
esac
mkdir -p out
case $1 in
run) cp "$PROGRAMS/$name" out/ ;;
lib) echo library >"out/lib$name.a" ;;
*) exit 2 ;;
esac
echo "logic=proved functions=1"
echo "end" >>"$RT_LOG"
[ "$1" != run ] || exec "out/$name"
TEXT
  chmod +x kit/bin/rt
  local real
  real=$(dirname "$(dirname "$(readlink -f "$(command -v rt)")")")
  [ ! -e "$real/on" ] || ln -s "$real/on" kit/on # the emulator, on another machine than x86-64
}
# hook: a `python3` that does what $STEP says.
hook() {
  mkdir hook
  printf '#!/bin/sh\nexec "%s" -B "%s" python "$@"\n' "$python" "$root/tests/careful.py" >hook/python3
  chmod +x hook/python3
}
# few COMMANDS..: a folder `few` that has these commands alone, so as not to have rt.
few() {
  mkdir few
  local name
  for name; do
    if command -v "$name" >/dev/null; then ln -s "$(command -v "$name")" few; fi
  done
  printf '#!/bin/sh\nfor one in "%s" /usr/local/bin/python3 /usr/bin/python3; do [ ! -x "$one" ] || exec "$one" "$@"; done\n' "$python" >few/python3
  chmod +x few/python3
}

# prepare: all that the parts need, in a folder of its own: $room.
prepare() {
  local name
  mkdir "$room" "$room/programs"
  cd "$room"
  for name in "${programs[@]}"; do
    printf '#!/bin/sh\nexec %s "%s" "$@"\n' "${x86_emulator:+"\"$x86_emulator\""}" "$root/target/bin/$name" >programs/$name
    chmod +x programs/$name
  done
  export PROGRAMS=$room/programs RT_LOG=$room/rt.log STAGE=$room/stage LET=$room/let
  : >"$RT_LOG"
  built real
  built faked
  kit
  hook
  few bash sh env cat cp mv rm ls mkdir mktemp touch find grep sed awk head tail sort dirname basename readlink uname id date sleep tr wc cmp setsid kill
  command=("$room/real/rovinuset")
  printf '\33&f1S\33*t300R\33*b2W\377\200\fA' >paper.pcl # two pages and one finding
  printf '\33&f1S\33*t300R\33*b2W\377\200' >short.pcl # one page and one finding
  printf '\33*t300R\33*b2W\377\200' >clean.pcl
  printf 'JOB\t8\t100\t192\t900\t0\t192\t0\t720\t1200\t0\t75\t0\t0\t0\t0\t1\nPOS\t0\t900\nROW\t00\n' >parked.txt
  printf '\33*t300R\33*b1W\360\f\33*b1W\377\f\33*b1W\1' >three.pcl # three pages
  head -c 1048577 /dev/zero >long.pcl
  head -c 300000 /dev/zero | tr '\0' A >text.pcl # its plain stream is itself, and longer than a pipe
  python3 - >large.pcl <<'TEXT' # the picture of its second page is longer than 8 KiB
import random, sys
noise = random.Random(1)
sys.stdout.buffer.write(b"A\f\33*t300R" + b"".join(b"\33*b80W" + noise.randbytes(80) for _ in range(800)))
TEXT
}

# ---- what is looked at

# must TEXT COMMAND..: as `right`; where it fails, the first lines of `errors` and `differs` are printed too.
must() {
  local before=$failed
  right "$@"
  [ "$failed" -eq "$before" ] || head -q -n 2 errors differs 2>/dev/null | cut -c 1-200 | sed 's/^/    /' | cat -v
  : >differs
}
# same ONE OTHER: two files or folders with the same in them, hidden files too. shown ONE OTHER: without the command's own files in progress.
same() { diff -r --no-dereference "$1" "$2" >differs 2>&1; }
shown() { diff -r --no-dereference -x '.rovinuset-*' "$1" "$2" >differs 2>&1; }
# alike ONE OTHER: the same, or neither is there.
alike() { [ ! -e "$1" -a ! -e "$2" ] || same "$1" "$2"; }
# unchanged FOLDER LIKE: nothing in it was touched, nothing was added.
unchanged() { must "$1 is another" same "$1" "$2"; }
# absent PATHS..: none is there.
absent() {
  local path
  for path; do must "$path is there" [ ! -e "$path" -a ! -L "$path" ]; done
}
# one_line STATUS TEXT: this status, and one line on standard error, with this text.
one_line() {
  must "status $status, not $1" [ "$status" -eq "$1" ]
  must "does not say: $2" grep -qaF -- "$2" errors
  must "not one line on standard error" [ "$(wc -l <errors)" -eq 1 ]
}
# run TEXT COMMAND..: as `call`, for a whole command.
run() {
  said=$1 status=0
  shift
  "$@" >printed 2>errors || status=$?
}

# ---- standard streams

# streamed STATUS HOW WORDS..: the call with its streams so. It must end with this status; what it writes to `goal` and prints is what it writes and prints
# when nothing is wrong (`whole`, `printed.whole`, `errors.whole`), or, with 2, nothing; with 2 it says why in one line where that can be written.
streamed() {
  local expected=$1 how=$2
  shift 2
  said="$* $how" status=0
  rm -rf goal
  : >printed
  : >errors
  case $how in
  "<&-") "${command[@]}" "$@" >printed 2>errors <&- ;;
  ">&-") "${command[@]}" "$@" <paper.pcl 2>errors >&- ;;
  ">/dev/full") "${command[@]}" "$@" <paper.pcl 2>errors >/dev/full ;;
  ">folder") "${command[@]}" "$@" <paper.pcl 2>errors 1<programs ;;
  "2>&-") "${command[@]}" "$@" <paper.pcl >printed 2>&- ;;
  "2>folder") "${command[@]}" "$@" <paper.pcl >printed 2<programs ;;
  "2>/dev/full") "${command[@]}" "$@" <paper.pcl >printed 2>/dev/full ;;
  "all closed") "${command[@]}" "$@" <&- >&- 2>&- ;;
  "both full") "${command[@]}" "$@" <paper.pcl >/dev/full 2>/dev/full ;;
  esac || status=$?
  must "status $status, not $expected" [ "$status" -eq "$expected" ]
  if [ "$status" -lt 2 ]; then
    must "writes something else" alike goal whole
    case $how in "<&-" | "2>"*) must "prints something else" same printed printed.whole ;; esac
    case $how in "<&-" | ">"*) must "says something else" same errors errors.whole ;; esac
  else
    [ ! -e goal ] || must "leaves something else" same goal whole
    [ ! -s printed ] || must "prints something else" same printed printed.whole
    case $how in # the lines of a program have tabs
    "<&-" | ">"*) must "not one line that says why" [ "$(grep -c '^rovinuset: ' errors) $(grep -cv $'\t' errors)" = "1 1" ] ;;
    esac
  fi
}
# streams OUTPUT ERROR INPUT ALL WORDS..: the call with standard output, error, input closed, full or a folder, and with all closed: it must end with these
# statuses.
streams() {
  local output=$1 error=$2 input=$3 all=$4
  shift 4
  rm -rf goal whole
  "${command[@]}" "$@" <paper.pcl >printed.whole 2>errors.whole || :
  [ ! -e goal ] || mv goal whole
  streamed "$output" ">&-" "$@"
  streamed "$output" ">/dev/full" "$@"
  streamed "$output" ">folder" "$@"
  streamed "$error" "2>&-" "$@"
  streamed "$error" "2>/dev/full" "$@"
  streamed "$error" "2>folder" "$@"
  streamed "$input" "<&-" "$@"
  streamed "$all" "all closed" "$@"
  [ "$output$error" != 22 ] || streamed 2 "both full" "$@"
}
# 1 means findings and that all that was asked for was written; whatever cannot be written is 2. A descriptor that is closed is not taken for a file's.
closed_and_full() {
  local word how
  streams 2 0 0 2
  streams 2 0 0 2 --version
  streams 2 0 0 2 draw --help
  streams 2 1 1 2 draw 640 800 paper.pcl -o goal
  streams 2 1 2 2 draw 640 800 -o goal
  streams 2 1 1 2 record 640 800 paper.pcl -o goal
  streams 2 2 1 2 record 640 800 paper.pcl -o -
  streams 2 2 1 2 plain paper.pcl
  streams 2 0 0 2 plain clean.pcl
  streams 1 2 1 2 plain paper.pcl -o goal
  streams 0 0 0 0 plain clean.pcl -o goal
  streams 2 2 1 2 pages 640 800 paper.pcl
  streams 2 1 1 2 report paper.pcl
  streams 2 0 0 2 park paper.pcl
  streams 2 0 2 2 park
  streams 0 0 0 0 park 640 800 paper.pcl -n 3 -o goal
  streams 2 2 2 2 park 641 800 paper.pcl
  streams 2 0 0 2 unpark parked.txt
  streams 2 2 2 2 unpark paper.pcl
  streams 2 0 0 2 archive
  streams 2 0 0 2 archive -o goal
  streams 2 2 0 2 archive -o -
  for word in print "draw goal" "draw nowhere -o goal" "draw paper.pcl clean.pcl -o goal" "record paper.pcl -x -o goal" "plain 640 eight paper.pcl" \
    "report paper.pcl clean.pcl" "park -n x paper.pcl" "unpark parked.txt parked.txt" "archive one two" "bench now"; do
    rm -rf whole
    : >printed.whole
    for how in ">&-" "2>&-" "2>/dev/full" "all closed"; do streamed 2 "$how" $word; done
  done
  # Pages whose lines cannot be written are whole all the same.
  { cat paper.pcl && head -c 300 /dev/zero | tr '\0' '\f'; } >blank.pcl
  call pages 640 800 blank.pcl
  must "status $status, not 1" [ "$status" -eq 1 ]
  mv printed printed.whole
  rm -rf whole
  for how in "2>&-" "2>/dev/full" "2>folder"; do
    streamed 2 "$how" pages 640 800 blank.pcl
    must "not all pages" same printed printed.whole
  done
  run "pages 640 800 blank.pcl, with errors that nobody reads" "${careful[@]}" gone 2 "${command[@]}" pages 640 800 blank.pcl
  must "status $status, not 2" [ "$status" -eq 2 ]
  must "not all pages" same printed printed.whole
  # What was written is not called unwritten where its summary alone could not be.
  for word in draw record; do
    rm -rf goal
    unwritten $word 640 800 clean.pcl -o goal
    one_line 2 "No space left on device"
    must "calls it not written" [ "$(grep -c 'not written' errors)" -eq 0 ]
    must "it is not there" [ -e goal ]
  done
  must "other words" grep -qxF "rovinuset: record: goal is written, its summary is not: No space left on device" errors
}
# Whoever reads a pipe may go away: that is no fault to be told, and not 1. What is written besides is whole.
reader_gone() {
  local words
  for words in "" --version "draw --help" "plain paper.pcl" "plain text.pcl" "report paper.pcl" "pages 640 800 paper.pcl" "archive -o lib.a" "archive -o -" \
    "park paper.pcl" "park 641 800 paper.pcl" "unpark parked.txt" "unpark paper.pcl" "record 640 800 clean.pcl -o -" "draw 640 800 paper.pcl -o goal" \
    "record 640 800 paper.pcl -o goal"; do
    rm -rf goal
    run "$words, into a pipe that nobody reads" "${careful[@]}" gone 1 "${command[@]}" $words
    must "status $status, not 2" [ "$status" -eq 2 ]
    must "says something" [ "$(grep -cv $'\t' errors)" -eq 0 ] # but for the lines of a program, which have tabs
  done
  for words in print "pages 640 800 paper.pcl" "plain paper.pcl" "park 641 800 paper.pcl" "unpark paper.pcl" \
    "record 640 800 paper.pcl -o -" "draw nowhere -o goal"; do
    run "$words, with errors that nobody reads" "${careful[@]}" gone 2 "${command[@]}" $words
    must "status $status, not 2" [ "$status" -eq 2 ]
  done
  said="plain text.pcl | head -c 1"
  status=$("${command[@]}" plain text.pcl 2>errors | { head -c 1 >printed; cat </dev/null; }; echo "${PIPESTATUS[0]}")
  must "status $status, not 2" [ "$status" -eq 2 ]
  must "says something" [ ! -s errors ]
}
# One file may be standard output, by `-` or by its name: nothing but the result is in it, and the words are on standard error.
into_output() {
  local goal
  call record 640 800 paper.pcl -o record.whole
  must "status $status, not 1" [ "$status" -eq 1 ]
  must "no words: $(cat printed)" grep -q '^2 pages, 1 finding, 9 dots' printed
  for goal in - /dev/stdout /dev/fd/1 /proc/self/fd/1 printed; do
    call record 640 800 paper.pcl -o $goal
    must "status $status, not 1" [ "$status" -eq 1 ]
    must "something else than the record" same printed record.whole
    must "no words on standard error" grep -q '^2 pages, 1 finding, 9 dots' errors
  done
  said="record -o /dev/stdout | cat"
  "${command[@]}" record 640 800 paper.pcl -o /dev/stdout 2>errors | cat >printed
  must "something else than the record" same printed record.whole
  call plain paper.pcl
  cp printed plain.whole
  cp errors words.whole
  for goal in - /dev/stdout printed; do
    call plain paper.pcl -o $goal
    must "status $status, not 1" [ "$status" -eq 1 ]
    must "another stream" same printed plain.whole
    must "other words" same errors words.whole
  done
  call plain -o stream paper.pcl
  must "status $status, not 1" [ "$status" -eq 1 ]
  must "prints" [ ! -s printed ]
  must "another stream" same stream plain.whole
  call park paper.pcl
  cp printed parked.whole
  for goal in - /dev/stdout printed; do
    call park paper.pcl -o $goal
    must "status $status, not 0" [ "$status" -eq 0 ]
    must "another text" same printed parked.whole
    must "says something" [ ! -s errors ]
  done
  for goal in - /dev/stdout; do
    call archive -o $goal
    must "status $status, not 0" [ "$status" -eq 0 ]
    must "not the library" same printed real/target/staticlib/libdoor.a
    must "does not name the header" grep -q '^header: ' errors
  done
  absent ./-
}

# A name of what is open, as /dev/fd/3: the result goes there, as it stands. Where standard error is closed there is no file of that name, whatever bash has
# there. Names by which no file can be had are refused before anything is done.
descriptors() {
  local goal word
  call plain paper.pcl
  cp printed stream.whole
  cp errors words.whole
  for goal in /dev/stderr /dev/fd/2 /proc/self/fd/2; do
    for word in "plain paper.pcl" "park paper.pcl" "record 640 800 paper.pcl" archive; do
      said="$word -o $goal 2>&-" status=0
      "${command[@]}" $word -o $goal >printed 2>&- || status=$?
      must "status $status, not 2" [ "$status" -eq 2 ]
      must "the command itself is another" same real/rovinuset "$root/rovinuset"
    done
    call plain paper.pcl -o $goal
    must "status $status, not 1" [ "$status" -eq 1 ]
    must "another stream" same errors stream.whole
    must "other words" same printed words.whole
  done
  { echo before; cat stream.whole; echo behind; } >wanted
  for word in there gone; do
    exec 3<>opened
    echo before >&3
    [ $word = there ] || rm opened
    call plain paper.pcl -o /dev/fd/3
    must "status $status, not 1" [ "$status" -eq 1 ]
    echo behind >&3
    cat /dev/fd/3 >printed
    must "another stream in a file that is $word" same printed wanted
    exec 3>&-
    rm -f opened
    must "another file: $(echo opened*)" [ -z "$(ls | grep '^opened')" ]
  done
  call plain paper.pcl -o /dev/stdin <&-
  refuses "rovinuset: no permission to write: /dev/stdin"
  cp paper.pcl given.pcl
  exec 3<>given.pcl
  call plain given.pcl -o /dev/fd/3
  refuses "rovinuset: the plain stream would be written over the job: /dev/fd/3"
  unchanged given.pcl paper.pcl
  exec 3<given.pcl
  call record 640 800 paper.pcl -o /dev/fd/3
  refuses "rovinuset: no permission to write: /dev/fd/3"
  exec 3>&-
  for word in ">" ">>"; do
    said="archive $word target/librovinuset.a" status=0
    (cd real && eval "./rovinuset archive $word target/librovinuset.a" 2>../errors) || status=$?
    must "status $status, not 0" [ "$status" -eq 0 ]
    must "not the library" same real/target/librovinuset.a real/target/staticlib/libdoor.a
    must "does not name the header" grep -q '^header: ' errors
  done
  run "help, into a file that may not grow" bash -c 'ulimit -f 0 && exec "$@" >grown' - "${command[@]}" help
  must "status $status, not 2" [ "$status" -eq 2 ]
  ln -s round round
  for goal in round "$(head -c 256 /dev/zero | tr '\0' x)"; do
    for word in "plain paper.pcl" "park paper.pcl" "record 640 800 paper.pcl" archive; do
      call $word -o "$goal"
      refuses "rovinuset: no file can be written: $goal: "
    done
  done
  must "the link is gone" [ -L round ]
}

# A checkout in which something of the tools is missing: that is no finding.
broken_checkout() {
  local name
  for name in png files rovinuset; do
    built broken
    rm -f broken/tools/$name.py
    run "draw, without tools/$name.py" broken/rovinuset draw 640 800 paper.pcl -o none
    must "status $status, not 2" [ "$status" -eq 2 ]
    must "says nothing" [ -s errors ]
    absent none
    rm -rf broken
  done
}

# ---- a checkout of somebody else's

# A user who may not write in the checkout: what is built there works. What is not says so in one line, and why.
unprivileged() {
  local user=() path=$room/kit/bin:/usr/local/bin:/usr/bin:/bin name here=$room/theirs
  built theirs
  mkdir own
  cp paper.pcl own
  chmod -R a-w theirs
  chmod 666 "$RT_LOG"
  if [ "$(id -u)" != 0 ]; then
    user=()
  elif setpriv --reuid=65534 --regid=65534 --clear-groups env PATH="$path" python3 -c pass 2>/dev/null; then
    chown -R 65534:65534 own
    user=(setpriv --reuid=65534 --regid=65534 --clear-groups)
  else
    echo "careful: another user has no python3 here: root without its rights is that user"
    user=(setpriv --bounding-set -dac_override,-dac_read_search)
  fi
  user+=(env -C own "PATH=$path")
  # theirs WORDS..: the command in that checkout, as that user, in a folder of the user's own.
  theirs() { run "as another user: $*" "${user[@]}" "$here/rovinuset" "$@"; }
  call draw 640 800 paper.pcl -o drawn.whole
  theirs draw 640 800 paper.pcl -o drawn
  ends 1 "2 pages, 1 finding, 9 dots: drawn"
  unchanged own/drawn drawn.whole
  call record 640 800 paper.pcl -o record.whole
  theirs record 640 800 paper.pcl -o record.html
  ends 1 "2 pages, 1 finding, 9 dots: record.html"
  must "another record" same own/record.html record.whole
  for name in plain "pages 640 800" report; do
    call $name paper.pcl
    mv printed printed.whole
    mv errors errors.whole
    theirs $name paper.pcl
    must "status $status, not 1" [ "$status" -eq 1 ]
    must "prints something else" same printed printed.whole
    must "says something else" same errors errors.whole
  done
  theirs park 8 100 paper.pcl -o parked.txt
  must "status $status, not 0" [ "$status" -eq 0 ]
  theirs unpark parked.txt
  ends 0 $'ROW\tFF'
  rm own/parked.txt
  theirs archive -o lib.a
  must "status $status, not 0" [ "$status" -eq 0 ]
  must "not the library" same own/lib.a theirs/target/staticlib/libdoor.a
  theirs archive
  one_line 2 "no permission to write"
  must "the header is not named, and yet: $(cat printed)" [ ! -s printed ]
  rm -rf own/drawn own/lib.a
  cp -a own own.whole
  : >"$RT_LOG"
  touch -d '1 hour' theirs/crates.txt
  refused_there "$here/target" # older than a source
  chmod -R u+w theirs
  rm -rf theirs/target
  chmod -R a-w theirs
  refused_there "$here" # not there
  user+=("PATH=$room/few")
  theirs draw paper.pcl -o drawn
  one_line 2 "the Rattle kit (rt) is not here: pages cannot be proved and built"
  theirs archive -o lib.a
  one_line 2 "the Rattle kit (rt) is not here"
  unchanged own own.whole
}
# refused_there FOLDER: no program can be built where nobody may write in FOLDER.
refused_there() {
  cp -a theirs theirs.whole
  theirs draw 640 800 paper.pcl -o drawn
  refuses "rovinuset: pages cannot be proved and built: no permission to write in: $1"
  theirs record 640 800 paper.pcl -o other.html
  refuses "rovinuset: pages cannot be proved and built: no permission to write in: $1"
  theirs plain paper.pcl
  refuses "cannot be proved and built: no permission to write in: $1"
  theirs pages paper.pcl
  refuses "rovinuset: pages cannot be proved and built: no permission to write in: $1"
  theirs report paper.pcl
  refuses "rovinuset: report cannot be proved and built: no permission to write in: $1"
  theirs park paper.pcl -o parked.txt
  refuses "rovinuset: park cannot be proved and built: no permission to write in: $1"
  theirs unpark paper.pcl
  refuses "rovinuset: unpark cannot be proved and built: no permission to write in: $1"
  theirs archive -o lib.a
  refuses "cannot be proved and built: no permission to write in: $1"
  unchanged own own.whole
  unchanged theirs theirs.whole
  must "rt was called: $(cat "$RT_LOG")" [ ! -s "$RT_LOG" ]
  chmod -R u+w theirs.whole
  rm -rf theirs.whole
}

# ---- two at once

# appears FILE: waits until it is there.
appears() {
  local n
  for ((n = 0; n < 1000; n++)); do
    [ ! -e "$1" ] || return 0
    sleep 0.01
  done
  return 1
}
# A draw that is in the middle of a page: a second one in its folder says so and changes nothing. Then the first goes on, and its drawing is whole.
two_draws() {
  local first name
  call draw 640 800 three.pcl -o three.whole
  call draw 640 800 paper.pcl -o folder
  cp -a folder earlier
  ln -s folder linked
  instead pages <<'TEXT'
"$PROGRAMS/pages" "$@" >"$STAGE.page" 2>"$STAGE.lines"
head -c 1000 "$STAGE.page"
: >"$STAGE"
read -r go <"$STAGE.go"
tail -c +1001 "$STAGE.page"
cat "$STAGE.lines" >&2
TEXT
  rm -f "$STAGE"
  mkfifo "$STAGE.go"
  faked/rovinuset draw 640 800 three.pcl -o folder >first.printed 2>first.errors &
  first=$!
  said="two draws at once"
  must "the first does not come so far" appears "$STAGE"
  for name in folder ./folder/ linked "$room/folder"; do
    run "a second draw in the folder, called $name" timeout 10 real/rovinuset draw 640 800 clean.pcl -o "$name"
    refuses "rovinuset: draw: another draw is writing in: $name"
    must "the folder is another" shown folder earlier
  done
  run "a second draw in a folder of its own" timeout 10 real/rovinuset draw 640 800 clean.pcl -o second
  ends 0 "1 page, 0 findings, 9 dots: second"
  run "a record in the folder" timeout 10 real/rovinuset record 640 800 clean.pcl -o folder/record.html
  ends 0 "1 page, 0 findings, 9 dots: folder/record.html"
  rm -f folder/record.html
  timeout 10 sh -c 'echo go >"$STAGE.go"' || :
  said="the first of two draws" status=0
  wait "$first" || status=$?
  must "status $status, not 0: $(cat first.errors)" [ "$status" -eq 0 ]
  must "says: $(tail -n 1 first.printed)" [ "$(tail -n 1 first.printed)" = "3 pages, 0 findings, 13 dots: folder" ]
  unchanged folder three.whole
  call draw 640 800 paper.pcl -o folder
  ends 1 "2 pages, 1 finding, 9 dots: folder"
  unchanged folder earlier
  unfaked
  rm -rf folder earlier linked
}
# begun NAME WORDS..: a draw that has begun and waits for its first page, or for being refused. $NAME is its process.
begun() {
  rm -f "$STAGE"
  faked/rovinuset draw "${@:2}" >"$1.printed" 2>"$1.errors" &
  printf -v "$1" %s $!
  said="draw ${*:2}" && must "does not come so far" appears "$STAGE"
}
# goes_on: so does the draw that waits.
goes_on() { timeout 10 sh -c 'echo go >"$STAGE.begin"' || :; }
# joined NAME: waits for its end. $status, `printed` and `errors` are its own.
joined() {
  said="the $1 of two draws" status=0
  wait "${!1}" || status=$?
  cp "$1.printed" printed
  cp "$1.errors" errors
}
# Two draws in a folder that is not there: nothing is seen of it before one of them is whole, and nothing is left by what is refused, stopped, or too late.
together() {
  local first second
  mkfifo "$STAGE.begin"
  instead pages <<'TEXT'
: >"$STAGE"
read -r go <"$STAGE.begin"
exec "$PROGRAMS/pages" "$@"
TEXT
  call draw 640 800 clean.pcl -o clean.whole
  call draw 640 800 three.pcl -o three.whole
  begun first 640 800 three.pcl -o beside/deep
  absent beside
  run "the second of two draws" timeout 10 real/rovinuset draw 641 800 clean.pcl -o beside/deep
  refuses "rovinuset: draw: refused, number 10: "
  absent beside
  run "the second of two draws" timeout 10 real/rovinuset draw 640 800 clean.pcl -o beside/deep
  ends 0 "1 page, 0 findings, 9 dots: beside/deep"
  unchanged beside/deep clean.whole
  goes_on
  joined first
  refuses "rovinuset: draw: another draw has written in: beside/deep"
  unchanged beside/deep clean.whole
  # A folder above it, or the folder itself, may come to be there.
  rm -rf beside
  begun first 640 800 three.pcl -o beside/deep
  run "the second of two draws" timeout 10 real/rovinuset draw 640 800 clean.pcl -o beside/other
  ends 0 "1 page, 0 findings, 9 dots: beside/other"
  goes_on
  joined first
  ends 0 "3 pages, 0 findings, 13 dots: beside/deep"
  unchanged beside/deep three.whole
  unchanged beside/other clean.whole
  must "something is left" [ "$(ls -A beside | wc -l)" -eq 2 ]
  rm -rf beside
  begun first 640 800 three.pcl -o beside/deep
  mkdir -p beside/deep
  echo mine >beside/deep/mine
  goes_on
  joined first
  ends 0 "3 pages, 0 findings, 13 dots: beside/deep"
  must "the user's file is gone" [ "$(cat beside/deep/mine)" = mine ]
  rm beside/deep/mine
  unchanged beside/deep three.whole
  # Two in one that is not there: whoever ends last, nothing stays if both are stopped.
  rm -rf beside
  begun first 640 800 three.pcl -o beside/one
  begun second 640 800 three.pcl -o beside/other/deep
  kill -TERM "$first"
  joined first
  refuses "rovinuset: draw: not written: stopped"
  kill -TERM "$second"
  joined second
  refuses "rovinuset: draw: not written: stopped"
  absent beside
  # Through what is not there, into an empty folder of the user's own.
  mkdir -m 2750 users
  run "draw that is refused, by another name" real/rovinuset draw 641 800 clean.pcl -o nowhere/../users
  refuses "rovinuset: draw: refused, number 10: "
  must "the user's folder is another" [ "$(stat -c %a users)" = 2750 ]
  absent nowhere
  unfaked
  rmdir users
  rm -r clean.whole three.whole
  must "something is left" [ "$(ls -A | grep -c '^\.rovinuset-')" -eq 0 ]
}
# Many real ones: whoever looks sees one job or the other. $STEP makes each move slow, so that there is time to look.
many_at_once() {
  local name
  for name in clean three; do
    call draw 640 800 $name.pcl -o $name.pcl.whole
    call record 640 800 $name.pcl -o $name.pcl.html
  done
  rm -f steps.log
  run "draws of two jobs at once" "${careful[@]}" draws at-once clean.pcl three.pcl env PATH="$room/hook:$PATH" \
    STEP="0 SLOW $room/steps.log" "${command[@]}" draw 640 800
  must "$(cat printed errors)" [ "$status" -eq 0 ]
  must "no move was slow, so this shows little" [ -s steps.log ]
  # A folder that is not there, and one that is refused.
  for name in 1 2 3 4 5; do
    rm -rf beside
    real/rovinuset draw 641 800 clean.pcl -o beside/deep >first.printed 2>first.errors &
    run "draw beside one that is refused" real/rovinuset draw 640 800 clean.pcl -o beside/deep
    wait $! || :
    ends 0 "1 page, 0 findings, 9 dots: beside/deep"
    unchanged beside/deep clean.pcl.whole
  done
  rm -rf beside
  for name in 1 2 3 4; do real/rovinuset draw 641 800 clean.pcl -o beside/$name >/dev/null 2>&1 & done
  wait
  said="four draws that are refused" && absent beside
  for name in clean three; do
    rm -rf $name.pcl.whole
    mv $name.pcl.html $name.pcl.whole
  done
  run "records of two jobs at once" "${careful[@]}" records at-once.html clean.pcl three.pcl env PATH="$room/hook:$PATH" \
    STEP="0 SLOW $room/steps.log" "${command[@]}" record 640 800
  must "$(cat printed errors)" [ "$status" -eq 0 ]
  must "something is left: $(echo .rovinuset-* at-once.html.*)" [ "$(ls -A | grep -c '^\.rovinuset-\|at-once.html.')" -eq 0 ]
  rm -rf clean.pcl.whole three.pcl.whole
}
# Two that have to build: one after the other, each program once, and both end well.
two_builds() {
  local first ended=0
  checkout fresh
  : >"$RT_LOG"
  call draw 640 800 three.pcl -o three.drawn
  call draw 640 800 clean.pcl -o clean.drawn
  PATH=$room/kit/bin:$PATH RT_DOES=slow fresh/rovinuset draw 640 800 three.pcl -o built-1 >first.printed 2>first.errors &
  first=$!
  PATH=$room/kit/bin:$PATH RT_DOES=slow run "two that have to build" fresh/rovinuset draw 640 800 clean.pcl -o built-2
  wait "$first" || ended=$?
  must "the first ends with $ended: $(cat first.errors)" [ "$ended" -eq 0 ]
  must "the second ends with $status" [ "$status" -eq 0 ]
  must "no rt was called, so this shows nothing" grep -q '^begin run pages$' "$RT_LOG"
  must "rt runs twice at a time: $(cat "$RT_LOG")" [ "$(awk '$1 == "begin" && within++ { print } $1 == "end" { within-- }' "$RT_LOG")" = "" ]
  must "something is proved twice: $(cat "$RT_LOG")" [ "$(grep begin "$RT_LOG" | sort | uniq -d)" = "" ]
  unchanged built-1 three.drawn
  unchanged built-2 clean.drawn
}

# ---- what is not the command's own

# Files in progress have names of their own: a user's files of whatever name stay, and links are not followed.
own_names() {
  local kind name
  for kind in file link; do
    mkdir names
    echo precious >names/precious
    for name in page-1.png.part findings.txt.part record.html.part; do
      case $kind in file) echo mine >names/$name ;; link) ln -s precious names/$name ;; esac
    done
    cp -a names names.whole
    call draw 640 800 clean.pcl -o names
    ends 0 "1 page, 0 findings, 9 dots: names"
    call record 640 800 clean.pcl -o names/record.html
    ends 0 "1 page, 0 findings, 9 dots: names/record.html"
    must "no drawing and no record" [ -s names/page-1.png -a -s names/findings.txt -a -s names/record.html ]
    rm -f names/page-1.png names/findings.txt names/record.html
    said="a user's own $kind, called as a part was"
    unchanged names names.whole
    rm -rf names names.whole
  done
  mkdir names
  echo precious >precious
  ln -s ../precious names/page-1.png
  ln -s ../precious names/findings.txt
  call draw 640 800 clean.pcl -o names
  ends 0 "1 page, 0 findings, 9 dots: names"
  must "what a link in the folder names is another" [ "$(cat precious)" = precious ]
  must "the links are not replaced" [ ! -L names/page-1.png -a ! -L names/findings.txt ]
}
# A job that lies where the drawing comes to stand is refused, by whatever name it is given, and stays.
own_job() {
  local name words
  for name in findings.txt page-1.png page-7.png; do
    mkdir own-job
    call draw 640 800 paper.pcl -o own-job
    cp clean.pcl own-job/$name
    rm -rf own-job.whole
    cp -a own-job own-job.whole
    call draw 640 800 own-job/$name -o own-job
    refuses "rovinuset: draw: the job lies where the drawing would be written: own-job/$name"
    unchanged own-job own-job.whole
    ln -sf own-job/$name outside
    call draw 640 800 outside -o ./own-job/
    refuses "the job lies where the drawing would be written: "
    unchanged own-job own-job.whole
    run "draw 640 800 -o own-job <own-job/$name" sh -c 'exec "$0" draw 640 800 -o own-job <"$1"' "${command[@]}" own-job/$name
    refuses "the job lies where the drawing would be written: "
    unchanged own-job own-job.whole
    rm -rf own-job
  done
  mkdir own-job
  cp clean.pcl own-job/page-1.pcl # this one is in no one's way
  call draw 640 800 own-job/page-1.pcl -o own-job
  ends 0 "1 page, 0 findings, 9 dots: own-job"
  must "the job is gone" same clean.pcl own-job/page-1.pcl
  for words in "plain -o" "park -o" "record -o"; do
    call ${words% *} own-job/page-1.pcl -o own-job/page-1.pcl
    refuses "would be written over the job: own-job/page-1.pcl"
    must "the job is another" same clean.pcl own-job/page-1.pcl
  done
}
# not_drawn TEXT WORDS..: a draw that is refused or fails, over an earlier drawing and into folders that are not there: nothing changes, nothing is made.
not_drawn() {
  local text=$1
  shift
  rm -rf earlier new
  cp -a earlier.whole earlier
  call draw "$@" -o earlier
  refuses "$text"
  unchanged earlier earlier.whole
  call draw "$@" -o new/deep/folder
  refuses "$text"
  absent new
}
# An earlier drawing stays until the new one is whole.
earlier_stays() {
  call draw 640 800 three.pcl -o earlier
  ends 0 "3 pages, 0 findings, 13 dots: earlier"
  cp -a earlier earlier.whole
  not_drawn "refused, number 10: " 641 800 clean.pcl
  not_drawn "refused, number 12: " long.pcl
  not_drawn "the job could not be read: Input/output error" /proc/self/mem
  not_drawn "the job could not be read: standard input is closed" <&-
  not_drawn "no such file: nowhere" nowhere
  not_drawn "a directory, not a job: ." .
  not_drawn "not a number of dots: 8OO" 640 8OO clean.pcl
  command=(bash -c 'ulimit -f 8 && exec "$@"' - "$room/real/rovinuset") # files of 8 KiB at most: the first page has room, the second has none
  not_drawn "not written: File too large" 640 800 large.pcl
  command=("$room/faked/rovinuset")
  instead pages <<'TEXT'
printf 'P4\n640 800\n..'
printf 'SIZE\t640\t800\nPAGE\t1\t0\nEND\t0\t0\t0\t0\n' >&2
TEXT
  not_drawn "not written: the program broke off: " 640 800 clean.pcl
  unfaked
  command=("$room/real/rovinuset")
  # Where a picture cannot be replaced, none is, and nothing is thrown away.
  local name
  for name in findings.txt page-1.png page-3.png; do
    rm -rf blocked
    cp -a earlier.whole blocked
    rm blocked/$name
    mkdir blocked/$name
    echo mine >blocked/$name/mine
    rm -rf blocked.whole
    cp -a blocked blocked.whole
    call draw 640 800 paper.pcl -o blocked
    if [ $name = page-3.png ]; then # paper.pcl has no third page: it may stay, and nothing of the user's is lost
      must "the user's file is gone" [ "$(cat blocked/$name/mine)" = mine ]
    else
      must "status $status, not 2" [ "$status" -eq 2 ]
      must "not one line on standard error" [ "$(wc -l <errors)" -eq 1 ]
      unchanged blocked blocked.whole
    fi
  done
}
# A umask that takes the owner's own rights: what was in progress can be removed all the same.
masked() {
  local other=() page
  [ "$(id -u)" != 0 ] || other=(setpriv --reuid=65534 --regid=65534 --clear-groups env PATH="/usr/local/bin:/usr/bin:/bin")
  mkdir masked
  chmod 777 masked
  chmod 644 paper.pcl
  for page in "641 800" "640 800"; do
    run "draw $page with a umask of 0777" "${other[@]}" bash -c 'umask 0777 && exec "$@"' - real/rovinuset draw $page paper.pcl -o masked/new/deep
    if [ "$page" = "641 800" ]; then
      refuses "rovinuset: draw: refused, number 10: "
      must "something is left" [ -z "$(ls -A masked)" ]
    else
      must "status $status, not 1" [ "$status" -eq 1 ]
    fi
  done
}
# In a folder as /tmp is, where only the owner of a file may replace it: the pictures are replaced all or not at all.
sticky() {
  [ "$(id -u)" = 0 ] || return 0
  call draw 640 800 three.pcl -o shared
  chown 65534 shared/findings.txt shared/page-1.png # and the others are root's
  chmod 1777 shared
  cp -a shared shared.whole
  chmod 644 paper.pcl
  run "as another user, where page-2.png is root's" setpriv --reuid=65534 --regid=65534 --clear-groups env PATH="/usr/local/bin:/usr/bin:/bin" \
    real/rovinuset draw 640 800 paper.pcl -o shared
  one_line 2 "rovinuset: draw: not written: Operation not permitted"
  unchanged shared shared.whole
}

# ---- being stopped

# stopping HOW WHILE WORD WORDS..: the call is stopped while it does that, by Ctrl-C and by SIGTERM or $signals. It says so, and nothing is changed or left.
# HOW is `stopped`, or `reading` and a pipe.
stopping() {
  local how=($1) while=$2 signal
  shift 2
  for signal in INT ${signals-TERM}; do
    rm -rf "$STAGE" "$STAGE.calls" new kept
    cp -a kept.whole kept
    run "$*, stopped by $signal while $while" "${careful[@]}" "${how[0]}" $signal ${how[1]+"${how[1]}"} faked/rovinuset "$@"
    must "status $status, not 2" [ "$status" -eq 2 ]
    must "does not say it" [ "$(tail -n 1 errors)" = "rovinuset: $1: not written: stopped" ]
    must "prints" [ ! -s printed ]
    unchanged kept kept.whole
    absent new
    must "leaves $(ls -A -I '[!.]*')" [ "$(ls -A -I '[!.]*')" = "" ]
  done
}
# waiting PROGRAM CALLS: the program is the proved one, but waits for ever when it is called for this time.
waiting() {
  instead "$1" <<TEXT
echo >>"\$STAGE.calls"
if [ "\$(wc -l <"\$STAGE.calls")" -eq $2 ]; then
  : >"\$STAGE"
  exec sleep 600
fi
exec "\$PROGRAMS/$1" "\$@"
TEXT
}
# At each stage: while the job is read, while pages and lines come, while another program runs. An earlier drawing and an earlier record stay.
stopped() {
  local folder time
  mkfifo pipe
  call draw 640 800 three.pcl -o kept
  call record 640 800 three.pcl -o kept/record.html
  call plain three.pcl -o kept/plain.pcl
  call park three.pcl -o kept/parked.txt
  cp real/target/staticlib/libdoor.a kept/lib.a
  cp -a kept kept.whole
  for folder in kept new/deep; do
    stopping "reading -" "the job is read" draw 640 800 -o $folder
    stopping "reading pipe" "the job is read from a FIFO" draw 640 800 pipe -o $folder
    instead pages <<'TEXT'
printf 'SIZE\t%d\t%d\n' "$1" "$2" >&2
printf 'P4\n%d %d\n..' "$1" "$2"
: >"$STAGE"
exec sleep 600
TEXT
    stopping stopped "a page comes" draw 640 800 clean.pcl -o $folder
    instead pages <<'TEXT'
"$PROGRAMS/pages" "$@" 2>"$STAGE.lines"
exec >&-
grep -v END "$STAGE.lines" >&2
: >"$STAGE"
exec sleep 600
TEXT
    signals="TERM HUP" stopping stopped "the last lines come" draw 640 800 paper.pcl -o $folder
    unfaked
    waiting plain 1
    stopping stopped "the program plain runs" draw 640 800 paper.pcl -o $folder
    unfaked
  done
  for time in 1 2 3; do # a record runs the job again for its pictures, and for its last page
    waiting pages $time
    stopping stopped "pages runs, for time $time" record 640 800 paper.pcl -o kept/record.html
  done
  stopping stopped "pages runs" record 640 800 paper.pcl -o new
  stopping "reading -" "the job is read" record 640 800 -o kept/record.html
  waiting pages 1
  stopping stopped "pages runs" plain paper.pcl -o kept/plain.pcl
  stopping stopped "pages runs" pages paper.pcl
  unfaked
  waiting plain 1
  stopping stopped "plain runs" plain paper.pcl -o new
  unfaked
  waiting report 1
  stopping stopped "report runs" report paper.pcl
  unfaked
  stopping "reading -" "the job is read" report
  waiting park 1
  stopping stopped "park runs" park paper.pcl -o kept/parked.txt
  stopping stopped "park runs" park paper.pcl -o new
  waiting unpark 1
  stopping stopped "unpark runs" unpark parked.txt
  unfaked
  stopping "reading pipe" "the job is read from a FIFO" park pipe -n 2 -o kept/parked.txt
  stopping "reading -" "the text is read" unpark
  # While programs and the library are proved, which rt does by children of its own.
  local PATH=$room/kit/bin:$PATH
  export RT_DOES=waits
  rm faked/target/bin/* faked/target/staticlib/*
  signals="TERM HUP" stopping stopped "pages is proved" draw 640 800 clean.pcl -o kept
  stopping stopped "pages is proved" draw 640 800 clean.pcl -o new/deep
  stopping stopped "pages is proved" record 640 800 clean.pcl -o kept/record.html
  stopping stopped "report is proved" report clean.pcl
  signals= stopping stopped "park is proved" park clean.pcl -o kept/parked.txt
  signals= stopping stopped "unpark is proved" unpark parked.txt
  stopping stopped "the library is proved" archive -o kept/lib.a
  stopping stopped "the library is proved" archive -o new
  {
    flock 9
    run "draw, Ctrl-C while it waits for another that proves" "${careful[@]}" after 1 INT faked/rovinuset draw 640 800 clean.pcl -o new/deep 9>&-
  } 9>faked/target/rovinuset.lock
  must "status $status, not 2" [ "$status" -eq 2 ]
  must "does not say it" [ "$(tail -n 1 errors)" = "rovinuset: draw: not written: stopped" ]
  must "does not wait" grep -q 'waiting for another command' errors
  absent new
  unset RT_DOES
  built faked
  # Ctrl-C as it is typed.
  waiting pages 1
  rm -f "$STAGE" "$STAGE.calls"
  run "Ctrl-C on a terminal" "${careful[@]}" keys faked/rovinuset draw 640 800 clean.pcl -o kept
  must "status $status, not 2: $(cat -v printed)" [ "$status" -eq 2 ]
  must "does not say it: $(cat -v printed)" grep -q 'rovinuset: draw: not written: stopped' printed
  unchanged kept kept.whole
  unfaked
}
# A signal that comes right before a call that waits, and so does not interrupt it, is heard all the same.
stopped_aside() {
  local word
  mkfifo endless
  exec 3<>endless
  for word in draw record plain park; do
    cat clean.pcl >&3
    PATH=$room/hook:$PATH STEP="0 ASIDE $room/steps.log" run "$word, SIGTERM right before it waits" timeout 20 "${command[@]}" $word 640 800 -o new <&3
    one_line 2 "rovinuset: $word: not written: stopped"
    absent new
  done
  exec 3>&-
}
# as_told: `work` is what the call says of it: as `behind`, written, or as `before`, not written.
as_told() {
  if [ "$status" -eq 1 ] || grep -q 'work.* is written, its summary is not: stopped$' errors; then
    must "the new one is not whole" same work behind
  else
    must "the earlier one is another" same work before
  fi
}
# At any moment, from the first on: the earlier drawing or the whole new one, and no word of Python's.
stopped_early() {
  local moment signals
  call draw 640 800 three.pcl -o before
  call draw 640 800 paper.pcl -o behind
  cp -a before work
  PATH=$room/hook:$PATH STEP="0 INT $room/steps.log" run "draw, Ctrl-C while Python starts" "${command[@]}" draw 640 800 paper.pcl -o work
  [ "$status" -eq 130 ] && [ ! -s errors ] || one_line 2 "rovinuset: draw: not written: stopped"
  must "the earlier one is another" same work before
  for signals in INT INT+TERM HUP+INT+TERM; do
    for moment in 0 0.01 0.02 0.03 0.04 0.05 0.06 0.07 0.08 0.09 0.1 0.12 0.14 0.16; do
      rm -rf work
      cp -a before work
      run "draw, $signals after $moment seconds" "${careful[@]}" after $moment $signals "${command[@]}" draw 640 800 paper.pcl -o work
      case $status in
      1) must "says: $(cat errors)" [ ! -s errors ] ;;
      129 | 130 | 143) must "says something" [ ! -s errors ] ;; # it had not begun
      *) one_line 2 "stopped" ;;
      esac
      as_told
    done
  done
}
# Where there is no memory for what a program says, it is not left waiting for a reader.
no_memory() {
  local word
  for ((word = 0; word < 8000; word++)); do printf '\33&f1S'; done >faults.pcl # its lines are longer than a pipe
  for word in "draw -o folder" "record -o file" "plain -o file" report; do
    PATH=$room/hook:$PATH STEP="0 MEMORY $room/steps.log" run "$word, no memory" timeout 20 "${command[@]}" $word 640 800 faults.pcl
    refuses "rovinuset: ${word%% *}: not written: not enough memory"
    absent folder file
  done
}
# limited LIMIT WORDS..: the call under this limit.
limited() {
  run "$*" timeout 20 bash -c 'ulimit $1 && shift && exec "$@"' - "$1" "${command[@]}" "${@:2}"
}
# Too little for Python to start, which ends with 1 itself: that is said.
limits() {
  local limit
  for limit in "-v 20000" "-v 60000" "-d 6000" "-d 60000"; do
    limited "$limit" draw 640 800 paper.pcl -o folder
    refuses "rovinuset: not enough memory: ulimit ${limit% *} is ${limit#* }"
  done
  limited "-n 12" draw 640 800 paper.pcl -o folder
  refuses "rovinuset: not enough open files: ulimit -n is 12"
  for limit in "-n "{4..40} "-v "{7000..12000..1000} "-d "{500..3000..500}; do # at the least of these nothing may start that could say it
    limited "$limit" draw 640 800 paper.pcl -o folder
    must "status 1, and nothing is drawn" [ "$status" -ne 1 -o -e folder/findings.txt ]
    rm -rf folder
  done
}
# unmixed FOLDER: if findings.txt is there, in it or below, all pictures are of its job.
unmixed() {
  [ -z "$(find "$1" -name '.rovinuset-*' -prune -o -name findings.txt -print)" ] || shown "$1" before || shown "$1" behind
}
# stepped ACTION WORDS..: the call with a signal, or a fault, at each single move or removal of a file; each time over `before`, in `work`. Then judged.
stepped() {
  local action=$1 step count
  shift
  rm -rf work
  : >steps.log
  cp -a before work
  PATH=$room/hook:$PATH STEP="0 NONE $room/steps.log" call "$@"
  count=$(wc -l <steps.log)
  must "no file is moved, so this shows nothing" [ "$count" -gt 0 ]
  must "not as without steps" same work behind
  for ((step = 1; step <= count; step++)); do
    rm -rf work
    : >steps.log
    cp -a before work
    PATH=$room/hook:$PATH STEP="$step $action $room/steps.log" call "$@" 2>/dev/null
    said="$*, $action before step $step: $(sed -n "${step}p" steps.log)"
    judged_$action "$@"
  done
}
# Stopped: either it is as before, and says so by its status, or it is done.
judged_TERM() {
  must "status $status, neither 1 nor 2" [ "$status" -eq 1 -o "$status" -eq 2 ]
  as_told
}
# Killed: nothing can be tidied up, but there is no mixture, and the next call works.
judged_KILL() {
  must "a mixture" unmixed work
  call "$@"
  must "status $status, not 1, at the next call" [ "$status" -eq 1 ]
  must "the next one is not whole" shown work behind
}
# A move that fails: the same as being stopped, but what cannot be removed may be left.
judged_FAIL() {
  if [ "$status" -eq 2 ]; then
    must "the earlier one is another" shown work before
    must "not one line" [ "$(wc -l <errors)" -eq 1 ]
  else
    must "status $status" [ "$status" -eq 1 ]
    must "the new one is not whole" shown work behind
  fi
}
# Between any two moves of files.
at_each_step() {
  local action
  rm -rf before behind
  call draw 640 800 paper.pcl -o before
  call draw 640 800 short.pcl -o behind
  for action in TERM KILL FAIL; do stepped $action draw 640 800 short.pcl -o work; done
  rm -rf before behind
  mkdir before # the same where the folder, and one above it, are not there
  call draw 640 800 short.pcl -o behind/new/deep
  for action in TERM KILL FAIL; do stepped $action draw 640 800 short.pcl -o work/new/deep; done
  rm -rf before behind
  mkdir before behind
  call record 640 800 three.pcl -o before/file
  call record 640 800 paper.pcl -o behind/file
  for action in TERM KILL FAIL; do stepped $action record 640 800 paper.pcl -o work/file; done
  call plain three.pcl -o before/file
  call plain paper.pcl -o behind/file
  stepped TERM plain paper.pcl -o work/file
}

# ---- words and names

# Whatever is asked wrongly is answered by one line that says what; help and version are there for each word.
words() {
  local word more
  for word in draw record plain pages report park; do
    case $word in draw | record) more="-o none" ;; *) more="" ;; esac
    call $word clean.pcl three.pcl $more
    refuses "rovinuset: $word takes one job, and here are two: clean.pcl, three.pcl"
    call $word clean.pcl three.pcl paper.pcl short.pcl $more
    refuses "rovinuset: $word takes one job, and here are 4: clean.pcl, three.pcl, paper.pcl, short.pcl"
    call $word -x $more
    refuses "rovinuset: no such option: -x (a file of that name is ./-x)"
    call $word -640 800 clean.pcl $more
    refuses "not a number of dots: -640"
  done
  call unpark clean.pcl three.pcl paper.pcl short.pcl
  refuses "rovinuset: unpark takes one text, and here are 4: clean.pcl, three.pcl, paper.pcl, short.pcl"
  for word in unpark archive; do
    call $word -x
    refuses "rovinuset: no such option: -x"
  done
  call print
  refuses "rovinuset: no such word: print"
  must "does not say where help is" grep -q './rovinuset help' errors
  call $'pr\nint\xff'
  refuses $'rovinuset: no such word: pr\\x0aint\xff'
  call -x
  refuses "rovinuset: no such "
  absent none
  call --version
  ends 0 "Rovinuset $(cat "$root/VERSION")"
  must "more than a line" [ "$(wc -l <printed)" -eq 1 ]
  call help
  must "status $status, not 0" [ "$status" -eq 0 ]
  mv printed all.help
  for word in draw record plain pages report park unpark archive bench; do
    must "the help does not name $word" grep -q "rovinuset $word" all.help
    call $word --help
    must "status $status, not 0" [ "$status" -eq 0 ]
    must "says on standard error" [ ! -s errors ]
    must "not the help of $word" grep -q "rovinuset $word" printed
    [ $word = bench ] || must "more than the help of $word" [ "$(grep -c 'rovinuset bench' printed)" -eq 0 ]
    mv printed "$word.help"
    call $word -h
    must "another help for -h" same printed "$word.help"
  done
  must "two words have one help" [ "$(sha256sum ./*.help | sort | uniq -w 64 | wc -l)" -eq 10 ]
  # A refusal is told in words by each.
  call report long.pcl
  must "status $status, not 2" [ "$status" -eq 2 ]
  must "other lines: $(cat printed)" [ "$(cat printed)" = $'SIZE\t640\t800\nREFUSED\t12' ]
  must "no words" grep -q '^rovinuset: report: refused, number 12: ' errors
  call pages 641 800 clean.pcl
  must "status $status, not 2" [ "$status" -eq 2 ]
  must "no words" grep -q '^rovinuset: pages: refused, number 10: ' errors
  call park 641 800 clean.pcl
  must "other lines: $(cat printed)" [ "$status $(cat printed)" = $'2 REFUSED\t10' ]
  must "no words" grep -q '^rovinuset: park: refused, number 10: ' errors
  call unpark clean.pcl
  must "other lines: $(cat printed)" [ "$status $(cat printed)" = $'2 REFUSED\t17' ]
  must "no words" grep -q '^rovinuset: unpark: refused, number 17: ' errors
  for word in plain "record -o refused.html" "draw -o none"; do
    call $word 641 800 clean.pcl
    refuses "rovinuset: ${word%% *}: refused, number 10: page measure not allowed"
  done
}
# named NAME SPELT: a job, a folder and a file of this name, as they are told. Each message is one line, whatever is in the name.
named() {
  local name=$1 spelt=$2
  rm -rf names
  mkdir names
  cp clean.pcl "names/$name"
  call draw 640 800 "names/$name" -o "names/of $name"
  ends 0 "1 page, 0 findings, 9 dots: names/of $spelt"
  must "not as many lines" [ "$(wc -l <printed)" -eq 1 ]
  must "the job is not told in one line: $(head -n 3 "names/of $name/findings.txt" | cat -v)" \
    [ "$(sed -n '1s/^Job: .*/1/p; 2s/^Bytes: .*/2/p' "names/of $name/findings.txt" | tr -d '\n')" = 12 ]
  call record 640 800 "names/$name" -o "names/$name.html"
  ends 0 "1 page, 0 findings, 9 dots: names/$spelt.html"
  must "the record is no UTF-8" iconv -f utf-8 -t utf-8 -o /dev/null "names/$name.html"
  call plain "names/$name" -o "names/$name.plain"
  must "status $status, not 0" [ "$status" -eq 0 ]
  must "another stream" same clean.pcl "names/$name.plain"
  call report "names/$name"
  must "status $status, not 0" [ "$status" -eq 0 ]
  call pages "names/$name"
  must "status $status, not 0" [ "$status" -eq 0 ]
  call park 8 100 "names/$name" -n 0 -o "names/$name.txt"
  must "status $status, not 0" [ "$status" -eq 0 ]
  call unpark "names/$name.txt"
  ends 0 $'ROW\t00'
  call unpark "names/not $name"
  refuses "no such file: names/not $spelt"
  call park -n "$name" clean.pcl
  refuses "rovinuset: not a number of items: $spelt"
  call draw "names/not $name" -o none
  refuses "no such file: names/not $spelt"
  call report "names/not $name"
  refuses "no such file: names/not $spelt"
  call draw clean.pcl -o "names/$name"
  refuses "not a folder: names/$spelt"
  call record clean.pcl -o "names/not $name/file"
  refuses "no such folder: names/not $spelt"
  call draw clean.pcl "names/$name" -o none
  refuses "rovinuset: draw takes one job, and here are two: clean.pcl, names/$spelt"
  call draw 640 "$name" clean.pcl -o none
  refuses "not a number of dots: $spelt"
  must "something else was made: $(ls -A names | cat -v | tr '\n' ' ')" [ "$(find names -mindepth 1 -maxdepth 1 -printf x)" = xxxxx ]
  absent none
}
names() {
  local locale
  named "a job.pcl" "a job.pcl"
  for locale in C C.UTF-8; do
    command=(env LC_ALL=$locale "$room/real/rovinuset")
    named $'\xff n\xc3\xa9w\nl\xe9ne\t\e[31m.pcl' $'\xff n\xc3\xa9w\\x0al\xe9ne\\x09\\x1b[31m.pcl'
  done
  # The checkout, too, may be called anything.
  mkdir $'any \xff\nname'
  cp -a real $'any \xff\nname/here'
  command=("$room"/$'any \xff\nname/here/rovinuset')
  call draw 640 800 clean.pcl -o anywhere
  ends 0 "1 page, 0 findings, 9 dots: anywhere"
  call archive -o lib.a
  must "status $status, not 0" [ "$status" -eq 0 ]
  must "more than a line for each" [ "$(wc -l <printed)" -eq 3 ]
  command=("$room/real/rovinuset")
  # Names that begin with a dash.
  cp clean.pcl ./-dash.pcl
  call draw 640 800 -dash.pcl -o dash
  refuses "rovinuset: no such option: -dash.pcl (a file of that name is ./-dash.pcl)"
  absent dash
  call draw 640 800 ./-dash.pcl -o ./-dash
  ends 0 "1 page, 0 findings, 9 dots: ./-dash"
  call draw -o dash -- 640 800 -dash.pcl
  ends 0 "1 page, 0 findings, 9 dots: dash"
  call draw 640 800 -o dash -- -dash.pcl
  ends 0 "1 page, 0 findings, 9 dots: dash"
  call record 640 800 -o ./-dash.html -- -dash.pcl
  ends 0 "1 page, 0 findings, 9 dots: ./-dash.html"
  call draw -o dash -- --help
  refuses "no such file: --help"
  call plain -- -dash.pcl
  ends 0 "$(tail -n 1 clean.pcl)"
  call report -- -dash.pcl
  ends 0 $'END\t0\t4524\t0\t0'
  must "something else was made: $(ls -d ./-*)" [ "$(ls -d ./-* | tr '\n' ' ')" = "./-dash ./-dash.html ./-dash.pcl " ]
  rm -rf ./-*
}

# ---- kinds of files

# FIFOs are read and written as they are; whatever is in the way of a folder or a file says so.
kinds() {
  local reader
  mkfifo fifo
  call draw 640 800 clean.pcl -o clean.drawn-again
  call record 640 800 clean.pcl -o clean.html
  cp clean.pcl queue
  rm queue
  mkfifo queue
  cat clean.pcl >queue &
  run "draw of a FIFO" timeout 10 "${command[@]}" draw 640 800 queue -o from-fifo
  ends 0 "1 page, 0 findings, 9 dots: from-fifo"
  must "another picture" same from-fifo/page-1.png clean.drawn-again/page-1.png
  cat clean.pcl >queue &
  run "plain of a FIFO" timeout 10 "${command[@]}" plain queue
  must "status $status, not 0" [ "$status" -eq 0 ]
  must "another stream" same printed clean.pcl
  timeout 10 cat fifo >got &
  reader=$!
  run "record into a FIFO" timeout 10 "${command[@]}" record 640 800 clean.pcl -o fifo
  ends 0 "1 page, 0 findings, 9 dots: fifo"
  wait "$reader" || :
  must "the reader got something else" same got clean.html
  timeout 10 cat fifo >got &
  reader=$!
  run "plain into a FIFO" timeout 10 "${command[@]}" plain text.pcl -o fifo
  must "status $status, not 0" [ "$status" -eq 0 ]
  wait "$reader" || :
  must "the reader got something else" same got text.pcl
  cat parked.txt >queue &
  run "unpark of a FIFO" timeout 10 "${command[@]}" unpark queue
  ends 0 $'ROW\t00'
  timeout 10 cat fifo >got &
  reader=$!
  run "park into a FIFO" timeout 10 "${command[@]}" park 8 100 text.pcl -n 0 -o fifo
  must "status $status, not 0" [ "$status" -eq 0 ]
  wait "$reader" || :
  must "the reader got something else" [ "$(head -c 12 got)" = $'JOB\t8\t100\t0\t' ]
  timeout 10 cat fifo >got &
  reader=$!
  run "archive into a FIFO" timeout 10 "${command[@]}" archive -o fifo
  must "status $status, not 0" [ "$status" -eq 0 ]
  wait "$reader" || :
  must "the reader got something else" same got real/target/staticlib/libdoor.a
  timeout 10 head -c 1 fifo >got &
  run "plain into a FIFO whose reader goes away" timeout 10 "${command[@]}" plain text.pcl -o fifo
  must "status $status, not 2" [ "$status" -eq 2 ]
  must "says something" [ ! -s errors ]
  must "the FIFO is none any more" [ -p fifo ]
  run "draw into a FIFO" timeout 10 "${command[@]}" draw 640 800 clean.pcl -o fifo
  refuses "not a folder: fifo"
  must "the FIFO is none any more" [ -p fifo ]
  ln -s nowhere dangling
  call draw 640 800 clean.pcl -o dangling
  must "status $status, not 2" [ "$status" -eq 2 ]
  must "the link is gone, or leads somewhere" [ -L dangling -a ! -e dangling -a ! -e nowhere ]
  run "draw of a job without end" timeout 10 "${command[@]}" draw 640 800 /dev/zero -o none
  refuses "rovinuset: draw: refused, number 12: "
  absent none
  # Whole or not at all: files of 8 KiB at most, and devices.
  mkdir limit
  cp clean.html limit/record.html
  cp clean.pcl limit/plain.pcl
  echo library >limit/lib.a
  cp -a limit limit.whole
  local word
  for word in "record large.pcl -o limit/record.html" "plain text.pcl -o limit/plain.pcl" "archive -o limit/lib.a" "record large.pcl -o limit/new" \
    "plain text.pcl -o limit/new" "archive -o limit/new"; do
    run "$word, files of 8 KiB at most" bash -c 'ulimit -f 8 && exec "$@"' - "${command[@]}" $word
    refuses "not written: File too large"
    unchanged limit limit.whole
  done
  for word in limit/plain.pcl limit/new; do # a parked text is shorter than that
    run "park -o $word, files of 1 KiB at most" bash -c 'ulimit -f 1 && exec "$@"' - "${command[@]}" park 4800 6800 clean.pcl -o $word
    refuses "not written: File too large"
    unchanged limit limit.whole
  done
  for word in "record clean.pcl" "plain clean.pcl" "park clean.pcl" archive; do
    call $word -o /dev/full
    refuses "not written: No space left on device"
    call $word -o limit
    refuses "limit"
    call $word -o nowhere/file
    refuses "no such folder: nowhere"
    call $word -o ""
    must "status $status, not 2" [ "$status" -eq 2 ]
  done
  must "/dev/full is another" [ -c /dev/full ]
  # A link is followed, and stays; what it names is replaced.
  ln -s limit/plain.pcl link.pcl
  call plain three.pcl -o link.pcl
  must "status $status, not 0" [ "$status" -eq 0 ]
  must "the link is gone" [ -L link.pcl ]
  "${command[@]}" plain three.pcl >got
  must "another stream behind the link" same got limit/plain.pcl
}
# Folders and files that may not be written.
read_only() {
  local word
  call draw 640 800 three.pcl -o shut
  echo mine >shut/file
  echo mine >shut/open
  cp -a shut shut.whole
  chmod 400 shut/file
  chmod 500 shut
  local command=("${command[@]}")
  bound
  call draw 640 800 clean.pcl -o shut
  refuses "rovinuset: no permission to write in: shut"
  call draw 640 800 clean.pcl -o shut/new
  refuses "the folder cannot be made: shut/new"
  for word in "record clean.pcl" "plain clean.pcl" "park clean.pcl" archive; do
    call $word -o shut/file
    refuses "no permission to write"
    call $word -o shut/new
    must "status $status, not 2" [ "$status" -eq 2 ]
    must "not one line on standard error" [ "$(wc -l <errors)" -eq 1 ]
    unchanged shut shut.whole
  done
  chmod 700 shut
  for word in "record clean.pcl" "plain clean.pcl" "park clean.pcl" archive; do # the folder may be written, the file may not
    call $word -o shut/file
    refuses "no permission to write: shut/file"
    unchanged shut shut.whole
  done
}

# ---- proving and building

# Without the kit: that is said first, in one line, before a job is read or looked for.
without_kit() {
  local word path=$room/few
  checkout bare
  for word in "draw -o none" "record -o none" plain pages report park unpark archive "archive -o none" "draw nowhere -o none" bench; do
    PATH=$path run "$word, without rt" "${careful[@]}" unread bare/rovinuset $word
    refuses "rovinuset: the Rattle kit (rt) is not here: "
    absent none bare/target
  done
  PATH=$path run "the help, without rt" bare/rovinuset
  must "status $status, not 0" [ "$status" -eq 0 ]
  rm few/python3
  PATH=$path run "draw, without python3 and no way to install it" real/rovinuset draw clean.pcl -o none
  must "status $status, not 2" [ "$status" -eq 2 ]
  must "does not say it" grep -q '^rovinuset: .*python3' errors
  absent none
  cp "$root/test" bare
  PATH=$path run "./test, without rt" bare/test
  must "status 0" [ "$status" -ne 0 ]
  cat printed errors >both
  must "says first: $(head -n 1 both)" grep -q 'the Rattle kit (rt) is not here' <(head -n 1 both)
}
# What rt proves is counted on a terminal. Where it proves nothing, the log has why, and nothing is made.
building() {
  local PATH=$room/kit/bin:$PATH
  checkout slow
  RT_DOES=held run "draw on a terminal, the first time" "${careful[@]}" shown '1 of [0-9]+ proved' slow/rovinuset draw 640 800 clean.pcl -o first-time
  must "status $status, not 0: $(cat -v printed)" [ "$status" -eq 0 ]
  must "does not count what is proved: $(cat -v printed)" grep -q '[^0-9]1 of [1-9][0-9]* proved' printed
  must "says in the end: $(tail -n 1 printed)" [ "$(tail -n 1 printed | tr -d '\r' | sed 's/.* \(1 page,\)/\1/')" = "1 page, 0 findings, 9 dots: first-time" ]
  rm -rf slow/target first-time
  RT_DOES="" run "draw in no terminal, the first time" slow/rovinuset draw 640 800 clean.pcl -o first-time
  must "status $status, not 0" [ "$status" -eq 0 ]
  must "counts for nobody" [ "$(grep -c ' of [0-9]* proved' errors)" -eq 0 ]
  rm -rf slow/target
  RT_DOES=fails run "draw, where the proof fails" slow/rovinuset draw 640 800 clean.pcl -o none
  must "status $status, not 2" [ "$status" -eq 2 ]
  must "does not say where it is told" grep -q '^rovinuset: pages was not built: .*target/rovinuset.log says why$' errors
  must "the log does not tell it" grep -qx 'logic=not-proved functions=1' slow/target/rovinuset.log
  absent none slow/target/bin/pages
  RT_DOES=fails run "archive, where the proof fails" slow/rovinuset archive -o none
  must "status $status, not 2" [ "$status" -eq 2 ]
  must "does not say where it is told" grep -q '^rovinuset: .*door was not built: .*target/rovinuset.log says why$' errors
  must "the log does not tell it" grep -qx 'logic=not-proved functions=1' slow/target/rovinuset.log
  absent none
}

# tried LANE PARTS..: these parts, in a room of their own. How many checks that were, and how many failed, is in LANE.counts.
tried() (
  room=$rooms/$1
  lane=$1
  shift
  prepare
  for part; do "$part"; done
  echo "$checks $failed" >"$rooms/$lane.counts"
)
# add LANE: its counts; a lane that has none broke off.
add() {
  local more=1 wrong=1
  if [ -e "$rooms/$1.counts" ]; then read -r more wrong <"$rooms/$1.counts"; else echo "careful: broke off"; fi
  checks=$((checks + more)) failed=$((failed + wrong))
}

one=(closed_and_full reader_gone into_output descriptors broken_checkout unprivileged two_draws together many_at_once two_builds own_names own_job earlier_stays masked sticky)
other=(stopped stopped_aside stopped_early no_memory limits at_each_step words names kinds read_only building without_kit)
if [ $# -gt 0 ]; then one=("$@") other=(); fi
tried one "${one[@]}" & # both halves beside each other
tried other "${other[@]}" >"$rooms/other.said" 2>&1 &
wait
cat "$rooms/other.said"
add one
add other
counted careful
