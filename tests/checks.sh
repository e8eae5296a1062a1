# Checks of the one command, as a user gives it. To be sourced at the project's root. A line for each failed check.
export LC_ALL=C
. tests/need.sh
. tests/x86.sh
need python3 python3
project=$PWD
command=("$project/rovinuset")
checks=0 failed=0 said=""
# python3 may be a wrapper that looks for the right one at each call: here it is looked for once.
! python=$(python3 -c 'import os, sys; print(os.path.dirname(sys.executable))' 2>/dev/null) || PATH=$python:$PATH
# What is said of the page where no page is given.
default="page 2552 by 3304 dots, the default: a paper (a4, letter, legal, a5) or W H chooses another"

# papers: the papers by name, with their dots.
papers() { printf '%s\n' "a4 2480 3508" "letter 2552 3300" "legal 2552 4200" "a5 1752 2480"; }
# right TEXT COMMAND..: the command must succeed; TEXT says what is wrong if it does not.
right() {
  local text=$1
  shift
  checks=$((checks + 1))
  "$@" || {
    failed=$((failed + 1))
    echo "$said: $text"
  }
}
# call WORDS..: the command with these words, standard input as it is. Gives $status and the files `printed` and `errors`.
call() {
  said="$*" status=0
  "${command[@]}" "$@" >printed 2>errors || status=$?
}
# unwritten WORDS..: the same with an output that is full.
unwritten() {
  said="$* >/dev/full" status=0
  "${command[@]}" "$@" >/dev/full 2>errors || status=$?
  : >printed
}
# closed WORDS..: the same with an output that is closed.
closed() {
  said="$* >&-" status=0
  "${command[@]}" "$@" 2>errors >&- || status=$?
  : >printed
}
# bound: from here on the command is run without root's right to go past the permissions of files.
bound() {
  [ "$(id -u)" != 0 ] || command=(setpriv --bounding-set -dac_override,-dac_read_search "${command[@]}")
}
# ends STATUS LAST-LINE: with nothing on standard error.
ends() {
  right "status $status, not $1" [ "$status" -eq "$1" ]
  right "says: $(tail -n 1 printed)" [ "$(tail -n 1 printed)" = "$2" ]
  right "says on standard error: $(cat errors)" [ ! -s errors ]
}
# tells STATUS LINES..: the lines of standard output are just these, with nothing on standard error.
tells() {
  local wanted=$1
  shift
  right "status $status, not $wanted" [ "$status" -eq "$wanted" ]
  right "says: $(cat printed)" cmp -s printed <(printf '%s\n' "$@")
  right "says on standard error: $(cat errors)" [ ! -s errors ]
}
# in_words TEXT: one line on standard error, the command's own, with this text.
in_words() {
  right "does not say: $1, but: $(cat errors)" grep -qF -- "$1" errors
  right "not one line of its own on standard error: $(cat errors)" [ "$(wc -l <errors) $(grep -c '^rovinuset: ' errors)" = "1 1" ]
}
# refuses TEXT: status 2, one line on standard error with this text, nothing on standard output.
refuses() {
  right "status $status, not 2" [ "$status" -eq 2 ]
  in_words "$1"
  right "prints" [ ! -s printed ]
}
# stub FOLDER: a checkout with the command and nothing proved: whatever `fake` puts there stands for the programs. They take the job and give nothing.
stub() {
  mkdir -p "$1/crates" "$1/tests" "$1/target/bin"
  cp -rp "$project/rovinuset" "$project/tools" "$project/VERSION" "$project/crates.txt" "$1"
  cp -p "$project/tests/need.sh" "$project/tests/x86.sh" "$1/tests"
  local name
  for name in pages plain report park unpark; do fake "$1" "$name" 'exec cat >/dev/null'; done
}
# fake FOLDER NAME LINES..: in the stub there, the program NAME is a shell script of these lines.
fake() {
  printf '%s\n' '#!/bin/sh' "${@:3}" >"$1/target/bin/$2"
  chmod +x "$1/target/bin/$2"
}
# counted NAME: the last line, and the exit status.
counted() {
  echo "$1: $checks checks, $failed failed"
  [ "$failed" -eq 0 ]
}
