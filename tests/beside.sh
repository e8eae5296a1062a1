#!/usr/bin/env bash
# The wrong programs that the gate does not try: beside.sh [CRATE..] tries those of tests/edits/beside, all or of these crates, by rt itself, in a copy of the project
# in which they are the only ones. rt begins with what its checks on this machine kept. Exit status as rt's: 1 where one is not refused.
set -eu
cd "$(dirname "$0")/.."
export LC_ALL=C
[ $# -gt 0 ] || set -- $(ls tests/edits/beside)
room=$(mktemp -d)
trap 'rm -rf "$room"' EXIT
tar -cf - --exclude='crates/*/must-fail' --exclude='crates/*/out' crates crates.txt | tar -xf - -C "$room"
for crate in "$@"; do
  cp -a "tests/edits/beside/$crate" "$room/crates/$crate/must-fail"
done
cd "$room"
rt must-fail "$@"
