#!/usr/bin/env bash
# Archives for C, one after the other: archives.sh CRATE.. proves and makes target/staticlib/libCRATE.a where it is missing or older than a source.
set -eu
cd "$(dirname "$0")/.."
export LC_ALL=C
. tests/need.sh
. tests/x86.sh
for crate in "$@"; do
  archive "$crate"
  echo "archives: target/staticlib/lib$crate.a"
done
