#!/usr/bin/env bash
# The proved program `pages` against the second program, dot for dot and line for line: pages.sh [COUNT [SEED]] gives both the streams of
# tests/pages.py, COUNT of them generated. Exit status 1 on any difference.
set -eu
cd "$(dirname "$0")/.."
. tests/program.sh
compared pages tests/pages.py "${1:-200}" "${2:-1}"
