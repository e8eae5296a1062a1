#!/usr/bin/env bash
# The proved report program against the second program: reports.sh [COUNT [SEED]] gives both the streams of tests/reports.py, COUNT of
# them generated. Exit status 1 on any difference.
set -eu
cd "$(dirname "$0")/.."
. tests/program.sh
compared report tests/reports.py "${1:-500}" "${2:-1}"
