#!/usr/bin/env bash
# The proved parking against the second program: parkings.sh [COUNT [SEED [plain]]] has COUNT states written as texts and COUNT texts read, by both, and
# compares what they say. tests/parkings.c tells what is tried on each case besides. Counts each outcome that was met. Exit status 1 on any
# difference, or if with 5000 cases and more one was never met. The word plain puts the plain C of bench/ in the place of the proved archive.
set -eu
cd "$(dirname "$0")/.."
. tests/compare.sh
begin parkings parkings door "$@"
chunks K
chunks U
end
