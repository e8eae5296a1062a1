#!/usr/bin/env bash
# The proved steps of the program `pages` against the second program: steps.sh [COUNT [SEED [plain]]] takes COUNT steps by both, refused ones
# among them, and compares what they give. tests/stepcases.c tells what is tried on each case besides. Counts each outcome that was met.
# Exit status 1 on any difference, or if with 5000 cases and more one was never met. The word plain puts a step by the plain C reader of
# bench/ in the place of the proved archive.
set -eu
cd "$(dirname "$0")/.."
. tests/compare.sh
begin steps stepcases leaf_step "$@"
chunks S
end
