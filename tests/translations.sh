#!/usr/bin/env bash
# The proved translator against the second program: translations.sh [COUNT [SEED [plain]]] translates every stream of tests/vectors, then
# COUNT cases, by both, and compares what they say. tests/transcases.c tells what is tried on each case besides. Counts each outcome
# that was met. Exit status 1 on any difference, or if with 5000 cases and more one was never met. The word plain puts the plain C
# translator of bench/ in the place of the proved archive.
set -eu
cd "$(dirname "$0")/.."
. tests/compare.sh
begin translations transcases door "$@"
chunk vectors
chunks T
end
