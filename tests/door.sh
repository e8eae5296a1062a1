#!/usr/bin/env bash
# The proved door against the second program: door.sh [COUNT [SEED [plain]]] runs COUNT cases of runs through both and compares what
# they say. Counts each finding and each refusal that was met. Exit status 1 on any difference, or if with 5000 cases and more one of
# them was never met. The word plain puts the plain C reader of bench/ in the place of the proved archive.
set -eu
cd "$(dirname "$0")/.."
. tests/compare.sh
begin door doorcases door "$@"
chunks R
end
