#!/usr/bin/env bash
# Jobs parked after each of their items and gone on with, through the library for C: resumed.sh [STREAMS [SEED [plain]]] runs ten real streams, on
# the page of tests/vectors/corpus, and STREAMS random ones (200 if not given), in one go and with all lost after each item but the parked text, the
# place and the page: pages, findings and end must be the same. Every item up to 5,000 of a stream, then every 97th and each behind which a run
# stops: tests/resumed.c tells more. Counts the streams, the items, the parkings, and how often one was refused by 16. Exit status 1 on any
# difference, or if 16 was never met. The word plain puts the plain C of bench/ in the place of the proved archive.
set -eu
cd "$(dirname "$0")/.."
. tests/compare.sh
begin resumed resumed door "${1:-200}" "${@:2}"
need xz xz-utils

# Rows by each method and at each resolution, white skipped, text, rectangles, units and plots that are not carried, up to three pages; barcode-table,
# gnuplot-hp500c and groff have hundreds of findings, gnuplot-pcl5 has more than 5,000 items.
real=(barcode-table.pcl gm-letter-300.pcl gnuplot-hp500c-75-m2.pcl gnuplot-pcl5.pcl groff-lj4-letter.pcl hp2xx-300-pcl3gui.pcl.xz im-curve-100-zip.pcl
  netpbm-pbmtolj-curve-150-delta.pcl netpbm-pbmtolj-letter-300-compress.pcl netpbm-pbmtolj-three-150.pcl.xz)
# unpacked NAME: the stream's bytes.
unpacked() {
  case $1 in *.xz) xz -dc "tests/vectors/corpus/$1" ;; *) cat "tests/vectors/corpus/$1" ;; esac
}
for file in "${real[@]}"; do
  printf 'T 2552 3304 0 00 %s\n' "$(unpacked "$file" | od -An -v -tx1 | tr -d ' \n')"
done >"$room/cases"
# More than are wanted: those with a measure that is not allowed, and those of no bytes or too many, are left out.
python3 tests/runcases.py T $((count * 2 + 20)) "$seed" >>"$room/cases"

status=0
x86_run "$room/driver" "$room/cases" $((count + ${#real[@]})) >"$room/said" || status=1
! grep -q ' 0 refusals 16,' "$room/said" || status=1
head -n 6 "$room/said" | sed '$d'
echo "resumed: $side: $(tail -n 1 "$room/said"), $SECONDS seconds"
exit "$status"
