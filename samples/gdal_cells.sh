#!/usr/bin/env bash
# The cells of a sheet as GDAL reads it, one to a line, in our order and form: samples/gdal_cells.sh SHEET
# Cell = column x rows + row, from the south-western one; hundredths; -2147483648 is void. Needs gdal_translate (Debian package gdal-bin).
set -euo pipefail
export LC_ALL=C GDAL_PAM_ENABLED=NO
work=$(mktemp -d)
trap 'rm -rf "$work"' EXIT
# ENVI is bare numbers, rows from the north, and a text beside them
gdal_translate -q -of ENVI -ot Int16 "$1" "$work/cells"
columns=$(sed -n 's/^samples *= *//p' "$work/cells.hdr")
rows=$(sed -n 's/^lines *= *//p' "$work/cells.hdr")
order=$(sed -n 's/^byte order *= *//p' "$work/cells.hdr")
[ "$(wc -c <"$work/cells")" = $((columns * rows * 2)) ] || { echo "gdal_cells: $1 is no $columns x $rows posts" >&2; exit 1; }
case $order in 0) endian=little ;; *) endian=big ;; esac
od -An -v -w2 -t d2 --endian="$endian" "$work/cells" | awk -v columns="$columns" -v rows="$rows" '
    { post[NR - 1] = $1 + 0 }
    END {
        for (column = 0; column < columns; column++)
            for (row = rows - 1; row >= 0; row--) {
                p = post[row * columns + column]
                print p == -32767 ? "-2147483648" : p * 100
            }
    }'
