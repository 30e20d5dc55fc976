#!/usr/bin/env bash
# Holds the cells of every taken sample against GDAL as a reader, and those of the sheet that the writer makes of them: samples/gdal_compare.sh [REPLAY [SENDER]]
# REPLAY answers a script of deliveries, SENDER writes a sheet: ours unless told otherwise, or the second program's own_replay and own_sender.
# Needs gdal_translate (Debian package gdal-bin). Ends with status 1 if anything differs.
set -euo pipefail
export LC_ALL=C GDAL_PAM_ENABLED=NO
here=$(cd "$(dirname "$0")" && pwd)
replay=${1:-$here/../target/x86/replay} # .ci/run leaves a command there that runs on either processor
command -v gdal_translate >/dev/null || { echo "gdal_translate is missing: apt-get install gdal-bin"; exit 1; }
sender=${2:-$here/../target/x86/sender}
for program in "$replay" "$sender"; do [ -x "$program" ] || { echo "no program $program"; exit 1; }; done
work=$(mktemp -d)
trap 'rm -rf "$work"' EXIT

four() { printf '%b' "$(printf '%08x' "$1" | sed 's/../\\x&/g')"; } # a number as four bytes, largest first
script() { # SHEET BLOCKS CELLS: every block delivered once, in order
    four "$3"
    for ((k = 0; k < $2; k++)); do
        four "$3"; four "$k"; four 1024
        dd if="$1" bs=1024 skip="$k" count=1 status=none
    done
}
zeros() { for _ in {1..15}; do printf '%24s' 0.0; done; } # the fifteen reals, each right in its field
# GDAL's cells in our order: by x, then by y from the south. Its void is -32767; ours are hundredths.
gdal_places() { gdal_translate -q -of XYZ "$1" /vsistdout/ | sort -k1,1g -k2,2g; }
hundredths='{ print $3 == -32767 ? "-2147483648" : sprintf("%.0f", $3 * 100) }'
# What GDAL's cells come to: rows, columns, filled cells, least and greatest.
sums='{ x[$1]; y[$2] } $3 != -32767 { if (!n || $3 < a) a = $3; if (!n || $3 > b) b = $3; n++ }
    END { printf "%d %d %d %.2f %.2f\n", length(y), length(x), n, a, b }'
# The same from a lister's four lines.
stated='$1 == "sheet" { s = $2 " " $3 } $1 == "posts" { s = s " " $2 - $4 } $1 == "range" { s = s " " $2 " " $3 } END { print s }'

compared=0
differ=0
say() { echo "$1"; compared=$((compared + 1)); }
for sheet in "$here"/*.dem "$here"/*.DEM; do
    name=$(basename "$sheet")
    answer=${sheet%.*}.txt
    survey=${sheet%.*}.survey.txt
    taken=$answer
    grep -q '^sheet' "$answer" || taken=$survey
    grep -qs '^sheet' "$taken" || continue
    [ "$name" != NOPOINT.DEM ] || continue # made here for a rule of FORTRAN's that GDAL does not have: it would read whole numbers
    gdal_places "$sheet" >"$work/places"
    if [ "$(awk "$sums" "$work/places")" != "$(awk "$stated" "$taken")" ]; then
        say "$name: rows, columns, filled cells or range differ"
        differ=1
        continue
    fi
    cells=$(awk 'END { print NR }' "$work/places")
    if [ "$taken" = "$survey" ]; then
        say "$name: $cells cells, more than replay is lent: rows, columns, filled cells and range agree"
        continue
    fi
    blocks=$(awk '$1 == "end" { print $2 }' "$taken")
    if ! script "$sheet" "$blocks" "$cells" | "$replay" >"$work/answers"; then
        say "$name: the program ended with a fault"
        differ=1
        continue
    fi
    awk "$hundredths" "$work/places" >"$work/gdal"
    sed '1,/^cells /d' "$work/answers" >"$work/ours"
    if [ "$(grep -c '^taken$' "$work/answers")" != "$blocks" ]; then
        say "$name: a block was not taken"
        differ=1
    elif ! cmp -s "$work/ours" "$work/gdal"; then
        say "$name: cells differ: $(diff "$work/ours" "$work/gdal" | sed -n '1p')"
        differ=1
    else
        say "$name: $cells cells agree, $(grep -c '^-2147483648$' "$work/ours" || true) of them void"
        # Sent again, with the same record A as a template: GDAL reads the cells that were sent. The fifteen reals go out as they stand; right in
        # their fields, as here, GDAL does not run the zone's field into the first of them (docs/MANUAL.md, "Sending a sheet").
        { head -c 168 "$sheet"; zeros; tail -c +529 "$sheet" | head -c 496; while read -r cell; do four "$((cell & 0xffffffff))"; done <"$work/ours"; } |
            "$sender" >"$work/sent.dem"
        gdal_places "$work/sent.dem" | awk "$hundredths" >"$work/back"
        if cmp -s "$work/back" "$work/gdal"; then
            echo "$name: sent again, read by GDAL: the same cells"
        else
            say "$name: sent again, GDAL reads other cells: $(diff "$work/back" "$work/gdal" | sed -n '1p')"
            differ=1
        fi
    fi
done
[ "$compared" -gt 0 ] || { echo "nothing compared"; exit 1; }
exit "$differ"
