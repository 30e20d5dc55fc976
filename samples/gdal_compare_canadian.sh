#!/usr/bin/env bash
# Holds every cell of the whole Canadian samples, as the Load button keeps them, against GDAL as a reader: samples/gdal_compare_canadian.sh [LOAD [FRAMES]]
# LOAD and FRAMES are ours, as .ci/run leaves them, unless told otherwise. Also held: where the south-western post lies and how far its neighbours
# are, and the kept digest of GDAL's cells, which .ci/run goes by. Needs gdal_translate (Debian package gdal-bin). Ends with status 1 if anything differs.
set -euo pipefail
export LC_ALL=C GDAL_PAM_ENABLED=NO
here=$(cd "$(dirname "$0")" && pwd)
load=${1:-$here/../target/x86/load}
frames=${2:-$here/../target/x86/frames}
command -v gdal_translate >/dev/null || { echo "gdal_translate is missing: apt-get install gdal-bin"; exit 1; }
for program in "$load" "$frames"; do [ -x "$program" ] || { echo "no program $program"; exit 1; }; done
work=$(mktemp -d)
trap 'rm -rf "$work"' EXIT

# west, south, x and y spacing, in arc-seconds, four decimals: of the session's numbers and of GDAL's frame, whose corner is half a spacing further out
our_place() { od -An -v -w8 -t d8 --endian=big -j 12 -N 160 "$1" | awk '
    { n[NR - 1] = $1 }
    END { printf "%.4f %.4f %.4f %.4f\n", n[5] / 1e9, n[6] / 1e9, n[16] / 1e9, n[17] / 1e9 }'; }
gdal_place() { gdalinfo "$1" | tr '(),' '   ' | awk '
    /^Size is/ { rows = $4 } /^Origin =/ { x = $3; y = $4 } /^Pixel Size =/ { dx = $4; dy = -$5 }
    END { printf "%.4f %.4f %.4f %.4f\n", (x + dx / 2) * 3600, (y - (rows - 0.5) * dy) * 3600, dx * 3600, dy * 3600 }'; }

compared=0
differ=0
wrong() { echo "$1"; differ=1; }
for packed in "$here"/*.DEM.gz; do
    name=$(basename "$packed" .DEM.gz)
    gunzip -c "$packed" >"$work/$name.DEM"
    rm -f "$work"/state*
    "$frames" <"$work/$name.DEM" | "$load" "$work/state" 1 >"$work/said"
    cmp -s "$work/said" "$here/$name.canadian.txt" || { wrong "$name: $(head -n 1 "$work/said")"; continue; }
    "$here/state_cells.sh" "$work/state" >"$work/ours"
    "$here/gdal_cells.sh" "$work/$name.DEM" >"$work/gdal"
    cmp -s "$work/ours" "$work/gdal" || { wrong "$name: cells differ: $(diff "$work/ours" "$work/gdal" | sed -n '1p')"; continue; }
    [ "$(our_place "$work/state")" = "$(gdal_place "$work/$name.DEM")" ] || { wrong "$name: $(our_place "$work/state"), GDAL: $(gdal_place "$work/$name.DEM")"; continue; }
    sha256sum <"$work/gdal" | cmp -s - "$here/$name.cells.sha256" || { wrong "$name: the kept digest is of other cells"; continue; }
    echo "$name: $(wc -l <"$work/ours") cells agree, $(grep -c '^-2147483648$' "$work/ours") of them void; from $(our_place "$work/state")"
    rm "$work/$name.DEM"
    compared=$((compared + 1))
done
[ "$compared" -gt 0 ] || { echo "nothing compared"; exit 1; }
exit "$differ"
