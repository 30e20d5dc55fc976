#!/usr/bin/env bash
# Makes the sheets that GDAL wrote, anew, in a folder: samples/make_gdal.sh FOLDER
# Needs gdal_translate (Debian package gdal-bin). Other releases of GDAL may write other bytes.
set -euo pipefail
here=$(cd "$(dirname "$0")" && pwd)
mkdir -p "$1"
cd "$1"

grid() { # COLUMNS ROWS X Y SPACING HEIGHT: a raster as text, x and y of its south-west post; i counts columns, j rows, -9999 is void
    awk -v c="$1" -v r="$2" -v x="$3" -v y="$4" -v s="$5" 'BEGIN {
        printf "ncols %d\nnrows %d\nxllcenter %s\nyllcenter %s\ncellsize %s\nNODATA_value -9999\n", c, r, x, y, s
        for (j = r - 1; j >= 0; j--) { for (i = 0; i < c; i++) printf "%d ", ('"$6"'); print "" } }' >grid.asc
}
sheet() { # NAME SYSTEM [OPTION..]
    local name=$1 system=$2
    shift 2
    gdal_translate -q -ot Int16 -a_srs "$system" -of USGSDEM "$@" grid.asc "$name"
}
slope='100 + 10 * i + j'
hills='200 + (i * 7 + j * 13) % 40 - 60 * j'

grid 7 5 600000 4200000 30 "$slope"
sheet UTM30.DEM EPSG:32617
sheet lower.dem EPSG:32617
sheet SOUTH.DEM EPSG:32717
fold -b -w 1024 UTM30.DEM >LINES.DEM
grid 7 5 600015 4200015 30 "$slope"
sheet EDGES.DEM EPSG:32617
grid 7 5 600000 4200000 0.5 "$slope"
sheet HALF.DEM EPSG:32617
grid 7 5 600000 4200000 30 "i + j == 0 || (i == 1 && j == 1) || (i == 3 && j > 0) || (i == 5 && j > 2) ? -9999 : $hills"
sheet VOIDS.DEM EPSG:32617
grid 7 5 600000 4200000 30 "i == 3 ? -9999 : $hills"
sheet ALLVOID.DEM EPSG:32617
grid 3 317 600000 4200000 30 '1000 + 100 * i + (j * j) % 97'
sheet TALL.DEM EPSG:32617
grid 4 6 600000 4200000 10 'j == 0 ? 1000 : j == 5 ? 1250 : i == j ? -9999 : 1000 + (i * 31 + j * 47) % 250'
sheet DECI.DEM EPSG:32617 -co ZRESOLUTION=0.1
grid 4 6 600000 4200000 10 '1000 + (i * 31 + j * 47) % 250'
sheet ROUNDED.DEM EPSG:32617 -co ZRESOLUTION=0.1
grid 10 1506 600000 4200000 30 '500 + 20 * i + (j * 7) % 113'
sheet BIG.DEM EPSG:32617
grid 7 5 -122.25 46.2 0.000833333333333333 "$slope"
sheet GEO3.DEM EPSG:4326
grid 10 5 -81.1 37.3 0.000833333333333333 "$slope"
sheet NOISE.DEM EPSG:4326
grid 7 5 1500000 500000 30 "$slope"
sheet PLANE.DEM EPSG:2264 2>/dev/null

# ---- Canadian sheets ----

lattice() { # X Y DX DY HEIGHT: a raster of 1201 x 1201 posts; its south-west post in degrees, spacings in arc-seconds
    awk -v x="$1" -v y="$2" -v dx="$3" -v dy="$4" 'BEGIN {
        printf "ncols 1201\nnrows 1201\nxllcenter %s\nyllcenter %s\ndx %.17g\ndy %.17g\nNODATA_value -9999\n", x, y, dx / 3600, dy / 3600
        for (j = 1200; j >= 0; j--) { for (i = 0; i < 1201; i++) printf "%d ", ('"$5"'); print "" } }' >grid.asc
}
# GDAL's product of that name, in NAD83; it takes the spacing from the latitude, and wants an index of map sheets that Debian has not
cded() { # NAME TOPLEFT [OPTION..]
    gdal_translate -q -ot Int16 -a_srs EPSG:4269 -of USGSDEM -co PRODUCT=CDED50K -co TOPLEFT="$2" -co RESAMPLE=Nearest "${@:3}" grid.asc "$1" 2>/dev/null
}
kept_whole() { # NAME: small enough to keep, with a digest of its cells as GDAL reads them back
    "$here/gdal_cells.sh" "$1.DEM" | sha256sum >"$1.cells.sha256"
    gzip -n9 <"$1.DEM" >"$1.DEM.gz"
}
cut() { # SHEET BLOCKS: only the first of them are kept
    truncate -s $((1024 * $2)) "$1"
}
put() { # SHEET BYTE TEXT: in its place, counted from 1
    printf '%s' "$3" | dd of="$1" bs=1 seek=$(($2 - 1)) conv=notrunc status=none
}
voids='(i - 600) ^ 2 + (j - 700) ^ 2 < 22500 || (j > 1190 && i % 3 == 0) || (j < 4 && i % 100 == 50)'
shore="$voids ? -9999 : i + 2 * j < 800 ? 0 : (2 * i + 5 * j) % 1237 - 40"
steps="$voids ? -9999 : 100 + int(i / 4) - int(j / 150)"
nad83=EPSG:4269

# 1:50 000: south of 68 degrees, up to 80, and north of it
lattice -53.25 47.25 0.75 0.75 "$shore"
cded C075X075.DEM 53d15w,47d30n -co INTERNALNAME=001n06DEMe -co "PRODUCER=Made-up heights, written by GDAL" -co OriginCode=NL -co ProcessCode=8
lattice -69.5 69.75 1.5 0.75 "$steps"
cded C075X150.DEM 69d30w,70d0n -co OriginCode=NU
lattice -66 82.25 3 0.75 "$steps"
cded C075X300.DEM 66d0w,82d30n -co OriginCode=NU
# 1:250 000: no product of GDAL's, but its plain sheets have all that 003 asks for
lattice -64 47 3 3 "$steps"
sheet C3X3.DEM "$nad83" -co OriginCode=PE
lattice -66 70 6 3 "$steps"
sheet C3X6.DEM "$nad83" -co OriginCode=NU -co "PRODUCER=Made-up heights, written by GDAL"
lattice -68 81 12 3 "$steps"
sheet C3X12.DEM "$nad83" -co OriginCode=MULT -co "PRODUCER=Made-up heights, written by GDAL"
for name in C075X075 C075X150 C075X300 C3X3 C3X6 C3X12; do kept_whole "$name"; done
cp C075X075.DEM C_TAKEN.DEM
cut C_TAKEN.DEM 1
cp C075X150.DEM C_TURNED.DEM
cut C_TURNED.DEM 1
put C_TURNED.DEM 817 7.500000D-011.500000D+00

# what GDAL does that the rules refuse
lattice -135.25 60.75 0.75 0.75 "$steps"
cded C_NOISE.DEM 135d15w,61d0n -co INTERNALNAME=105d14DEMe -co OriginCode=YT
cut C_NOISE.DEM 10
lattice -64.1 47 0.75 0.75 "$steps"
sheet C_SIXTY.DEM "$nad83"
cut C_SIXTY.DEM 1
lattice -0.25 51 3 3 "$steps"
sheet C_SIGN.DEM EPSG:4326
cut C_SIGN.DEM 1
lattice -53.2502 47.2503 0.75 0.75 "$steps"
sheet C_OFF.DEM "$nad83"
cut C_OFF.DEM 1
rm -f grid.asc C075X075.DEM C075X150.DEM C075X300.DEM C3X3.DEM C3X6.DEM C3X12.DEM ./*.aux.xml
