#!/usr/bin/env bash
# The survey and the desk's calls dem_deliver and dem_deliver_run beside a careful C reader, GDAL and plain reading, as ratios in one run:
# bench/speed.sh (docs/SPEED.md tells what it showed). It asserts that all say the same of the sheet, and no time. Needs gcc and valgrind; with
# GDAL (libgdal-dev) it is measured too.
# The survey, dem_deliver_run, the C readers and plain reading fetch 65,536 bytes a read. Those with 1024 at the end of their name, and
# dem_deliver, fetch a block a call, as all did before the request for runs.
set -euo pipefail
cd "$(dirname "$0")/.."
. .ci/setup
need gcc gcc
need valgrind valgrind
. bench/native.sh
quietly built_program survey
native_survey
native_desk
warned=(-O2 -Wall -Wextra -Werror)
many=-DFETCH=65536
gcc "${warned[@]}" bench/sheet.c -o "$room/sheet"
gcc "${warned[@]}" "$many" bench/plain.c -o "$room/plain"
gcc "${warned[@]}" bench/plain.c -o "$room/plain-1024"
gcc "${warned[@]}" -Iinclude bench/deliver.c "$room/desk" -o "$room/dem_deliver"
gcc "${warned[@]}" "$many" -Iinclude bench/deliver_run.c "$room/desk" -o "$room/dem_deliver_run"
gcc "${warned[@]}" "$many" bench/survey.c -o "$room/gcc-O2"
gcc -O3 "$many" bench/survey.c -o "$room/gcc-O3"
gcc -O3 bench/survey.c -o "$room/gcc-O3-1024"
"$tools/bin/clang" -O3 "$many" -isystem "$(gcc -print-file-name=include)" -isystem /usr/include -isystem "/usr/include/$(gcc -dumpmachine)" \
    -c bench/survey.c -o "$room/clang.o"
gcc "$room/clang.o" -o "$room/clang-O3"
ours=(survey dem_deliver dem_deliver_run)
the_c=(gcc-O2 gcc-O3 clang-O3 gcc-O3-1024)
plain=(plain plain-1024)
gdal=
if command -v gdal-config >/dev/null; then
    # shellcheck disable=SC2046 # words of a command
    gcc -O2 $(gdal-config --cflags) bench/gdal.c $(gdal-config --libs) -o "$room/gdal"
    gdal=yes
fi

# The best of 21 turns for each program in microseconds from start to end, the programs by turns.
declare -A best
timed() { # SHEET PROGRAM..
    local sheet=$1 name from took turn
    shift
    best=()
    for turn in {1..21}; do
        for name in "$@"; do
            from=${EPOCHREALTIME/./}
            if [ "$name" = gdal ]; then
                took=$("$room/gdal" "$sheet" | cut -d' ' -f4)
            else
                "$room/$name" <"$sheet" >/dev/null
                took=$((${EPOCHREALTIME/./} - from))
            fi
            [ "${best[$name]:-$took}" -lt "$took" ] || best[$name]=$took
        done
    done
}

instructions() { # PROGRAM SHEET
    valgrind --tool=callgrind --callgrind-out-file=/dev/null "$room/$1" <"$2" 2>&1 >/dev/null | awk '/Collected/ { print $4 }'
}

# Writes that miss the first cache: some 180,000 where each cell is made void and then filled, some hundreds where a compiler found that the
# program never looks at its cells again, and left the writes out.
missed_writes() { # PROGRAM SHEET
    valgrind --tool=cachegrind --cache-sim=yes --cachegrind-out-file=/dev/null "$room/$1" <"$2" 2>&1 >/dev/null |
        sed -n 's/.*D1  misses:.* \([0-9,]*\) wr.*/\1/p'
}

agree() { # SHEET
    local name rows columns filled
    "$room/survey" <"$1" >"$room/said"
    for name in "${ours[@]}" "${the_c[@]}"; do "$room/$name" <"$1" | cmp - "$room/said" || { echo "$name says something else"; exit 1; }; done
    [ -z "$gdal" ] || {
        read -r rows columns filled _ < <("$room/gdal" "$1")
        awk -v r="$rows" -v c="$columns" -v f="$filled" '$1 == "sheet" { ok = $2 == r && $3 == c } $1 == "posts" { ok = ok && $2 - $4 == f } END { exit !ok }' "$room/said" ||
            { echo "GDAL says something else"; exit 1; }
    }
}

for kind in smooth rough; do
    "$room/sheet" 1201 1201 "$kind" >"$room/$kind.dem"
    agree "$room/$kind.dem"
    timed "$room/$kind.dem" "${ours[@]}" "${the_c[@]}" "${plain[@]}" ${gdal:+gdal}
    echo "1201 x 1201, $kind: survey ${best[survey]} us, dem_deliver ${best[dem_deliver]} us, dem_deliver_run ${best[dem_deliver_run]} us"
    for our in dem_deliver dem_deliver_run; do echo "    $our/survey $(ratio "${best[$our]}" "${best[survey]}")"; done
    for name in "${the_c[@]}" "${plain[@]}" ${gdal:+gdal}; do
        for our in "${ours[@]}"; do echo "    $our/$name $(ratio "${best[$our]}" "${best[$name]}")"; done
    done
    for name in "${ours[@]}" "${the_c[@]}"; do echo "    instructions a post, $name: $(ratio "$(instructions "$name" "$room/$kind.dem")" 1442401)"; done
    for name in "${ours[@]}" "${the_c[@]}"; do echo "    writes that miss the first cache, $name: $(missed_writes "$name" "$room/$kind.dem")"; done
done
for our in "${ours[@]}"; do
    declare -A first=()
    for side in 300 600 1200; do
        "$room/sheet" $side $side smooth >"$room/growth.dem"
        timed "$room/growth.dem" "$our"
        count=$(instructions "$our" "$room/growth.dem")
        [ -n "${first[us]:-}" ] || first=([us]=${best[$our]} [count]=$count)
        echo "$our, posts x $((side * side / 90000)): time x $(ratio "${best[$our]}" "${first[us]}"), instructions x $(ratio "$count" "${first[count]}")"
    done
done
echo "on $(uname -m); $(gcc --version | head -1); $("$tools/bin/clang" --version | head -1)${gdal:+; GDAL $(gdal-config --version)}"
