#!/usr/bin/env bash
# The writer beside the reading of what it wrote, on a sheet of 1201 x 1201 cells, as ratios in one run: bench/send.sh (docs/SPEED.md tells
# what it showed). bench/send.c says what is measured. It asserts that the cells read are the cells written, and that the writer's two ways
# write the same bytes, and no time. Needs gcc and valgrind.
# Times of the two calls are taken inside one process, the survey's from its start to its end: they are measured by turns.
set -euo pipefail
cd "$(dirname "$0")/.."
. .ci/setup
need gcc gcc
need valgrind valgrind
. bench/native.sh
posts=$((1201 * 1201))
quietly built_program survey
native_survey
native_desk
gcc -std=gnu99 -O2 -Wall -Wextra -Werror -Iinclude bench/send.c "$room/desk" -o "$room/send"

# Counted from the call's start to its end, all that it calls with it. No other work on the machine changes these. Callgrind takes some
# loops for calls of a function by itself, and counts them apart, as NAME'2: here they are one.
instructions() { # KIND
    quietly valgrind --tool=callgrind --toggle-collect=dem_write_sheet --callgrind-out-file="$room/counted" "$room/send" "$1"
    callgrind_annotate --auto=no --threshold=100 "$room/counted" >"$room/annotated"
    awk -v posts=$posts '
        { count = $1; gsub(/,/, "", count) }
        /PROGRAM TOTALS/ { printf "    instructions a post, dem_write_sheet: %.2f\n", count / posts }
        / file:function/ { listed = 1; next }
        listed && count > 0 {
            name = $0
            sub(/^ *[0-9,]+ *\([^)]*\) *[^:]*:/, "", name)
            sub(/ \[.*/, "", name)
            sub(/\x27[0-9]+$/, "", name)
            sum[name] += count
        }
        END { for (name in sum) if (sum[name] >= posts / 100) printf "%12.2f %s\n", sum[name] / posts, name | "sort -rn" }
    ' "$room/annotated"
}

for kind in smooth rough; do
    "$room/send" "$kind" "$room/survey" "$room/$kind.dem"
    instructions "$kind"
done
echo "on $(uname -m); $(gcc --version | head -1); $("$tools/bin/clang" --version | head -1)"
