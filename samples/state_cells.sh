#!/usr/bin/env bash
# The cells of a STATE of the Load button, one to a line: samples/state_cells.sh STATE
# They stand behind the mark, the numbers and the count, and before the two sums (docs/MANUAL.md, "The Load button").
set -euo pipefail
export LC_ALL=C
numbers=$(od -An -v -t u4 --endian=big -j 8 -N 4 "$1" | tr -d ' ')
begin=$((8 + 4 + 8 * numbers + 4))
cells=$(od -An -v -t u4 --endian=big -j $((begin - 4)) -N 4 "$1" | tr -d ' ')
[ "$(wc -c <"$1")" = $((begin + 4 * cells + 16)) ] || { echo "state_cells: $1 is no whole state" >&2; exit 1; }
od -An -v -w4 -t d4 --endian=big -j "$begin" -N $((4 * cells)) "$1" | tr -d ' '
