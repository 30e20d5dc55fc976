#!/usr/bin/env bash
# Holds the library's reading of reals, without a point and with one, against FORTRAN's own: second/fortran/compare.sh [FIELDS]
# FIELDS is examples/fields.c as built by .ci/run, ours unless told otherwise. Needs gfortran (Debian package gfortran). Every length from 1 to 24, every exponent, as
# many digits as fit; what FORTRAN reads is held against the value, and the kinds 7 and 8 against what it amounts to. Ends with status 1 if anything differs.
set -euo pipefail
export LC_ALL=C
here=$(cd "$(dirname "$0")" && pwd)
fields=${1:-$here/../../target/x86/fields}
command -v gfortran >/dev/null || { echo "gfortran is missing: apt-get install gfortran"; exit 1; }
[ -x "$fields" ] || { echo "no program $fields"; exit 1; }
work=$(mktemp -d)
trap 'rm -rf "$work"' EXIT
gfortran -std=f2008 -O1 -o "$work/reading" "$here/reading.f90"

awk 'BEGIN {
    srand(19970101)
    for (length_ = 1; length_ <= 24; length_++)
        for (power = -100; power <= 99; power++)
            for (turn = 0; turn < 14; turn++) field(length_, power)
    print "12   300000E+01"; print "11  300000E+01"; print "10 300000E+01"
}
function upto(n) { return int(rand() * (n + 1)) }
function field(n, power, exponent, count, digits, i, sign, room, left, point) {
    # -100 stands for none
    exponent = power == -100 ? "" : (rand() < .5 ? "D" : "E") (power < 0 ? "-" : rand() < .5 ? "+" : "") (power < 0 ? -power : power)
    room = n - length(exponent)
    if (room < 1) return
    count = 1 + upto(room - 1)
    digits = ""
    for (i = 0; i < count; i++) digits = digits (rand() < .5 ? 0 : upto(9))
    room -= count
    sign = room > 0 && rand() < .5 ? (rand() < .5 ? "-" : "+") : ""
    room -= length(sign)
    if (room > 0 && rand() < .2) { # and one in five with a point
        point = upto(count)
        digits = substr(digits, 1, point) "." substr(digits, point + 1)
        room--
    }
    left = rand() < .3 ? 0 : rand() < .5 ? room : upto(room)
    printf "%2d %*s%s%s%s%*s\n", n, left, "", sign, digits, exponent, room - left, ""
}' >"$work/fields"

"$work/reading" <"$work/fields" >"$work/fortran"
cut -c4- "$work/fields" | "$fields" - | sed -n 's/^  real: //p' >"$work/ours"
paste -d'|' "$work/fields" "$work/fortran" "$work/ours" | awk -F'|' '
    # what the value that FORTRAN read comes to: a kind, or billionths
    function told(text, minus, digits, power) {
        gsub(/ /, "", text)
        minus = text ~ /^-/
        sub(/^-/, "", text)
        power = text; sub(/.*E/, "", power); power += 0
        digits = text; sub(/E.*/, "", digits); sub(/\./, "", digits); sub(/0+$/, "", digits)
        if (digits == "") return "0"
        if (power >= 9) return "refused, kind 7"
        if (power - length(digits) + 1 < -9 || length(digits) > 15) return "refused, kind 8"
        for (power = power - length(digits) + 10; power > 0; power--) digits = digits "0"
        return (minus ? "-" : "") digits
    }
    function billionths(text) {
        if (text ~ /^refused/) return text
        sub(/\./, "", text)
        text = text ~ /^-/ ? "-" strip(substr(text, 2)) : strip(text)
        return text
    }
    function strip(text) { sub(/^0+/, "", text); return text == "" ? "0" : text }
    {
        if (told($2) != billionths($3)) { print "differs: [" substr($1, 4) "] FORTRAN" $2 ", ours " $3; wrong = 1; exit }
        seen[$1 ~ /\./ ? "with a point" : "without a point", $3 ~ /^refused/ ? $3 : told($2) == "0" ? "zero" : "read"]++
        all++
    }
    END {
        if (wrong) exit 1
        for (k in seen) { split(k, part, SUBSEP); print part[1] ", " part[2] ": " seen[k] }
        if (all < 30000 || !seen["without a point", "read"] || !seen["without a point", "refused, kind 7"] || !seen["without a point", "refused, kind 8"]) { print "too little"; exit 1 }
        print all " fields, no difference"
    }'
