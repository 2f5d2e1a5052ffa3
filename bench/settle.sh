#!/usr/bin/env bash
# Times `settle` on the loading of a grid of 4 by 4 processors with 200,000 bytes of code each, from the
# first pick and from the last, and tells the picks made in a second. What the same run takes without
# the picks is subtracted. Run it once the program is built: `cd crates/tn_cases && rt run`.
set -eu
shopt -s inherit_errexit
cd "$(dirname "$0")/.."
cases=$PWD/crates/tn_cases/out/tn_cases
[ -x "$cases" ] || { echo "no $cases: build it first"; exit 1; }
work=$(mktemp -d)
trap 'rm -rf "$work"' EXIT

# a table with the grid and this line
table() {
    awk -v line="$1" 'BEGIN {
        print "case grid\nconfig"
        for (p = 0; p < 16; p++) {
            print "| processor p" p " 262144\n| code #80000400\n| data #80038000\n| workspace #80039000 8 8"
            print "| module go.tmod\n| entry go\n| end"
        }
        print "| host p0 0"
        for (p = 0; p < 16; p++) if (p % 4 < 3) print "| wire p" p " 1 p" p + 1 " 3"
        for (p = 0; p < 12; p++) print "| wire p" p " 2 p" p + 4 " 0"
        for (p = 0; p < 16; p++) print "image #80000400 #80039000\nsegment #80000400\n#* 200000 20"
        print line
    }'
}
table 'settle 0 => budget 0' > "$work/none.txt"
table 'settle 1000000000 => ?' > "$work/first.txt"
table 'settle 1000000000 back => ?' > "$work/last.txt"

# the least of three runs, in microseconds
least() {
    local best=0 start stop
    for _ in 1 2 3; do
        start=$(date +%s%N)
        "$cases" "$work" "$1" > "$work/$1.out"
        stop=$(date +%s%N)
        local took=$(((stop - start) / 1000))
        if [ "$best" -eq 0 ] || [ "$took" -lt "$best" ]; then best=$took; fi
    done
    echo "$best"
}

none=$(least none)
for order in first last; do
    took=$(least "$order")
    picks=$(awk '$1 == "came" && $2 == "rest" { print $3 }' "$work/$order.out")
    awk -v none="$none" -v took="$took" -v picks="$picks" -v order="$order" 'BEGIN {
        printf "from the %s pick: %d picks, %d us, %.1f million picks a second\n", order, picks, took - none, picks / (took - none) }'
done
