#!/usr/bin/env bash
# Times the settling of sizes: of jumps to places within 400 pieces, and of a row of differences each of
# which grows only when the next one has. Each is run with so many pieces and with twice as many, and the
# ratio of the times is told. What the same run takes without settling is subtracted. Run it once the
# program is built: `cd crates/tn_cases && rt run`.
set -eu
shopt -s inherit_errexit
cd "$(dirname "$0")/.."
cases=$PWD/crates/tn_cases/out/tn_cases
[ -x "$cases" ] || { echo "no $cases: build it first"; exit 1; }
work=$(mktemp -d)
trap 'rm -rf "$work"' EXIT

# so many jumps, each to one of the 801 places about it
jumps() {
    awk -v n="$1" 'BEGIN {
        print "case jumps"
        seed = 1
        for (i = 0; i < n; i++) {
            seed = (seed * 1103515245 + 12345) % 2147483648
            to = i + seed % 801 - 400
            if (to < 0) to = 0
            if (to > n) to = n
            print "rel " to
        }
    }'
}

# Differences and 14 bytes in turn: each difference is over 14 bytes and the next difference, so that it
# needs two bytes exactly where that one does. The last is long. The least sizes of many are too many bytes,
# which is told once all have been found.
differences() {
    awk -v n="$1" 'BEGIN {
        print "case differences"
        for (i = 0; i + 3 <= n; i += 3) {
            print "diff " i + 3 " " i + 1
            print "fixed 14"
            if (i + 6 <= n) print "diff " i + 5 " " i + 3
            else print "diff " i + 3 " 0"
        }
    }'
}

# the least time of five runs of a table, in microseconds
least() {
    local best=0 start stop
    for _ in 1 2 3 4 5; do
        start=$(date +%s%N)
        "$cases" "$1" layouts > "$1/out"
        stop=$(date +%s%N)
        local took=$(((stop - start) / 1000))
        if [ "$best" -eq 0 ] || [ "$took" -lt "$best" ]; then best=$took; fi
    done
    echo "$best"
}

# what settling a shape of so many pieces takes
settling() {
    mkdir -p "$work/bare" "$work/settled"
    "$1" "$2" > "$work/bare/layouts.txt"
    { "$1" "$2"; echo 'settle count => ?'; } > "$work/settled/layouts.txt"
    local bare settled
    bare=$(least "$work/bare")
    settled=$(least "$work/settled")
    grep -q "came" "$work/settled/out" || { cat "$work/settled/out" >&2; exit 1; }
    echo $((settled - bare))
}

for shape in jumps:32000 differences:32766; do
    name=${shape%:*} few=${shape#*:}
    once=$(settling "$name" "$few")
    twice=$(settling "$name" $((2 * few)))
    awk -v name="$name" -v few="$few" -v once="$once" -v twice="$twice" 'BEGIN {
        printf "%s: %d pieces %d us, %d pieces %d us, ratio %.2f\n", name, few, once, 2 * few, twice, twice / once }'
done
