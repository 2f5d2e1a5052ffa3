#!/usr/bin/env bash
# Times `tn flat` on a source of the greatest size and on one of half that size, beside a copy of
# the greater file. Linear work gives a ratio of the two times near 2. Run it once the program is
# built: `cd crates/tn && rt run`.
set -eu
shopt -s inherit_errexit
cd "$(dirname "$0")/.."
tn=$PWD/crates/tn/out/tn
[ -x "$tn" ] || { echo "no $tn: build it first"; exit 1; }
work=$(mktemp -d)
trap 'rm -rf "$work"' EXIT

# lines with operands of each length and a comment, so many that their code is within the limit of
# 262,144 bytes, and one line that pads the source to the greatest size
awk 'BEGIN {
    split("ldc 0|ldl 15|stl 16|adc -1|ldc 255|ldnl -256|cj 4096|j -65537|ldc 16777215|call -2147483648|ldlp 2147483647", line, "|")
    for (i = 0; size < 1048576 - 64; i++) {
        text = line[i % 11 + 1] " ; line"
        print text
        size += length(text) + 1
    }
    printf "ldc 0 ;%*s\n", 1048576 - size - 8, ""
}' > "$work/whole.txt"
head -c 524288 "$work/whole.txt" | sed '$d' > "$work/half.txt"
printf 'whole: %s bytes, half: %s bytes\n' "$(stat -c %s "$work/whole.txt")" "$(stat -c %s "$work/half.txt")"

# the least of ten runs, in microseconds
least() {
    local best=0 start stop
    for _ in 1 2 3 4 5 6 7 8 9 10; do
        start=$(date +%s%N)
        "$@"
        stop=$(date +%s%N)
        local took=$(((stop - start) / 1000))
        if [ "$best" -eq 0 ] || [ "$took" -lt "$best" ]; then best=$took; fi
    done
    echo "$best"
}

whole=$(least "$tn" flat "$work/whole.txt" "$work/whole.bin")
half=$(least "$tn" flat "$work/half.txt" "$work/half.bin")
copy=$(least cp "$work/whole.txt" "$work/copy.txt")
awk -v whole="$whole" -v half="$half" -v copy="$copy" 'BEGIN {
    printf "tn flat: %d us whole, %d us half, ratio %.2f\n", whole, half, whole / half
    printf "tn flat: %.0f bytes/s of source\n", 1048576 * 1000000 / whole
    printf "cp:      %d us, %.0f bytes/s\n", copy, 1048576 * 1000000 / copy
}'
