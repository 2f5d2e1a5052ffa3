#!/usr/bin/env bash
# Times `tn asm` on a source of the greatest size and on one of half that size, beside a copy of the
# greater file. Linear work gives a ratio of the two times near 2. Run it once the program is built:
# `cd crates/tn && rt run`.
set -eu
shopt -s inherit_errexit
cd "$(dirname "$0")/.."
tn=$PWD/crates/tn/out/tn
[ -x "$tn" ] || { echo "no $tn: build it first"; exit 1; }
work=$(mktemp -d)
trap 'rm -rf "$work"' EXIT

# code and data by turns, each turn with labels of its own and uses of them and of the turn before, so
# that a front of the source is one too; comments, so that the module's text is within the limit of
# 1,048,576 bytes; and one line that pads the source to the greatest size
awk 'function put(text) { print text; size += length(text) + 1 }
BEGIN {
    put(".module bench")
    put("c0: ret")
    put(".data")
    put("d0: .word 0")
    for (i = 1; size < 1048576 - 640; i++) {
        put(".code             ; what follows is code")
        put(".export c" i)
        put("c" i ": ldc #" sprintf("%X", i) "  ; a number")
        put("    j c" (i - 1) "    ; the turn before")
        put("    ldc c" i "-c" (i - 1))
        put("    ldc @d" i "       ; the word of a cell")
        put("    add               ; an operation")
        put("    .byte 7")
        put(".data             ; what follows is static data")
        put("    .align")
        put("d" i ": .word -" i "  ; a word")
        put("    .address c" i "   ; of code")
        put("    .space 4          ; zeros")
    }
    printf ";%*s\n", 1048576 - size - 2, ""
}' > "$work/whole.txt"
head -c 524288 "$work/whole.txt" |
    awk '/^\.code/ { last = NR } { line[NR] = $0 } END { for (i = 1; i < last; i++) print line[i] }' > "$work/half.txt"
printf 'whole: %s bytes, half: %s bytes\n' "$(stat -c %s "$work/whole.txt")" "$(stat -c %s "$work/half.txt")"

# the least of ten runs, in microseconds
least() {
    local best=0 start stop
    for _ in 1 2 3 4 5 6 7 8 9 10; do
        start=$(date +%s%N)
        "$@"
        stop=$(date +%s%N)
        local took=$(((stop - start) / 1000))
        if [ "$best" -eq 0 ] || [ "$took" -lt "$best" ]; then best=$took; fi
    done
    echo "$best"
}

whole=$(least "$tn" asm "$work/whole.txt" "$work/whole.tmod")
half=$(least "$tn" asm "$work/half.txt" "$work/half.tmod")
copy=$(least cp "$work/whole.txt" "$work/copy.txt")
awk -v whole="$whole" -v half="$half" -v copy="$copy" 'BEGIN {
    printf "tn asm: %d us whole, %d us half, ratio %.2f\n", whole, half, whole / half
    printf "tn asm: %.0f bytes/s of source\n", 1048576 * 1000000 / whole
    printf "cp:     %d us, %.0f bytes/s\n", copy, 1048576 * 1000000 / copy
}'
