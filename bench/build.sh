#!/usr/bin/env bash
# Times `tn build` on three systems, beside a copy of the stream: 32,000 jumps among 32,000 labels, and
# half as many; a chain of 64 processors with 240,000 bytes of static data each; and the greatest
# network, a chain of 64 memories of 1 MiB full of static data. Tells the most memory that the program
# takes, too. Run it once the program is built: `cd crates/tn && rt run`.
set -eu
shopt -s inherit_errexit
cd "$(dirname "$0")/.."
tn=$PWD/crates/tn/out/tn
[ -x "$tn" ] || { echo "no $tn: build it first"; exit 1; }
work=$(mktemp -d)
trap 'rm -rf "$work"' EXIT
cd "$work"

# a module of so many labels, each with a jump behind it to the label that lies half of them away
jumps() {
    awk -v count="$1" 'BEGIN {
        print "tmod 1\nname jumps\nexport l0\ncode"
        for (i = 0; i < count; i++) print "l l" i "\ni j l" (i + int(count / 2)) % count
        print "data\nend"
    }'
}

# a module of an entry and so many bytes of zeros
zeros() { printf 'tmod 1\nname zeros\nexport go\ncode\nl go\ni j go\ndata\ns %d\nend\n' "$1"; }

# a chain of so many processors: the size of a memory, the bases of data and workspace, module and entry
chain() {
    awk -v count="$1" -v size="$2" -v data="$3" -v wptr="$4" -v file="$5" -v entry="$6" 'BEGIN {
        for (i = 0; i < count; i++) {
            print "processor p" i " " size "\ncode #80000400\ndata " data "\nworkspace " wptr " 4 4"
            print "module " file "\nentry " entry "\nend"
        }
        print "host p0 0"
        for (i = 1; i < count; i++) print "wire p" i - 1 " 1 p" i " 0"
    }'
}

jumps 32000 > whole.tmod
jumps 16000 > half.tmod
zeros 240000 > part.tmod
zeros 1044480 > full.tmod
chain 1 262144 '#80030000' '#80038000' whole.tmod l0 > whole.cfg
chain 1 262144 '#80030000' '#80038000' half.tmod l0 > half.cfg
chain 64 262144 '#80001000' '#80000800' part.tmod go > part.cfg
chain 64 1048576 '#80001000' '#80000800' full.tmod go > full.cfg

# the least of so many runs, in microseconds
least() {
    local runs=$1 best=0 start stop
    shift
    for _ in $(seq "$runs"); do
        start=$(date +%s%N)
        "$@"
        stop=$(date +%s%N)
        local took=$(((stop - start) / 1000))
        if [ "$best" -eq 0 ] || [ "$took" -lt "$best" ]; then best=$took; fi
    done
    echo "$best"
}

# the most memory of a run, in KiB
peak() { python3 -c 'import resource, subprocess, sys
subprocess.run(sys.argv[1:], check=True)
print(resource.getrusage(resource.RUSAGE_CHILDREN).ru_maxrss)' "$@"; }

whole=$(least 10 "$tn" build whole.cfg whole.btl)
half=$(least 10 "$tn" build half.cfg half.btl)
awk -v whole="$whole" -v half="$half" 'BEGIN {
    printf "32,000 jumps: %d us, 16,000: %d us, ratio %.2f\n", whole, half, whole / half }'
for system in part full; do
    runs=5
    [ "$system" = part ] || runs=3
    took=$(least "$runs" "$tn" build "$system.cfg" "$system.btl")
    copy=$(least "$runs" cp "$system.btl" copy.btl)
    most=$(peak "$tn" build "$system.cfg" "$system.btl")
    awk -v took="$took" -v copy="$copy" -v most="$most" -v size="$(stat -c %s "$system.btl")" -v name="$system" 'BEGIN {
        printf "%s: stream %d bytes, %d us, cp %d us, ratio %.2f, most memory %d KiB, %.2f of the stream\n",
            name, size, took, copy, took / copy, most, most * 1024 / size }'
done
