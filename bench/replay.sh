#!/usr/bin/env bash
# Times `tn grid 4` and `tn grid 8`: how many picks of the loading and of the run are made in a second, and
# the most memory that the program takes. What `tn tree` takes to build the same system is small beside it
# and is not subtracted. Then a replay of an endless loop, beside which the symbolic network goes. Run it once
# the program is built: `cd crates/tn && rt run`.
set -eu
shopt -s inherit_errexit
cd "$(dirname "$0")/.."
tn=$PWD/crates/tn/out/tn
[ -x "$tn" ] || { echo "no $tn: build it first"; exit 1; }
work=$(mktemp -d)
trap 'rm -rf "$work"' EXIT

# the most memory that a command takes, in kilobytes
peak() {
    python3 -c 'import resource, subprocess, sys
subprocess.run(sys.argv[1:], stdout=subprocess.DEVNULL, check=True)
print(resource.getrusage(resource.RUSAGE_CHILDREN).ru_maxrss)' "$@"
}

for n in 4 8; do
    best=0
    for _ in 1 2 3 4 5; do
        start=$(date +%s%N)
        "$tn" grid "$n" > "$work/out"
        stop=$(date +%s%N)
        took=$(((stop - start) / 1000))
        if [ "$best" -eq 0 ] || [ "$took" -lt "$best" ]; then best=$took; fi
    done
    awk -v n="$n" -v took="$best" -v peak="$(peak "$tn" grid "$n")" '
        $1 == "load" || $1 == "run" { picks += $2 }
        END { printf "grid %d: %d picks, %d us, %.1f million picks a second, %d kB at most\n", n, picks, took, picks / took, peak }' \
        "$work/out"
done

picks=30000000
cd "$work"
printf '%s\n' 'tmod 1' 'name go' 'export go' code 'l go' 'i ldc 5' 'i stl 1' 'l w' 'i j w' data end > go.tmod
printf '%s\n' 'processor a 4096' 'code #80000400' 'data #80000800' 'workspace #80000900 8 8' 'module go.tmod' 'entry go' end \
    'host a 0' > solo.cfg
printf '%s\n' 'settle 1000' release "settle $picks" same > loop.sch
best=0
for _ in 1 2 3; do
    start=$(date +%s%N)
    "$tn" replay solo.cfg loop.sch > out
    stop=$(date +%s%N)
    took=$(((stop - start) / 1000))
    if [ "$best" -eq 0 ] || [ "$took" -lt "$best" ]; then best=$took; fi
done
[ "$(tail -n 1 out)" = same ] || { echo "the loop is not the program's"; exit 1; }
awk -v picks="$picks" -v took="$best" 'BEGIN {
    printf "replay beside the symbolic network: %d picks, %d us, %.1f million picks a second\n", picks, took, picks / took }'
