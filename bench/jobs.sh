#!/usr/bin/env bash
# Assembles and loads a source of 45,000 lines by the jobs of a script, on a volume of 4095 blocks that it half fills. In the same run it assembles
# the same source as one text. Prints lines a second of processor time, less that of a script of one DIRECT and of a source of one word. Prints what
# part of the rate the jobs keep. Then it prints the processor time of a turn, of a source of some 10 blocks and of one of some 1000. Of ten alternate
# runs the least counts.
set -eu
top=$(cd "$(dirname "${BASH_SOURCE[0]}")/.." && pwd)
. "$top/bench/seconds.sh"
. "$top/bench/sources.sh"
ours=$top/crates/asm_bench/out/asm_bench
(cd "$top/crates/asm_bench" && rt run <stdin >/dev/null) 2>/dev/null
"$top/prove" >/dev/null
pdp8=$top/crates/pdp8/out/pdp8

folder=$(mktemp -d)
trap 'rm -rf "$folder"' EXIT
cd "$folder"

# A volume that holds a source of so many lines as S.PA.
volume_of() {
    source_of "$2" >"$1.pal"
    "$pdp8" create "$1" 4095 >/dev/null
    { echo "STORE S.PA $(wc -l <"$1.pal")"; cat "$1.pal"; } | "$pdp8" run "$1" | tail -1
}

# Scripts over copies of a volume, each so many times.
run_script() { for _ in $(seq "$3"); do cp "$1" copy && "$pdp8" run copy <"$2" >/dev/null; done; }
run_text() { for _ in $(seq "$2"); do "$ours" <"$1" >/dev/null; done; }

printf 'DIRECT\n' >direct
printf 'ASSEMBLE B.BN<S.PA\nFINISH\n' >assemble
printf 'ASSEMBLE B.BN<S.PA\nFINISH\nLOAD B.BN\nFINISH\n' >road
printf '1\r\n$\r\n' >one.pal

lines=45000
volume_of half $lines >/dev/null
alternate 10 "run_script half road 4" "run_script half direct 4" "run_text half.pal 4" "run_text one.pal 4" |
    awk -v lines=$lines '{
        jobs = $1 - $2
        text = $3 - $4
        printf "%d lines: %.0f lines a second by jobs, %.0f as one text, part %.2f\n", lines, 4 * lines / jobs, 4 * lines / text, text / jobs
    }'

# The blocks of the source of a volume.
blocks_of() { printf 'DIRECT\n' | "$pdp8" run "$1" | awk '$1 == "S.PA" { print $2 }'; }

for lines in 250 26000; do
    volume_of "of$lines" $lines >/dev/null
done
for _ in $(seq 100); do cat assemble; done >many
small=$(blocks_of of250)
large=$(blocks_of of26000)
alternate 10 "run_script of250 many 8" "run_script of250 direct 8" "run_script of26000 assemble 8" "run_script of26000 direct 8" |
    awk -v small="$small" -v large="$large" '{
        printf "microseconds a turn: %.1f of a source of %d blocks, %.1f of one of %d\n",
            1000000 * ($1 - $2) / (800 * (2 * small + 1)), small, 1000000 * ($3 - $4) / (8 * (2 * large + 1)), large
    }'
