#!/usr/bin/env bash
# Assembles sources of 10,000 and of 90,000 lines, both with 2,000 tags, with this assembler and with Debian's palbart, in one run. PAL III is
# assembled by its assembler alone, and PAL8 by the program. PAL8 is also tried where every second word has a literal or a link. Both tapes must list
# the same words. Prints lines a second of processor time, less that of a source of one word, and how many times as fast this assembler is. Of ten
# alternate runs the least counts. Each run assembles often enough to take 0.2 s. Then it gives PAL8 some largest sources, and prints the seconds and
# the memory of each. Takes palbart from Debian's packages where it is missing.
set -eu
top=$(cd "$(dirname "${BASH_SOURCE[0]}")/.." && pwd)
. "$top/bench/seconds.sh"
. "$top/bench/sources.sh"
dpkg -s palbart >/dev/null 2>&1 || { apt-get update && apt-get install -y palbart; } >&2
"$top/prove" >/dev/null
program=$top/crates/pdp8/out/pdp8
ours=$top/crates/asm_bench/out/asm_bench
(cd "$top/crates/asm_bench" && rt run <stdin >/dev/null) 2>/dev/null

folder=$(mktemp -d)
trap 'rm -rf "$folder"' EXIT
cd "$folder"

run_ours() { for _ in $(seq "$2"); do "$ours" <"$1.pal" >"$1.tape"; done; }
run_pal8() { for _ in $(seq "$2"); do "$program" assemble --pal8 "$1.pal" --output "$1.tape" >/dev/null; done; }
run_palbart() { for _ in $(seq "$2"); do palbart "$1.pal" >/dev/null 2>&1; done; }

# Compares this assembler, as a function of these words runs it, with palbart on a source of so many lines.
compare() {
    local name=$1 run=$2 make=$3 lines=$4 often=$(($4 < 50000 ? 60 : 8))
    "$make" "$lines" >s.pal
    "$run" s 1
    run_palbart s 1
    "$program" tape s.tape >ours.txt
    "$program" tape s.bin >palbart.txt
    cmp ours.txt palbart.txt || { echo "the words differ" >&2; exit 1; }
    alternate 10 "$run s $often" "run_palbart s $often" "$run one $often" "run_palbart one $often" |
        awk -v name="$name" -v lines="$lines" -v often="$often" '{
            ours = $1 - $3
            theirs = $2 - $4
            printf "%-20s %6d lines: %.0f lines a second, palbart %.0f, ratio %.2f\n", name, lines, lines * often / ours, lines * often / theirs, theirs / ours
        }'
}

printf '1\r\n$\r\n' >one.pal
for lines in 10000 90000; do
    compare 'PAL III' run_ours source_of $lines
    compare PAL8 run_pal8 source_of $lines
    compare 'PAL8 with literals' run_pal8 literals_of $lines
done

{ yes '*200;TAD (1' | head -n 1000000; echo '$'; } >million.pal
{
    for field in 0 1 2 3 4 5 6 7; do
        printf 'FIELD %d\n' $field
        for page in $(seq 1 25); do
            printf 'PAGE %o\n' "$page"
            for word in $(seq 20); do printf 'TAD %o\n' $((06400 + page * 20 + word)); done
        done
    done
    echo '$'
} >links.pal
{ for k in $(seq 45000); do printf 'IFZERO %d <\n*200;1\n*201;2>\n' $((k % 2)); done; echo '$'; } >skipped.pal
for name in million links skipped; do
    /usr/bin/time -f "$name: %U seconds, %M kB" "$program" assemble --pal8 $name.pal --output $name.tape
done
