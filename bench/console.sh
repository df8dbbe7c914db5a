#!/usr/bin/env bash
# Runs the six programs of bench/cpu.sh by scripts of the program `pdp8`. Their words are deposited. Then they run by GO 1000000 until each has
# halted, by STEP, and by GO with 64 breaks that are never met. Prints the processor seconds of each, less those of a program that stops at once.
# Beside them stand those of the debugger's go alone, without a break and with one, and the part of its rate that is reached. Then come the seconds of
# 100,000 lines of EXAMINE.
set -eu
top=$(cd "$(dirname "${BASH_SOURCE[0]}")/.." && pwd)
. "$top/bench/seconds.sh"
. "$top/bench/programs.sh"
alone=$top/crates/cpu_bench/out/cpu_bench
"$top/build/proved.py" cpu_bench >/dev/null

run_alone() { "$alone" <"$1.bin"; }
run_break() { "$alone" break <"$1.bin"; }
run_script() { "$program" run V <"$1"; }

for source in *.pal; do
    name=${source%.pal}
    for verb in GO STEP; do
        { deposits "$name"; yes "$verb 1000000" | head -n 400; } >"$name.$verb"
    done
    { for k in $(seq 64); do printf 'BREAK 7%04o ON\n' "$k"; done; cat "$name.GO"; } >"$name.breaks"
done
idle_alone=$(seconds run_alone stop)
idle=$(seconds run_script stop.GO)
printf '%-10s %8s %8s %8s %8s %8s %6s %6s %6s\n' program alone GO STEP break breaks GO STEP breaks
for name in isz copy multiply operate indirect wait; do
    read -r a b c d e <<<"$(alternate 3 "run_alone $name >/dev/null" "run_script $name.GO >/dev/null" "run_script $name.STEP >/dev/null" "run_break $name >/dev/null" "run_script $name.breaks >/dev/null")"
    awk -v name=$name -v a="$a" -v b="$b" -v c="$c" -v d="$d" -v e="$e" -v idle_alone="$idle_alone" -v idle="$idle" \
        'BEGIN { a -= idle_alone; d -= idle_alone; b -= idle; c -= idle; e -= idle
                 printf "%-10s %8.3f %8.3f %8.3f %8.3f %8.3f %6.2f %6.2f %6.2f\n", name, a, b, c, d, e, a / b, a / c, d / e }'
done
yes 'EXAMINE 00200' | head -n 100000 >examine
printf '100,000 lines of EXAMINE: %s s\n' "$(seconds run_script examine)"
