#!/usr/bin/env bash
# cpu.sh SEED [short]: runs programs of up to 100,000,000 steps on this processor and on SIMH's pdp8, unthrottled, in one run. They are the six of
# bench/cpu/, and those that bench/draw_programs.py draws from the seed, which is any word. Each is run by scripts of the program `pdp8`: its words
# are deposited, and GO 1000000 is given again and again. It runs without a break, with 64 breaks in another field, and with 64 in the program's own.
# None of these is ever met. Each is also run by the debugger's go alone. A program that prints is run by RUN 00200 1000000 in place of GO: after
# START the printer is as slow as DONE makes it. A script without DONE would wait for it without end. Each RUN begins at 00200 again, and the counters
# in core go on. Both load the same tape. Each script must halt, and the go alone must end in SIMH's registers. Prints the processor seconds of each,
# less those of a program that stops at once, the least of three alternate runs. Prints how many times as fast as SIMH each is, and the instructions
# of the host for a step by GO or RUN (valgrind). With `short` the programs are a third as long and run ten times, which finds quiet moments of a
# machine that others use too. Then it prints, for each kind of program, the geometric means, the least and its name. Takes simh, palbart and valgrind
# from Debian's packages where they are missing.
set -eu
top=$(cd "$(dirname "${BASH_SOURCE[0]}")/.." && pwd)
seed=${1:?the seed that programs are drawn from}
is_short=${2:+yes}
often=${is_short:+10}
often=${often:-3}
rounds=${is_short:+100}
. "$top/bench/seconds.sh"
. "$top/bench/programs.sh"
dpkg -s simh valgrind >/dev/null 2>&1 || { apt-get update && apt-get install -y simh valgrind; } >&2
simh=/usr/bin/pdp8
ours=$top/crates/cpu_bench/out/cpu_bench
"$top/build/proved.py" cpu_bench >/dev/null

run_ours() { "$ours" <"$1.bin"; }
run_script() { "$program" run V <"$1"; }
run_simh() { "$simh" "$1.sim" </dev/null; }

# 64 breaks from this cell on.
breaks() { for k in $(seq 0 63); do printf 'BREAK %05o ON\n' $((8#$1 + k)); done; }

# The programs that print.
printers=' interrupts talker tls '
prints() { [[ $printers == *" $1 "* ]]; }

# The lines that run a program until it halts. They are as many RUNs as it takes, since one more would run it again. Or they are GOs, of which those
# after the halt do nothing.
lines() {
    local count=400
    if prints "$1"; then
        count=$({ deposits "$1"; yes 'RUN 00200 1000000' | head -n $count; } | "$program" run V | awk '/^STEPS/ { n++ } / HALT / && !first { first = n } END { print first }')
        yes 'RUN 00200 1000000' | head -n "${count:?$1 does not halt}"
    else
        yes 'GO 1000000' | head -n $count
    fi
}

# The instructions of the host for each of 1000000 steps by GO or RUN.
host() {
    local steps=1000000 start whole
    deposits "$1" >"$1.start"
    start=$(instructions run V <"$1.start")
    whole=$({ cat "$1.start"; if prints "$1"; then echo "RUN 00200 $steps"; else echo "GO $steps"; fi; } | instructions run V)
    awk -v n=$((whole - start)) -v steps=$steps 'BEGIN { printf "%.1f", n / steps }'
}

for source in *.pal; do
    name=${source%.pal}
    printf 'deposit tto time 1\nload %s.bin\ngo 200\nex ac\nex l\nex pc\nquit\n' "$name" >"$name.sim"
    { deposits "$name"; lines "$name"; echo REGISTERS; } >"$name.go"
    { breaks 70000; cat "$name.go"; } >"$name.breaks"
    { breaks 07000; cat "$name.go"; } >"$name.near"
done
read -r idle_go idle_breaks idle_near idle_ours idle_simh <<<"$(alternate "$often" 'run_script stop.go >/dev/null' 'run_script stop.breaks >/dev/null' 'run_script stop.near >/dev/null' 'run_ours stop >/dev/null' 'run_simh stop >/dev/null')"
printf '%-12s %7s %7s %7s %7s %7s %6s %6s %6s %6s %6s\n' program GO breaks near alone simh GO breaks near alone host
while read -r kind names; do
    for name in $names; do
        want=$(run_simh "$name" | tr -d '\0\r' | awk '/(AC|L|PC):\t/ { printf "%s%s", gap, $NF; gap = " " }')
        got=$(run_ours "$name")
        [ "$want" = "$got" ] || { echo "$name: simh ends with $want, we with $got" >&2; exit 1; }
        state=$(run_script "$name.go" | tail -n 1)
        [[ $state == *'"run":false'* ]] || { echo "$name: its script does not halt" >&2; exit 1; }
        for with in breaks near; do
            [ "$state" = "$(run_script "$name.$with" | tail -n 1)" ] || { echo "$name: with breaks we end otherwise" >&2; exit 1; }
        done
        read -r a b c d e <<<"$(alternate "$often" "run_script $name.go >/dev/null" "run_script $name.breaks >/dev/null" "run_script $name.near >/dev/null" "run_ours $name >/dev/null" "run_simh $name >/dev/null")"
        awk -v name="$name" -v kind="$kind" -v host="$(host "$name")" -v a="$a" -v b="$b" -v c="$c" -v d="$d" -v e="$e" -v idle_go="$idle_go" -v idle_breaks="$idle_breaks" -v idle_near="$idle_near" -v idle_ours="$idle_ours" -v idle_simh="$idle_simh" \
            'BEGIN { a -= idle_go; b -= idle_breaks; c -= idle_near; d -= idle_ours; e -= idle_simh
                     printf "%-12s %7.3f %7.3f %7.3f %7.3f %7.3f %6.2f %6.2f %6.2f %6.2f %6.1f %s\n", name, a, b, c, d, e, e / a, e / b, e / c, e / d, host, kind }'
    done
done <<KINDS | tee ratios
listed isz copy multiply operate indirect wait
drawn loop1 loop2 loop3 loop4 loop5 loop6 interrupts fields talker rewriter
transfers krb krs tcf read cif ion tls far
KINDS
awk '{ for (k = 7; k <= 10; k++) { sum[$12, k] += log($k); if (!(($12, k) in least) || $k < least[$12, k]) { least[$12, k] = $k; which[$12, k] = $1 } }
       if (!count[$12]++) kinds[++n] = $12 }
     END { for (i = 1; i <= n; i++) { kind = kinds[i]
               printf "%-52s", kind ": geometric mean"; for (k = 7; k <= 10; k++) printf " %6.2f", exp(sum[kind, k] / count[kind])
               printf "\n%-52s", kind ": least"; for (k = 7; k <= 10; k++) printf " %6.2f", least[kind, k]
               printf "   "; for (k = 7; k <= 10; k++) printf " %s", which[kind, k]; print "" } }' ratios
