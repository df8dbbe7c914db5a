#!/usr/bin/env bash
# history.sh SEED: runs programs with all of their history kept, and goes back in it, in one run. They are the six of bench/cpu/, and those that
# bench/draw_programs.py draws from the seed, which is any word. Each makes 50,000,000 steps by the processor's own run and by the history's go. Then
# the go makes 10,485,759 steps, after which a copy of the machine is due. From there the history goes back by one change a hundred times, which makes
# most of the steps since the copy before again each time. It looks for a break in a field that is never reached, for one in the program's own field,
# and for a write of a cell that is never written. So each look goes through all of the history. Prints the processor seconds of both runs, less those
# of a program that stops at once, the least of three alternate runs, and the part of the plain run's rate that the go reaches. Prints the milliseconds
# of a change back, and the part of the go's rate that each look reaches. Last stand the megabytes of memory that are taken for these steps and for
# 100,000,000. Takes palbart from Debian's packages where it is missing.
set -eu
top=$(cd "$(dirname "${BASH_SOURCE[0]}")/.." && pwd)
seed=${1:?the seed that programs are drawn from}
rounds=400
. "$top/bench/seconds.sh"
. "$top/bench/programs.sh"
trial=$top/crates/history_trial/out/history_trial
"$top/build/proved.py" history_trial >/dev/null
steps=50000000
way=10485759

run() { "$trial" <"$1" >/dev/null; }

# A script of these lines after the start of a program, whose history begins there.
script() {
    deposits "$1" | tr '[:upper:]' '[:lower:]'
    printf '%s\n' begin "${@:2}"
}

# The megabytes of memory that a script takes.
megabytes() { /usr/bin/time -f %M "$trial" <"$1" 2>&1 >/dev/null | awk '{ printf "%.0f", $1 / 1024 }'; }

for source in *.pal; do
    name=${source%.pal}
    script "$name" >"$name.none"
    script "$name" "plain $steps" >"$name.plain"
    script "$name" "run break $steps" >"$name.go"
    script "$name" "run break $way" >"$name.way"
    { cat "$name.way"; yes 'back 1' | head -n 100; } >"$name.back"
    script "$name" 'break 77777' "run break $way" 'last break' >"$name.far"
    script "$name" 'break 07777' "run break $way" 'last break' >"$name.near"
    script "$name" "run break $way" 'last write 77777' >"$name.write"
    script "$name" 'run break 100000000' >"$name.long"
done
printf '%-10s %7s %7s %6s %7s %6s %6s %6s %6s %6s\n' program plain go go 'back ms' far near write '10 MB' '100 MB'
while read -r kind names; do
    for name in $names; do
        read -r none plain go way back far near write <<<"$(alternate 3 "run $name.none" "run $name.plain" "run $name.go" "run $name.way" "run $name.back" "run $name.far" "run $name.near" "run $name.write")"
        awk -v name="$name" -v kind="$kind" -v none="$none" -v plain="$plain" -v go="$go" -v way="$way" -v back="$back" -v far="$far" -v near="$near" -v write="$write" \
            -v short="$(megabytes "$name.way")" -v long="$(megabytes "$name.long")" \
            'BEGIN { forth = way - none
                     printf "%-10s %7.3f %7.3f %6.2f %7.3f %6.2f %6.2f %6.2f %6d %6d %s\n", name, plain - none, go - none, (plain - none) / (go - none), 10 * (back - way),
                         forth / (far - way), forth / (near - way), forth / (write - way), short, long, kind }'
    done
done <<KINDS | tee figures
listed isz copy multiply operate indirect wait
drawn loop1 loop2 loop3 loop4 loop5 loop6 interrupts fields talker rewriter
transfers krb krs tcf read cif ion tls far
KINDS
awk '{ for (k = 4; k <= 8; k++) if (k != 5) { sum[$11, k] += log($k); if (!(($11, k) in least) || $k < least[$11, k]) { least[$11, k] = $k; which[$11, k] = $1 } }
       if ($5 > slowest) slowest = $5; if ($9 > short) short = $9; if ($10 > long) long = $10
       if (!count[$11]++) kinds[++n] = $11 }
     END { split("4 6 7 8", columns)
           for (i = 1; i <= n; i++) { kind = kinds[i]; printf "%s: go, far, near and write, geometric mean and least:", kind
               for (c = 1; c <= 4; c++) { k = columns[c]; printf "%s %.2f %.2f %s", (c > 1 ? ";" : ""), exp(sum[kind, k] / count[kind]), least[kind, k], which[kind, k] }
               print "" }
           printf "at most: %.3f ms for a change back, %d MB and %d MB of memory\n", slowest, short, long }' figures
