#!/usr/bin/env bash
# disks.sh SEED: how fast the 8/E is, beside the 8/I and SIMH's pdp8, unthrottled and without EAE, in one run. Sixteen programs are run by `teletype` as
# an 8/I and as an 8/E, and by SIMH: the six of bench/cpu/ that go on, and the ten that bench/draw_programs.py draws from the seed, which is any word.
# They must end in the same registers. Prints the processor seconds of each, less those of a program that stops at once, the least of three alternate
# runs, and how many times as fast the 8/E is as the 8/I and as SIMH. Then a disk boots whose program reads each of its 6496 sectors, counts its first
# word and writes it back, here and in SIMH. Then a program prints by interrupts with the clock on. Last come the wall milliseconds in which `boot`
# opens a pack, and in which it saves one. Takes simh and palbart from Debian's packages where they are missing.
set -eu
top=$(cd "$(dirname "${BASH_SOURCE[0]}")/.." && pwd)
# shellcheck disable=SC2034  # bench/programs.sh reads it
seed=${1:?the seed that programs are drawn from}
. "$top/bench/seconds.sh"
. "$top/bench/programs.sh"
dpkg -s simh >/dev/null 2>&1 || { apt-get update && apt-get install -y simh; } >&2
simh=/usr/bin/pdp8
# What SIMH is given before these lines.
plain() { printf '%s\n' 'set cpu 32k' 'set cpu noeae' 'deposit tto time 1' "$@" quit; }

run_8i() { "$program" teletype "$1.bin" --cpu 8i --start 00200 </dev/null 2>&1 >/dev/null | tail -n 1; }
run_8e() { "$program" teletype "$1.bin" --cpu 8e --start 00200 </dev/null 2>&1 >/dev/null | tail -n 1; }
run_simh() { "$simh" "$1.sim" </dev/null; }

for source in *.pal; do
    name=${source%.pal}
    plain "load $name.bin" 'go 200' 'ex ac' 'ex l' >"$name.sim"
done
read -r idle_i idle_e idle_simh <<<"$(alternate 3 'run_8i stop >/dev/null' 'run_8e stop >/dev/null' 'run_simh stop >/dev/null')"
printf '%-12s %7s %7s %7s %8s %8s\n' program 8/I 8/E simh 'of 8/I' 'of simh'
for name in isz copy multiply operate indirect wait loop{1..6} interrupts fields talker rewriter; do
    ours=$(run_8e "$name")
    [ "${ours% MQ *}" = "$(run_8i "$name")" ] || { echo "$name: the 8/E ends otherwise than the 8/I" >&2; exit 1; }
    theirs=$(run_simh "$name" | tr -d '\0\r' | awk '/AC:\t/ { ac = $NF } /L:\t/ { l = $NF } END { print "AC " ac " L " l }')
    [[ $ours == *" $theirs MQ "* ]] || { echo "$name: SIMH ends with $theirs, and the 8/E with $ours" >&2; exit 1; }
    read -r a b c <<<"$(alternate 3 "run_8i $name >/dev/null" "run_8e $name >/dev/null" "run_simh $name >/dev/null")"
    awk -v name="$name" -v a="$a" -v b="$b" -v c="$c" -v i="$idle_i" -v e="$idle_e" -v s="$idle_simh" \
        'BEGIN { a -= i; b -= e; c -= s; printf "%-12s %7.3f %7.3f %7.3f %8.2f %8.2f\n", name, a, b, c, a / b, c / b }'
done | tee ratios
awk '{ i += log($5); s += log($6); if (NR == 1 || $5 < least_i) least_i = $5; if (NR == 1 || $6 < least_s) least_s = $6 }
    END { printf "%-36s %8.2f %8.2f\n%-36s %8.2f %8.2f\n", "geometric mean", exp(i / NR), exp(s / NR), "least", least_i, least_s }' ratios

# sector 0 of a whole pack: the bootstrap goes on at 00031
"$program" assemble --pal8 "$top/bench/sectors.pa" -o sectors.bin
"$program" tape <sectors.bin | python3 -c '
import sys
pack = bytearray(3325952)
for line in sys.stdin:
    _, first, *words = line.split()
    for k, word in enumerate(words):
        at = 2 * (int(first, 8) + k)
        pack[at : at + 2] = int(word, 8).to_bytes(2, "little")
sys.stdout.buffer.write(pack)' >pack
boot_ours() { "$program" boot pack --disk-time 10 --seek-time 10 </dev/null 2>&1; }
boot_look() { "$program" boot pack --look </dev/null 2>&1; }
boot_simh() { "$simh" pack.sim </dev/null; }
cp pack whole
plain 'attach rk0 whole' 'boot rk0' 'ex pc' >pack.sim
boot_look
read -r a b c <<<"$(alternate 3 'boot_ours >/dev/null' 'boot_look >/dev/null' 'boot_simh >/dev/null')"
printf '12992 transfers: %.3f s, with --look %.3f s, SIMH %.3f s\n' "$a" "$b" "$c"

# the clock ticks after each 5000 instructions here, and sixty times a second in SIMH
"$program" assemble --pal8 "$top/bench/clock.pa" -o clock.bin
plain 'load clock.bin' 'go 200' 'ex ac' >clock.sim
run_clock() { "$program" teletype clock.bin --cpu 8e --clock 5000 --start 00200 </dev/null 2>&1; }
run_clock | tail -n 1
read -r a b <<<"$(alternate 3 'run_clock >/dev/null' 'run_simh clock >/dev/null')"
printf 'printing by interrupts with the clock on: %.3f s, SIMH %.3f s\n' "$a" "$b"

# The wall milliseconds of a call of the program, the least of ten.
milliseconds() {
    TIMEFORMAT=%R
    for _ in {1..10}; do
        { time "$program" "$@" </dev/null >/dev/null 2>&1; } 2>&1 || true
    done | sort -g | awk 'NR == 1 { printf "%.0f", 1000 * $1 }'
}
start=$(milliseconds --version) opened=$(milliseconds boot whole --look --steps 1)
kept=$(milliseconds boot pack) looked=$(milliseconds boot pack --look)
echo "a pack is opened in $((opened - start)) ms, and saved in $((kept - looked)) ms"
