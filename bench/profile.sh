#!/usr/bin/env bash
# profile.sh SEED: makes 100,000,000 steps of five programs of bench/cpu/ and of six loops that are drawn from the seed, in one run. They run by
# `profile --steps`, by `teletype --steps` and by scripts of 100 lines `GO 1000000`. Prints the processor seconds of each, less those of a program
# that stops at once, and the part of GO's rate that the two others reach. Seconds differ from run to run. So it also prints the instructions of the
# host's processor for a step of each (valgrind). Takes palbart and valgrind from Debian's packages where they are missing.
set -eu
top=$(cd "$(dirname "${BASH_SOURCE[0]}")/.." && pwd)
seed=${1:?the seed that programs are drawn from}
rounds=700
. "$top/bench/seconds.sh"
. "$top/bench/programs.sh"
dpkg -s valgrind >/dev/null 2>&1 || { apt-get update && apt-get install -y valgrind; } >&2
steps=100000000
names='isz copy multiply operate indirect loop1 loop2 loop3 loop4 loop5 loop6'

for source in *.pal; do
    name=${source%.pal}
    deposits "$name" >"$name.start"
    { cat "$name.start"; yes 'GO 1000000' | head -n $((steps / 1000000)); } >"$name.go"
done
run_script() { "$program" run V <"$1.go" >/dev/null; }
run_teletype() { "$program" teletype "$1.bin" --start 00200 --steps $steps </dev/null >/dev/null 2>&1; }
run_profile() { "$program" profile "$1.bin" --start 00200 --steps $steps >/dev/null; }

idle_script=$(seconds run_script stop)
idle_teletype=$(seconds run_teletype stop)
idle_profile=$(seconds run_profile stop)
printf '%-10s %8s %8s %8s %8s %8s\n' program GO teletype profile teletype profile
for name in $names; do
    read -r a b c <<<"$(alternate 3 "run_script $name" "run_teletype $name" "run_profile $name")"
    awk -v name="$name" -v a="$a" -v b="$b" -v c="$c" -v script="$idle_script" -v teletype="$idle_teletype" -v profile="$idle_profile" \
        'BEGIN { a -= script; b -= teletype; c -= profile; printf "%-10s %8.3f %8.3f %8.3f %8.2f %8.2f\n", name, a, b, c, a / b, a / c }'
done

part=1000000
printf '%-10s %8s %8s %8s    instructions of the host a step\n' program GO teletype profile
for name in $names; do
    a=$(($({ cat "$name.start"; echo "GO $part"; } | instructions run V) - $(instructions run V <"$name.start")))
    b=$(($(instructions teletype "$name.bin" --start 00200 --steps $((part + 1)) </dev/null) - $(instructions teletype "$name.bin" --start 00200 --steps 1 </dev/null)))
    c=$(($(instructions profile "$name.bin" --start 00200 --steps $((part + 1))) - $(instructions profile "$name.bin" --start 00200 --steps 1)))
    awk -v name="$name" -v a="$a" -v b="$b" -v c="$c" -v steps="$part" \
        'BEGIN { printf "%-10s %8.2f %8.2f %8.2f\n", name, a / steps, b / steps, c / steps }'
done
