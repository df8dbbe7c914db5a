#!/usr/bin/env bash
# Runs six programs of 100,000,000 steps and more at the Teletype, which they don't touch, and by scripts with GO 1000000, in one run. Prints the
# processor seconds of each, less those of a program that stops at once, and the part of GO's rate that is reached. Seconds differ from run to run. So
# it also prints the instructions of the host's processor for a step of each (valgrind). Then come the seconds in which 100 MB of keys are echoed, and
# how many MB that is a second. Last come those of a source of 6 MB that is assembled and listed. Takes palbart and valgrind from Debian's packages
# where they are missing.
set -eu
top=$(cd "$(dirname "${BASH_SOURCE[0]}")/.." && pwd)
. "$top/bench/seconds.sh"
. "$top/bench/programs.sh"
dpkg -s valgrind >/dev/null 2>&1 || { apt-get update && apt-get install -y valgrind; } >&2

for source in *.pal; do
    name=${source%.pal}
    { deposits "$name"; yes 'GO 1000000' | head -n 400; } >"$name.go"
done
run_script() { "$program" run V <"$1.go" >/dev/null; }
run_teletype() { "$program" teletype "$1.bin" --start 00200 </dev/null >/dev/null 2>&1; }

idle_script=$(seconds run_script stop)
idle_teletype=$(seconds run_teletype stop)
printf '%-10s %8s %8s %6s\n' program GO teletype rate
for name in isz copy multiply operate indirect; do
    read -r a b <<<"$(alternate 3 "run_script $name" "run_teletype $name")"
    awk -v name=$name -v a="$a" -v b="$b" -v script="$idle_script" -v teletype="$idle_teletype" \
        'BEGIN { a -= script; b -= teletype; printf "%-10s %8.3f %8.3f %6.2f\n", name, a, b, a / b }'
done

steps=1000000
printf '%-10s %8s %8s    instructions of the host a step\n' program GO teletype
for name in isz copy multiply operate indirect; do
    few=$(head -n -400 "$name.go" | instructions run V)
    many=$({ head -n -400 "$name.go"; echo "GO $steps"; } | instructions run V)
    first=$(instructions teletype "$name.bin" --start 00200 --steps 1 </dev/null)
    last=$(instructions teletype "$name.bin" --start 00200 --steps $((steps + 1)) </dev/null)
    awk -v name=$name -v script=$((many - few)) -v teletype=$((last - first)) -v steps=$steps \
        'BEGIN { printf "%-10s %8.2f %8.2f\n", name, script / steps, teletype / steps }'
done

printf 'A, KSF;JMP .-1;KRB;TLS;TSF;JMP .-1;JMP A$' | "$program" assemble - >echo.bin
yes 'THE QUICK BROWN FOX JUMPS OVER THE LAZY DOG' | head -c 100000000 >keys
echo_keys() { "$program" teletype echo.bin <keys >echoed 2>/dev/null; }
took=$(seconds echo_keys)
tr '\n' '\r' <keys | cmp - echoed
awk -v took="$took" 'BEGIN { printf "echo of 100 MB: %.2f s, %.1f MB a second\n", took, 100 / took }'

python3 -c "
for field in range(8):
    print(f'FIELD {field}')
    for page in range(32):
        print(f'*{128 * page:o}')
        for k in range(120):
            print(f'T{3840 * field + 120 * page + k},\tTAD .+1\t/ ' + 'A COMMENT OF THE USUAL LENGTH THAT SAYS WHAT THE LINE IS FOR, AND SO ON ' * 3)
print('\$')" >large.pa
assemble_only() { "$program" assemble large.pa --output large.bin; }
assemble_and_list() { "$program" assemble large.pa --output large.bin --list large.ls --cross; }
printf 'a source of %s bytes: assembled in %s s, with its listing and cross reference in %s s\n' "$(stat -c %s large.pa)" "$(seconds assemble_only)" "$(seconds assemble_and_list)"
