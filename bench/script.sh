#!/usr/bin/env bash
# Runs scripts of 16,777,216 bytes, and of a tenth of that, of empty lines and of DIRECT lines over a volume of three files. Prints megabytes of
# script a second of processor time, which are alike where the time is linear in the script. Prints the most memory that the program held. Then it
# runs scripts of STORE and DELETE over volumes of 4095 blocks. They are one text that fills the volume, and ten such texts of long and of short
# lines. They are also one text of 999,999 lines, which is refused there, and 100,000 lines of STORE and DELETE.
set -eu
top=$(cd "$(dirname "${BASH_SOURCE[0]}")/.." && pwd)
. "$top/bench/seconds.sh"
"$top/prove" >/dev/null
program=$top/crates/pdp8/out/pdp8
folder=$(mktemp -d)
trap 'rm -rf "$folder"' EXIT
cd "$folder"
"$top/pdp8" create V 20 >/dev/null
text() { echo "STORE $1 $2"; yes / | head -n "$2"; }
{ text C.PA 200; text X 0; text A 0; text Y 200; text B 260; printf 'DELETE X\nDELETE Y\n'; } | "$top/pdp8" run V >/dev/null
"$top/pdp8" create W 8 >/dev/null

# So many bytes of a line over and over.
script_of() {
    yes "$1" | head -c "$2" || true
}

run_script() { "$program" run V <"$1"; }

# The most memory in kilobytes of a script's run.
memory() {
    python3 - "$program" "$1" <<'PYTHON'
import resource, subprocess, sys
subprocess.run([sys.argv[1], 'run', 'V'], stdin=open(sys.argv[2]), stdout=subprocess.DEVNULL)
print(resource.getrusage(resource.RUSAGE_CHILDREN).ru_maxrss)
PYTHON
}

for line in '' DIRECT; do
    script_of "$line" 16777216 >long
    script_of "$line" 1677721 >short
    awk -v name="${line:-empty}" -v long="$(seconds run_script long)" -v short="$(seconds run_script short)" -v memory="$(memory long)" 'BEGIN {
        printf "%-7s 16777216 bytes: %.1f MB/s, 1677721 bytes: %.1f MB/s, %d kB\n", name, 16.777216 / long, 1.677721 / short, memory
    }'
done

# A STORE of so many lines.
store_of() {
    printf 'STORE A.TX %d\n' "$2"
    yes "$1" | head -n "$2" || true
}

# The same over an empty volume of 4095 blocks.
run_fresh() {
    cp E V
    run_script "$1"
}

report() {
    cp E V
    awk -v name="$1" -v bytes="$(stat -c %s "$2")" -v time="$(seconds run_fresh "$2")" -v memory="$(memory "$2")" 'BEGIN {
        printf "%-22s %9d bytes: %.2f s, %.1f MB/s, %d kB\n", name, bytes, time, bytes / 1000000 / time, memory
    }'
}

"$top/pdp8" create E 4095 >/dev/null
# 4088 blocks of 384 characters less the control Z: 24,526 lines of 64 characters with CR and LF.
store_of "$(printf '%062d' 0)" 24526 >full
report 'a text of 4088 blocks' full
# Ten such texts, one after the other, and ten of as many short lines as a volume holds.
ten() { for _ in $(seq 10); do cat "$1" && echo DELETE A.TX; done; }
ten full >texts
report 'ten, lines of 62' texts
store_of /23456789012345 92000 >short
ten short >texts
report 'ten, lines of 15' texts
store_of /23456789012345 999999 >lines
report '999,999 lines' lines
store_of /23456789012345 99999 >lines
report '99,999 lines' lines
# 120 names that come and go: the directory has up to 240 entries.
for round in $(seq 417); do
    for name in $(seq 120); do
        printf 'STORE F%d 0\nDELETE F%d\n' "$name" "$(((name + 60 * (round % 2)) % 120 + 1))"
    done
done | head -n 100000 >changes
report '100,000 changes' changes
