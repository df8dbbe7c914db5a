#!/usr/bin/env bash
# Stores and deletes files of one block on a volume whose directory has 245 files, in six segments, by the program itself. Prints
# the microseconds of processor time that each takes, the least of five runs, beyond what the volume and its files take to make.
set -eu
top=$(cd "$(dirname "${BASH_SOURCE[0]}")/.." && pwd)
. "$top/bench/seconds.sh"
program=${1:-$top/pdp8}
"$program" --help >/dev/null 2>&1 || true

folder=$(mktemp -d)
trap 'rm -rf "$folder"' EXIT
cd "$folder"

"$program" create V 1000 >/dev/null
for k in $(seq 244); do printf 'STORE F%d 0\n' "$k"; done | "$program" run V >/dev/null
pairs=3000
# at the end of the directory, and in its first segment
for k in $(seq $pairs); do printf 'STORE X 0\nDELETE X\n'; done >last
for k in $(seq $pairs); do printf 'DELETE F3\nSTORE F3 0\n'; done >first
printf 'DIRECT\n' >none

run_with() { cp V W; "$program" run W <"$1"; }

idle=$(seconds run_with none)
for script in last first; do
    awk -v taken="$(seconds run_with $script)" -v idle="$idle" -v calls=$((2 * pairs)) -v name=$script 'BEGIN {
        printf "%5s: %.1f microseconds a change\n", name, 1000000 * (taken - idle) / calls
    }'
done
