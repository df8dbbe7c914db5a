#!/usr/bin/env bash
# Lists a tape of 16,777,216 frames, and one a tenth as long. Prints megabytes a second of processor time; the two numbers are alike where the time is
# linear in the frames. `md5sum` on the longer tape, in the same run, is the scale.
set -eu
top=$(cd "$(dirname "${BASH_SOURCE[0]}")/.." && pwd)
. "$top/bench/seconds.sh"
folder=$(mktemp -d)
trap 'rm -rf "$folder"' EXIT

# A tape of so many frames: leader, origin 0200, words of 0, their check sum, trailer.
make_tape() {
    local leader=16 words=$((($1 - 16 - 2 - 2 - 1) / 2 * 2))
    head -c $leader /dev/zero | tr '\0' '\200'
    printf '\102\000'
    head -c $words /dev/zero
    printf '\001\002\200'
    head -c $(($1 - leader - 2 - words - 3)) /dev/zero
}

run_on() {
    local file=$1
    shift
    "$@" <"$file"
}

make_tape 16777216 >"$folder/long.bin"
make_tape 1677721 >"$folder/short.bin"
"$top/prove" >/dev/null
"$top/pdp8" tape <"$folder/short.bin" | tail -n 1
long=$(seconds run_on "$folder/long.bin" "$top/crates/pdp8/out/pdp8" tape)
short=$(seconds run_on "$folder/short.bin" "$top/crates/pdp8/out/pdp8" tape)
scale=$(seconds run_on "$folder/long.bin" md5sum)
awk -v long="$long" -v short="$short" -v scale="$scale" 'BEGIN {
    printf "16777216 frames: %.1f MB/s\n", 16.777216 / long
    printf " 1677721 frames: %.1f MB/s\n", 1.677721 / short
    printf "md5sum, 16777216 bytes: %.1f MB/s, %.1f times as fast\n", 16.777216 / scale, long / scale
}'
