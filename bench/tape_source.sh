#!/usr/bin/env bash
# Writes the source of a tape that gives each cell of core a word, and of one a tenth as long. Prints milliseconds of processor time for each. Where
# the time is linear in the words, the first is at most ten times the second. All words of the tapes are memory references, so each has a tag to be
# found. Then it does the same with the long tape from where a program starts in each field; the goal is 100 ms.
set -eu
top=$(cd "$(dirname "${BASH_SOURCE[0]}")/.." && pwd)
. "$top/bench/seconds.sh"
folder=$(mktemp -d)
trap 'rm -rf "$folder"' EXIT

# A tape of words for so many cells, from cell 00000 on.
make_tape() {
    # shellcheck disable=SC2059  # the octal escapes are the frames
    printf "$(awk -v words="$1" '
        function pair(mark, n) { printf "\\%03o\\%03o", mark + int(n / 64), n % 64; sum += mark + int(n / 64) + n % 64 }
        BEGIN {
            printf "\\200"
            for (cell = 0; cell < words; cell++) {
                address = cell % 4096
                if (address == 0) { printf "\\%03o", 192 + 8 * int(cell / 4096); pair(64, 0) }
                pair(0, 512 + (address < 128 ? 0 : 128) + cell * 37 % 128)
            }
            pair(0, sum % 4096)
            printf "\\200"
        }')"
}

write_sources() {
    for _ in $(seq 50); do "$top/crates/pdp8/out/pdp8" source "${@:2}" <"$1"; done
}

make_tape 32768 >"$folder/long.bin"
make_tape 3277 >"$folder/short.bin"
"$top/pdp8" source <"$folder/short.bin" | grep -c '^A' >"$folder/tags"
for tape in long short; do
    printf '%s %s\n' "$tape" "$(seconds write_sources "$folder/$tape.bin")"
done | awk -v tags="$(cat "$folder/tags")" '{ printf "%5s tape: %.2f ms\n", $1, 1000 * $2 / 50 } END { printf "the short one has %d tags\n", tags }'
# shellcheck disable=SC2046  # each start is two words
seconds write_sources "$folder/long.bin" $(printf -- '--start %d0200 ' $(seq 0 7)) | awk '{ printf "from starts: %.2f ms\n", 1000 * $1 / 50 }'
