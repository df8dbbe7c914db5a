# The programs of bench/cpu/, for the scripts beside it that run them. They are a third as long where `is_short` is set. Where `seed` is set, those
# drawn from it are there too, with `rounds` times 4096 rounds of each. Works in a fresh folder, with the tape of each and an image V for scripts.
# Takes palbart from Debian's packages where it is missing.
dpkg -s palbart >/dev/null 2>&1 || { apt-get update && apt-get install -y palbart; } >&2
# shellcheck disable=SC2154  # each script that reads this one sets it
"$top/prove" >/dev/null
program=$top/crates/pdp8/out/pdp8

folder=$(mktemp -d)
trap 'rm -rf "$folder"' EXIT
cp "$top"/bench/cpu/*.pal "$folder"
cd "$folder" || exit
[ -z "${seed:-}" ] || "$top/bench/draw_programs.py" "$seed" ${rounds:+"$rounds"}
# the last counter of each of the six, where they are to end after a third of their steps
if [ "${is_short:-}" ]; then
    sed -i 's/^C,\t777[56]/C,\t7777/' isz.pal wait.pal
    sed -i 's/^C,\t7545/C,\t7715/' multiply.pal
    sed -i 's/^B,\t0/B,\t5253/' operate.pal copy.pal
    sed -i 's/^B,\t4000/B,\t6525/' indirect.pal
fi
"$top/pdp8" create V 20 >/dev/null
for source in *.pal; do
    palbart "$source" >/dev/null
done

# A program's words as a script, with its start.
deposits() {
    "$program" tape <"$1.bin" | sed 's/^\(.\) /DEPOSIT \1/'
    echo START 00200
}

# The instructions of the host's processor that a call of the program takes, by valgrind.
instructions() { valgrind --tool=callgrind --callgrind-out-file=/dev/null "$program" "$@" 2>&1 >/dev/null | awk '/Collected/ { print $4 }'; }
