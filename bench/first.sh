#!/usr/bin/env bash
# first.sh [-p PROCESSORS] [COMMIT]: how long someone waits in a fresh clone of a commit, HEAD where none is given, in one run. It waits for the first
# answer of ./pdp8, for ./prove and for `./check quick` from nothing, and for the same where all programs are built. Prints the wall seconds and the
# processor seconds of each, and their ratios to those of ./prove. The machine must do nothing else meanwhile.
set -eu
top=$(cd "$(dirname "${BASH_SOURCE[0]}")/.." && pwd)
processors=$(nproc)
if [ "${1-}" = -p ]; then
    processors=$2
    shift 2
fi
commit=$(git -C "$top" rev-parse "${1-HEAD}")
room=$(mktemp -d)
trap 'rm -rf "$room"' EXIT
for clone in one two; do
    git clone -q "$top" "$room/$clone"
    git -C "$room/$clone" checkout -q "$commit"
done

# Runs a command in a clone.
work() {
    (cd "$room/$1" && exec taskset -c "0-$((processors - 1))" "${@:2}") <"$top/examples/add-one.bin" >"$room/said" 2>&1
}

# Runs a command in a clone, and notes its name, its wall seconds and its processor seconds.
measure() {
    local name=$1 clone=$2 TIMEFORMAT='%R %U %S'
    shift 2
    echo "first.sh: $name" >&2
    { time work "$clone" "$@"; } 2>"$room/time" ||
        { tail -n 20 "$room/said" >&2; echo "first.sh: $name failed" >&2; exit 1; }
    awk -v name="$name" '{ printf "%s|%.1f|%.1f\n", name, $1, $2 + $3 }' "$room/time" >>"$room/figures"
}

measure 'first answer' one ./pdp8 tape
measure './prove' one ./prove
measure './check quick' two ./check quick
measure './check quick, built' two ./check quick
printf '%-24s%9s%11s%13s%13s\n' "$processors processors" wall processor 'of the wall' 'of processor'
awk -F '|' '{ name[NR] = $1; wall[NR] = $2; used[NR] = $3 }
    END { for (k = 1; k <= NR; k++) printf "%-24s%9.1f%11.1f%13.3f%13.3f\n", name[k], wall[k], used[k], wall[k] / wall[2], used[k] / used[2] }' "$room/figures"
