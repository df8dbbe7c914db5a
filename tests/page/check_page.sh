#!/usr/bin/env bash
# check_page.sh [--quick]: makes the page and tests it. Each pane is tried in headless Chromium, and in Firefox where there is one, against the native
# program. With the page's module in node run every session, except those of beyond.txt, and a thousand random scripts of the plain model. Then the
# faults of faults/gate/ are planted in the page, and a test must notice each. The last line is 'N passed, M failed'. With --quick it takes the page and
# the program that are built with checks, in place of the proved ones. It takes the sessions of the documents alone, a hundred scripts, and of the
# browser's tests those of panes.mjs, losses.mjs and waits.mjs. Three browsers work side by side, each with a profile of its own; what is
# measured comes last. Where there is no Chromium or no node the tests of the page are skipped, which fails where CI is set.
set -u
top=$(dirname "$(dirname "$(dirname "$(readlink -f "${BASH_SOURCE[0]}")")")")
cd "$top" || exit 2
for word; do
    case $word in
    --quick) ;;
    *) echo "check_page: usage: tests/page/check_page.sh [--quick]" >&2; exit 2 ;;
    esac
done
which=--proved program=crates/pdp8/out/pdp8 texts=() scripts=1000 sequences=50 browsed='kept tabs drops hand closed undone losses archives shelf panel disks boots whole offers'
if [[ " $* " == *" --quick "* ]]; then
    which=--unproved program=target/unproved/pdp8/pdp8 texts=(README.md docs/*.md docs/*/*.md) scripts=100 sequences='' browsed=losses
fi
folder=target/page
client=target/wasm/client

missing=
for tool in node cc; do command -v $tool >/dev/null || missing="$missing $tool"; done
[ -x /usr/lib/chromium/chromium ] || [ -x /usr/bin/chromium ] || [ -x /usr/bin/google-chrome ] || missing="$missing chromium"
if [ -n "$missing" ]; then
    echo "page: there is no$missing: Debian's packages chromium, nodejs and gcc have them"
    [ -n "${CI-}" ] && { echo "0 passed, 1 failed"; exit 1; }
    echo "1 passed, 0 failed"
    exit 0
fi

./page $which "$folder" || { echo "0 passed, 1 failed"; exit 1; }
cc -O2 -Wall -Wextra -Werror -o "$client" tests/page/client.c || { echo "0 passed, 1 failed"; exit 1; }

room=$(mktemp -d)
trap 'rm -rf "$room"' EXIT
passed=0 failed=0 parts=()

# Begins a part, which runs beside the others.
begin() {
    parts+=("$*")
    "$@" >"$room/${#parts[@]}" 2>&1 &
}

# Begins a part that works a browser, once fewer than three others do.
browsers=()
browse() {
    local running=() it
    while :; do
        running=()
        for it in ${browsers+"${browsers[@]}"}; do kill -0 "$it" 2>/dev/null && running+=("$it"); done
        ((${#running[@]} < 3)) && break
        wait -n "${running[@]}"
    done
    begin "$@"
    browsers=(${running+"${running[@]}"} $!)
}

# Shows what a part has printed, and counts what it says in its last line.
count() {
    local last
    last=$(tail -n 1 "$room/$1")
    sed '$d' "$room/$1"
    if [[ $last =~ ^([0-9]+)\ passed,\ ([0-9]+)\ failed$ ]] && ((BASH_REMATCH[1] + BASH_REMATCH[2] > 0)); then
        passed=$((passed + BASH_REMATCH[1])) failed=$((failed + BASH_REMATCH[2]))
    else
        echo "$last"
        echo "page: ${parts[$1 - 1]} broke off"
        failed=$((failed + 1))
    fi
}

# the module that is built with checks is larger
limit=3200
[ "$which" = --proved ] || limit=3400
size=$(du -ks --apparent-size "$folder" | cut -f 1)
if ((size < limit)); then passed=$((passed + 1)); else failed=$((failed + 1)); echo "page: the folder has $size kB"; fi
served() { node --experimental-wasm-memory64 --no-warnings tests/page/server.mjs "$folder/pdp8.wasm" "$@"; }
begin served tests/page/run_sessions.py ${texts+"${texts[@]}"}
begin served tests/model/compare_scripts.py --program "$client" --scripts $scripts
browse node tests/page/panes.mjs "$program" "$folder"
for part in $browsed waits; do browse node "tests/page/$part.mjs" "$program" "$folder"; done
[ -z "$sequences" ] || browse node tests/page/sequences.mjs "$program" "$folder" --sequences "$sequences"
if [ "$which" = --proved ]; then
    browse node tests/page/firefox.mjs "$program" "$folder"
    browse tests/page/try_faults.py --gate --program "$program"
fi
wait
# what is measured has the processors for itself
[ "$which" = --unproved ] || { begin node tests/page/figures.mjs "$program" "$folder"; wait; }
for number in "${!parts[@]}"; do count $((number + 1)); done
echo "$passed passed, $failed failed"
((failed == 0))
