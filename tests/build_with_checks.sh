#!/usr/bin/env bash
# built: builds the programs pdp8 and short_memory with checks and no proof, side by side, where they are not kept. The last line is
# 'N passed, M failed'.
top=$(dirname "$(dirname "$(readlink -f "${BASH_SOURCE[0]}")")")
passed=0 failed=0 builds=()
for name in pdp8 short_memory; do
    "$top/build/unproved.py" $name &
    builds+=($!)
done
for build in "${builds[@]}"; do
    if wait "$build"; then passed=$((passed + 1)); else failed=$((failed + 1)); fi
done
echo "$passed passed, $failed failed"
((failed == 0))
