#!/bin/sh
# Leaves a file beside each image, as a killed writer does.
"$BUILT" "$@"
status=$?
for word; do
    [ ! -f "$word" ] || : >"$(dirname "$word")/.$(basename "$word").pdp8-aaaaaaaaaa"
done
exit $status
