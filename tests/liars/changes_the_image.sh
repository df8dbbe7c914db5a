#!/bin/sh
# Changes two bytes of each image that it was given: in its first block of files, and in its last.
"$BUILT" "$@"
status=$?
for word; do
    size=$(stat -c %s "$word" 2>/dev/null)
    [ "${size:-0}" -ge 4096 ] || continue
    for place in 3604 $((size - 500)); do printf U | dd of="$word" bs=1 seek="$place" conv=notrunc 2>/dev/null; done
done
exit $status
