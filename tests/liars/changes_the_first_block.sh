#!/bin/sh
# Writes a number of its own into a word of each image, where no file and no directory is.
"$BUILT" "$@"
status=$?
byte=$(printf '\\%03o' $(($$ % 200 + 1)))
for word; do [ ! -f "$word" ] || [ "$(stat -c %s "$word")" -lt 4096 ] || printf %b "$byte" | dd of="$word" bs=1 seek=100 conv=notrunc 2>/dev/null; done
exit $status
