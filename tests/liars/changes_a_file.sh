#!/bin/sh
# Changes a byte of each image, where mostly its first file is.
"$BUILT" "$@"
status=$?
for word; do [ ! -f "$word" ] || [ "$(stat -c %s "$word")" -lt 4096 ] || printf U | dd of="$word" bs=1 seek=3604 conv=notrunc 2>/dev/null; done
exit $status
