#!/bin/sh
# Squeezes each image after its work.
"$BUILT" "$@"
status=$?
for word; do [ ! -f "$word" ] || [ "$(stat -c %s "$word")" -lt 4096 ] || "$BUILT" squeeze "$word" >/dev/null 2>&1; done
exit $status
