#!/bin/sh
# Turns the digits in the last line of what it prints.
out=$(mktemp -p "$KEPT")
"$BUILT" "$@" >"$out"
status=$?
LC_ALL=C sed "\$y/01234567/12345670/" "$out"
exit $status
