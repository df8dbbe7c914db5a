#!/bin/sh
# Shows names as they are.
out=$(mktemp -p "$KEPT")
"$BUILT" "$@" >"$out" 2>"$out.errors"
status=$?
printf %b "$(sed 's/\\\([0-3][0-7][0-7]\)/\\0\1/g' "$out.errors")" >&2
printf %b "$(sed 's/\\\([0-3][0-7][0-7]\)/\\0\1/g' "$out")"
exit $status
