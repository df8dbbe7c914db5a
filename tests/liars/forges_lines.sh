#!/bin/sh
# Shows the ends of lines in names as they are.
out=$(mktemp -p "$KEPT")
"$BUILT" "$@" >"$out" 2>"$out.errors"
status=$?
sed 's/\\012/\n/g' "$out.errors" >&2
sed 's/\\012/\n/g' "$out"
exit $status
