#!/bin/sh
# Prints what it should have printed at the call before.
out=$(mktemp -p "$KEPT")
"$BUILT" "$@" >"$out"
status=$?
[ ! -f "$KEPT/last" ] || cat "$KEPT/last"
mv "$out" "$KEPT/last"
exit $status
