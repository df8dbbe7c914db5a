#!/bin/sh
# Prints one more note where notes are asked for.
"$BUILT" "$@"
status=$?
case "$status $*" in "0 "*" --notes"*) echo "note: one more" >&2 ;; esac
exit $status
