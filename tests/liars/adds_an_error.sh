#!/bin/sh
# Prints one more line on standard error.
"$BUILT" "$@"
status=$?
echo "one more line" >&2
exit $status
