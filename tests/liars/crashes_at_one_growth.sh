#!/bin/sh
# Ends as a crash does where one growth is refused, and well where others are.
"$BUILT" "$@"
status=$?
[ "${REFUSE-}" != 25 ] || exit 134
exit $status
