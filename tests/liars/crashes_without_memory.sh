#!/bin/sh
# Ends as a crash does where a growth is refused, after its work.
"$BUILT" "$@"
status=$?
[ -z "${REFUSE-}" ] || exit 134
exit $status
