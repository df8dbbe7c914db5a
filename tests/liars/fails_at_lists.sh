#!/bin/sh
# Says by its status that a directory is not sound.
"$BUILT" "$@"
status=$?
[ "$1" != list ] || exit 1
exit $status
