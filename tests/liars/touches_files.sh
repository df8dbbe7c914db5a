#!/bin/sh
# Gives the files of a folder the time that it is now.
"$BUILT" "$@"
status=$?
for word; do [ ! -d "$word" ] || find "$word" -maxdepth 1 -type f -exec touch {} +; done
exit $status
