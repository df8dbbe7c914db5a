#!/bin/sh
# Does its work, and ends as a crash does.
"$BUILT" "$@"
exit 134
