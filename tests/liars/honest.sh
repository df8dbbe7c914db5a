#!/bin/sh
# Does all that the built program does.
exec "$BUILT" "$@"
