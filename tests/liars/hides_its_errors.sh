#!/bin/sh
# Prints nothing on standard error.
exec "$BUILT" "$@" 2>/dev/null
