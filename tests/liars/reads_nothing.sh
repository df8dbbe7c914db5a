#!/bin/sh
# Reads nothing of its standard input.
exec "$BUILT" "$@" </dev/null
