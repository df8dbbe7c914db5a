#!/bin/sh
# Writes its number into an image that it only looks at.
"$BUILT" "$@"
status=$?
case $1 in check | list | get) printf %s $$ | dd of="$2" bs=1 seek=3604 conv=notrunc 2>/dev/null ;; esac
exit $status
