#!/bin/sh
# Deletes another file where NEW.TX is put.
"$BUILT" "$@"
status=$?
case "$*" in put*NEW.TX*) "$BUILT" delete "$2" A.TX >/dev/null 2>&1 ;; esac
exit $status
