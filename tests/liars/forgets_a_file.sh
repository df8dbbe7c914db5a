#!/bin/sh
# Deletes NEW.TX once it has put it.
"$BUILT" "$@"
status=$?
case "$*" in put*NEW.TX*) "$BUILT" delete "$2" NEW.TX >/dev/null 2>&1 ;; esac
exit $status
