#!/bin/sh
# Does all that the launcher does.
# shellcheck disable=SC1090
. "$BUILT"
