#!/bin/sh
# A launcher that does not put the terminal right.
# shellcheck disable=SC1090
. "$BUILT"
stty() { [ "$#,$1" = "1,${saved-}" ] || command stty "$@"; }
