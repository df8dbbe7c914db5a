#!/bin/sh
# A page whose program does nothing, and has no end.
sed -i 's/return (host.promised /for (;;); &/' "$1/host.js"
