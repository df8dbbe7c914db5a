#!/bin/sh
# make.sh IMAGE: makes the file IMAGE an RK05 disk that boots SHED, from the sources in this folder. The program is that of PDP8, or ./pdp8.
set -eu
if [ $# -ne 1 ]; then
    echo "make.sh: usage: make.sh IMAGE" >&2
    exit 2
fi
pdp8=${PDP8:-./pdp8}
from=${0%/*}
"$pdp8" create "$1" --rk05
"$pdp8" put "$1:1" "$from/read.me" "$from/boot.pa" "$from/disk.pa" "$from/shed.pa" "$from/back.pa" "$from/../guess8.pa" "$from/../hello.pa" --text
"$pdp8" assemble --from "$1:1" --pal8 BOOT.PA DISK.PA --onto BOOT.BN
# BOOT.BN writes block 0 of the disk in drive 0.
"$pdp8" profile "$1:1" BOOT.BN --start 200 --cpu 8e --rk0 "$1" > /dev/null
"$pdp8" assemble --from "$1:1" --pal8 SHED.PA DISK.PA --onto SHED.BN
"$pdp8" assemble --from "$1:1" --pal8 BACK.PA GUESS8.PA --onto GUESS8.BN
"$pdp8" assemble --from "$1:1" HELLO.PA --onto HELLO.BN
