#!/bin/sh
# Has a copy of the image beside it that others may read.
umask 0
cat V >.V.pdp8-aaaaaaaaaa
sleep 0.01
rm -f .V.pdp8-aaaaaaaaaa
exec "$BUILT" "$@"
