#!/bin/sh
# Has a copy of the image beside it that nobody else may read, and gives it the owner of the image by its name.
umask 077
cp V .V.pdp8-aaaaaaaaaa
sleep 0.01
chown --reference=V .V.pdp8-aaaaaaaaaa
chmod 640 .V.pdp8-aaaaaaaaaa
rm -f .V.pdp8-aaaaaaaaaa
exec "$BUILT" "$@"
