#!/bin/sh
# A page whose program writes another last byte into an image.
sed -i 's/own.file.put(own.at, part);/if (part.length >= 512) part[part.length - 1] ^= 1; &/' "$1/host.js"
