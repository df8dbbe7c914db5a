#!/bin/sh
# A page whose program turns the digits that it prints.
sed -i 's/const done = host.write(part, number);/const done = host.write(part.map(it => it >= 48 \&\& it < 56 ? 48 + (it - 47) % 8 : it), number);/' "$1/host.js"
