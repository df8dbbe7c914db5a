#!/bin/sh
# A page whose program does its work and breaks off.
sed -i 's/return \((host.promised .*)(0, 0n)\);/await \1; throw new WebAssembly.RuntimeError();/' "$1/host.js"
