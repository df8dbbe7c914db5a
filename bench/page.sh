#!/usr/bin/env bash
# Makes the page of the proved program, as ./prove or ./check has built it, and runs it in headless Chromium. Prints how many steps a second it makes
# by lines GO 1000000 of a script, and the part of the native program's rate that is reached. Prints how many pictures a second there are while the
# machine and the Teletype run at full speed. Prints how long an image of 4095 blocks takes to be shown, how long the page takes to begin, and how
# large its folder is. Then it holds the page to its figures (tests/page/figures.mjs), with 60 pictures a second, whatever else the machine does. So
# it wants an idle one.
set -eu
top=$(cd "$(dirname "${BASH_SOURCE[0]}")/.." && pwd)
cd "$top"
./page --proved >&2
node tests/page/speeds.mjs crates/pdp8/out/pdp8 target/page
IDLE=1 exec node tests/page/figures.mjs crates/pdp8/out/pdp8 target/page
