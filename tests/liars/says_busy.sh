#!/bin/sh
# Says each time that another program works on the image.
echo "? HOST BUSY"
exit 1
