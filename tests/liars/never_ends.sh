#!/bin/sh
# Does nothing, and has no end.
exec sleep 300
