#!/bin/sh
# A page as it is.
