#!/bin/sh
# Has no call that fails, and no growth that is refused.
unset LD_PRELOAD
exec "$BUILT" "$@"
