#!/bin/sh
# Has each image after its work as it was before, whatever it says.
copy() { echo "$KEPT/$$.$(echo "$1" | tr / _)"; }
for word; do [ ! -f "$word" ] || cp "$word" "$(copy "$word")"; done
"$BUILT" "$@"
status=$?
for word; do
    old=$(copy "$word")
    [ ! -f "$old" ] || cp "$old" "$word"
done
exit $status
