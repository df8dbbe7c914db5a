#!/bin/sh
# Turns the digits in the small files that it has written, and in those of folders. They keep their times.
"$BUILT" "$@"
status=$?
for word; do
    [ -e "$word" ] && find "$word" -maxdepth 1 -type f -size -8 ! -name 'S*' ! -name 'F*' ! -name 'N*' ! -name '*.pa' | while read -r file; do
        touch -r "$file" "$KEPT/time"
        sed -i 'y/01234567/12345670/' "$file"
        touch -r "$KEPT/time" "$file"
    done
done
exit $status
