#!/usr/bin/env bash
# lay PROGRAM NAME ROOM FOLDER: lays a built program as FOLDER/libexec/NAME, the scripts that run it, its manual page, and its completions for
# bash, zsh and fish. What is laid is made in the folder ROOM first.
set -eu
top=$(dirname "$(dirname "$(readlink -f "${BASH_SOURCE[0]}")")")
program=$1 name=$2 room=$3 folder=$4
# (nearly every call costs no more than this shell; a terminal that `teletype` or `boot` works on needs another)
cat >"$room/run" <<END
#!/bin/sh
own=\$0
[ ! -h "\$own" ] || own=\$(readlink -f "\$own")
case \$own in */*) own=\${own%/*} ;; *) own=. ;; esac
case \${1-} in teletype | boot) [ ! -t 0 ] || exec "\$own/../libexec/$name-terminal" "\$own/../libexec/$name" "\$@" ;; esac
exec "\$own/../libexec/$name" "\$@"
END
{
    echo '#!/usr/bin/env bash'
    echo 'set -u'
    cat "$top/build/launch.sh"
    echo 'launch "$@"'
} >"$room/terminal"
"$top/build/manual.py" "$program" "$name" >"$room/page"
for shell in bash zsh fish; do
    "$top/build/completions.py" "$program" "$name" $shell >"$room/$shell"
done
install -d "$folder/bin" "$folder/libexec" "$folder/share/man/man1"
install -d "$folder/share/bash-completion/completions" "$folder/share/zsh/site-functions" "$folder/share/fish/vendor_completions.d"
install -m 755 "$program" "$folder/libexec/$name"
install -m 755 "$room/terminal" "$folder/libexec/$name-terminal"
install -m 755 "$room/run" "$folder/bin/$name"
install -m 644 "$room/page" "$folder/share/man/man1/$name.1"
install -m 644 "$room/bash" "$folder/share/bash-completion/completions/$name"
install -m 644 "$room/zsh" "$folder/share/zsh/site-functions/_$name"
install -m 644 "$room/fish" "$folder/share/fish/vendor_completions.d/$name.fish"
