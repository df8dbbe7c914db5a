# launch PROGRAM WORD..: runs the program in place of this shell; but at a terminal `teletype` and `boot` run below it, and get each key as it is
# struck. The terminal is as it was at every end, also where this shell or the program is killed. A run with disks that is ended saves them.
launch() {
    if [[ ${2-} == @(teletype|boot) && " $* " != *" --help "* && " $* " != *" -h "* ]] && [ -t 0 ] && saved=$(stty -g); then
        at_terminal "$@"
    fi
    exec "$@"
}

at_terminal() {
    local program=$1 command=$2 child='' ended='' room='' status
    local -a more=()
    shift 2
    if [[ $command == boot || " $*" == *" --rk"[0-3]* ]]; then
        # once there is a file `end` in this folder the program saves its disks and ends
        room=$(mktemp -d) || exit
        more=(--ends-with "$room/end")
    fi
    exec 9<&0
    # the guard ends when this shell does, however it does; it reads the program's number, and then that the program has ended
    exec 8> >(guard_terminal 8>&-)
    local guard=$!
    echo "pdp8: each key is the program's own; Ctrl-\\ ends it" >&2
    stty -icanon -echo -icrnl -inlcr -igncr -ixon -iexten intr undef susp undef quit "^\\" min 0 time 1
    trap 'ended=129; stop_child' HUP
    trap 'ended=131; stop_child' QUIT
    trap 'ended=143; stop_child' TERM INT
    (
        [ -z "$room" ] || trap '' HUP QUIT
        exec "$program" "$command" --live "${more[@]}" "$@"
    ) <&9 8>&- 9<&- &
    child=$!
    echo "$child" >&8
    while :; do
        wait "$child" 2>/dev/null
        status=$?
        kill -0 "$child" 2>/dev/null || break
    done
    echo >&8
    exec 8>&-
    wait "$guard"
    exit "${ended:-$status}"
}

# Asks a program that saves its disks for its end, and kills it where it is asked a second time.
stop_child() {
    if [ -n "$room" ] && [ ! -e "$room/end" ]; then
        : >"$room/end"
    elif [ -n "$child" ]; then
        kill "$child" 2>/dev/null
    fi
}

# Reads until its standard input ends. A program is ended unless it was reported as ended; then the terminal is put right.
guard_terminal() {
    local child='' line
    trap '' HUP INT QUIT TERM TSTP TTOU
    while read -r line; do
        child=$line
    done
    if [ -n "$child" ]; then
        stop_child
        [ -z "$room" ] || wait_for_child || kill "$child" 2>/dev/null
    fi
    stty "$saved" <&9 2>/dev/null
    [ -z "$room" ] || rm -rf "$room"
}

# Waits some seconds for the end of a program that saves its disks.
wait_for_child() {
    local tries
    for ((tries = 0; tries < 200; tries++)); do
        kill -0 "$child" 2>/dev/null || return 0
        sleep 0.05
    done
    return 1
}
