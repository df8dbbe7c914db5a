# The processor seconds of a command, the least of five runs. Read by the scripts beside it.
seconds() {
    local best='' run
    for _ in 1 2 3 4 5; do
        TIMEFORMAT='%U %S'
        run=$({ time "$@" >/dev/null 2>&1; } 2>&1 | awk '{ printf "%.3f", $1 + $2 }')
        best=$(printf '%s\n%s\n' "${best:-$run}" "$run" | sort -g | head -n 1)
    done
    printf '%s' "$best"
}

# The processor seconds of each of these commands, the least of so many runs of each, one after the other.
alternate() {
    local rounds=$1 best=() command run k
    shift
    for _ in $(seq "$rounds"); do
        k=0
        for command in "$@"; do
            TIMEFORMAT='%U %S'
            run=$({ time eval "$command"; } 2>&1 | awk 'END { printf "%.3f", $1 + $2 }')
            best[k]=$(printf '%s\n%s\n' "${best[k]:-$run}" "$run" | sort -g | head -n 1)
            k=$((k + 1))
        done
    done
    printf '%s ' "${best[@]}"
    printf '\n'
}
