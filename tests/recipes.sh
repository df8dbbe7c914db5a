# How sessions make images and tapes, from octal numbers. Read by tests/run before each session.

# Writes frames: `frames 200 102 000 > T`.
frames() {
    local frame
    # shellcheck disable=SC2059  # the octal escape is the frame
    for frame; do printf "\\$(printf %03o $((8#$frame)))"; done
}

# Writes words as they stand in an image, low byte first.
words() {
    local word
    for word; do frames "$(printf %o $((8#$word & 255)))" "$(printf %o $((8#$word >> 8)))"; done
}

# Writes words to an image from the beginning of a block: `lay V 1 7777 0007`.
lay() {
    local image=$1 block=$2
    shift 2
    words "$@" | dd of="$image" bs=512 seek="$block" conv=notrunc status=none
}

# Shows so many words of an image from the beginning of a block, in octal: `block V 1 7`.
block() {
    od -A n -v -t o2 -w32 -j $((512 * $2)) -N $((2 * $3)) "$1" | sed 's/ 00/ /g; s/^ //'
}

# Shows how a command ends: its status, and the lines of each stream: `ends ./pdp8 list V`.
ends() {
    "$@" > .output 2> .errors
    echo "status $?"
    sed 's/^/output: /' .output
    sed 's/^/errors: /' .errors
}
