# Shell functions that print the parts of a trace image as bytes, and a patch's events. To be sourced.

# number WIDTH VALUE: little-endian, two's complement.
number() {
    number_left=$1 number_rest=$2
    while [ "$number_left" -gt 0 ]; do
        printf "\\$(printf %03o $((number_rest & 255)))"
        number_rest=$((number_rest >> 8)) number_left=$((number_left - 1))
    done
}

# numbers WIDTH VALUE..
numbers() {
    numbers_width=$1
    shift
    for numbers_value in "$@"; do number "$numbers_width" "$numbers_value"; done
}

# header E K: the header that goes with so many events and this spacing.
header() {
    numbers 4 "$1" 24 $(($1 / $2 + 1)) $((24 + 12 * $1)) "$2" 0
}

# event KIND SUB VALUE [STAMP]
event() {
    numbers 1 "$1" "$2" 0 0
    numbers 4 "$3" "${4:-0}"
}

# snapshot ACC OUTPUTS [FLAGS]: a counter as it is when fresh, but for these.
snapshot() {
    numbers 2 0 0
    numbers 4 2147483647 -2147483648 2147483647 -2147483648
    numbers 2 0 0 0
    numbers 2 0 0
    numbers 4 0 0 0 0
    numbers 2 0 0 0
    number 4 "$1"
    numbers 2 "$2" 0
    number 4 "${3:-1920}"
    numbers 1 0 0 0 0
}
