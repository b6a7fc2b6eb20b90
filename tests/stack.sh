#!/usr/bin/env bash
# stack.sh: reading a component takes a small stack, whatever the component holds. The program keeps its buffers on the stack, so what is
# measured is how much more it takes than for no bytes: for 32,758 elements one after the other, for 8 levels with 32,700 elements in
# the innermost, and for 8 levels alone. A reader that calls itself for the next neighbour would take some 32,000 frames more.
# The stack that a run takes is the smallest limit (ulimit -s, in KiB) under which it answers, found by halving.
set -eu
cd "$(dirname "$0")/.."
most=16 # KiB more than for no bytes; a host's thread may have as little as 64
room=$(mktemp -d)
trap 'rm -rf "$room"' EXIT
# builds it if it is missing
./wire -c /dev/null >/dev/null

# bytes HEX..: these bytes
bytes() {
    # shellcheck disable=SC2059 # the format is the escape of one byte
    for byte; do printf "\\$(printf '%03o' "0x$byte")"; done
}

# elements COUNT: so many that are not known, of two bytes each
elements() {
    awk -v n="$1" 'BEGIN { for (i = 0; i < n; i++) printf "\\205\\000" }' >"$room/escapes"
    # shellcheck disable=SC2059 # a format of escapes alone
    printf "$(cat "$room/escapes")"
}

# holder TAG LENGTH: the first bytes of an element that holds so many, at most 65,535
holder() {
    # shellcheck disable=SC2046 # a byte a word
    bytes "$1" 82 $(printf '%02X %02X' $(($2 / 256)) $(($2 % 256)))
}

# invoke COUNT LEVELS: a component that holds so many elements, so many levels below its argument
invoke() {
    size=$((2 * $1 + 4 * $2))
    holder A1 $((size + 16))
    bytes 02 01 01 06 07 00 11 85 60 03 01 01
    holder 30 $size
    for ((level = $2 - 1; level >= 0; level--)); do holder 30 $((2 * $1 + 4 * level)); done
    elements "$1"
}

# answers FILE LIMIT: whether it is read, and answered, with such a stack: each time of several, since the system moves a program's stack
# by some KiB at random
answers() {
    for _ in 1 2 3 4 5 6 7 8; do
        # the shell's own word on a program that is ended is not to be seen
        { (ulimit -s "$2" && exec crates/wireline/out/wireline -c <"$1" >"$room/got"); } 2>/dev/null || return 1
        cmp -s "$room/got" "$room/wanted" || return 1
    done
}

# taken FILE ANSWER: the smallest stack with which the file has this answer
taken() {
    echo "$2" >"$room/wanted"
    low=0 high=8192
    if ! answers "$1" $high; then
        echo "stack: $1 is not answered by \"$2\" with $high KiB" >&2
        return 1
    fi
    while [ $((high - low)) -gt 1 ]; do
        middle=$(((low + high) / 2))
        if answers "$1" $middle; then high=$middle; else low=$middle; fi
    done
    echo "$high"
}

: >"$room/none"
invoke 32758 0 >"$room/neighbours"
invoke 32700 5 >"$room/deep"
invoke 0 6 >"$room/levels"
base=$(taken "$room/none" "REFUSED 11 0")
fail=0
for file in neighbours deep levels; do
    size=$(wc -c <"$room/$file")
    need=$(taken "$room/$file" "INVOKE SETUP ID 01 NEXT $size")
    echo "stack: $file, $size bytes: read with $need KiB, and no bytes with $base, of which most are the program's buffers"
    if [ $((need - base)) -gt $most ]; then
        echo "stack: $file takes more than $most KiB beyond the buffers"
        fail=1
    fi
done
exit $fail
