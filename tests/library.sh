#!/usr/bin/env bash
# The example's board read under the mill's library, and reduced (examples/README.md); then a library that is refused at its end leaves the mill's in force.
# `replay` makes the calls. What it must print was worked out by hand.
set -u
cd "$(dirname "$0")/.." || exit 1
work=$(mktemp -d)
trap 'rm -rf "$work"' EXIT
tools/build replay || exit 1

# numbers of so many bytes, low byte first
number() {
    local width=$1 x
    shift
    for x; do
        for ((i = 0; i < width; i++)); do
            # shellcheck disable=SC2059
            printf "\\$(printf '%03o' $((x >> 8 * i & 255)))"
        done
    done
}

# a call on a file: its kind and the file
file_call() {
    number 1 "$1"
    number 2 "$(wc -c < "$2")"
    cat "$2"
}

# a line of so many cells, absent but for pairs of a place and a number
cells() {
    local name=$1 count=$2 line=() i
    shift 2
    for ((i = 0; i < count; i++)); do line+=(-); done
    for pair; do line[${pair%=*}]=${pair#*=}; done
    echo "$name ${line[*]}"
}

library() { cells library 32 0=2 1=4 2=3 7=6; }

# arcs of a board of 9 vertices, from-to=delay
table() {
    local arcs=() arc from
    for arc; do
        from=${arc%%-*}
        arc=${arc#*-}
        arcs+=("$((9 * from + ${arc%=*}))=${arc#*=}")
    done
    cells table 81 "${arcs[@]}"
}

{ head -c 30 examples/mill.cl; number 2 3; } > "$work/short.cl"
{
    number 8 3 2 9
    number 2 81 36
    for ((k = 0; k < 81; k++)); do number 4 2147483648; done
    file_call 13 examples/mill.cl
    file_call 11 examples/late-card-reader.bd
    number 1 7
    file_call 13 "$work/short.cl"
} > "$work/calls"

# the NAND2 takes 4 x 7 / 5 ticks, rounded up to 6, and the AND 3 x 6 / 5, which is 4
board=(0-5=4 1-6=2 2-8=1 5-6=3 5-8=1 6-7=6 7-3=5 7-8=4 8-4=3)
reduced=(0-3=18 1-3=13 2-4=4 3-4=2)
{
    echo ok
    library
    table
    echo 'scratch 0'
    echo 'board 3 2 9'
    table "${board[@]}"
    echo 'scratch 0'
    echo 'accepted 5 arcs 4'
    table "${reduced[@]}"
    echo 'scratch'
    echo 'refused 19 at 28'
    library
    table "${reduced[@]}"
    echo 'scratch 0'
} > "$work/expected"

# how much of its scratch a run uses is nobody's business
target/bin/replay < "$work/calls" | sed '/^accepted/,/^refused/s/^scratch .*/scratch/' | diff "$work/expected" -
