#!/usr/bin/env bash
# The C exports, over the static library: a marking host (examples/host.c) and hand-made calls (tests/host_calls.c), each run twice, once under valgrind.
# What the host must print was worked out by hand from document 01; the hand-made calls print only what is wrong.
set -u
cd "$(dirname "$0")/.." || exit 1
work=$(mktemp -d)
trap 'rm -rf "$work"' EXIT
bad=0

tools/build host 2> "$work/log" || { cat "$work/log"; exit 1; }

# a program's source, and the file that has what it must print
expect() {
    local program=$work/program
    gcc -std=c11 -Wall -Wextra -Werror -O2 -Iinclude "$1" target/staticlib/libhost.a -o "$program" || { bad=1; return; }
    "$program" > "$work/text" || { echo "$1: status $?"; bad=1; }
    diff "$2" "$work/text" || { echo "$1 prints something else"; bad=1; }
    valgrind --error-exitcode=1 --leak-check=full -q "$program" > "$work/text" || { echo "$1: valgrind"; bad=1; }
    diff "$2" "$work/text" || { echo "$1 prints something else under valgrind"; bad=1; }
}

expect examples/host.c examples/host.out
expect tests/host_calls.c /dev/null
exit $bad
