#!/usr/bin/env bash
# The deepest stack of the calls that have exports, and of `thin`. Prints a table; fails where one takes more than its limit.
set -euo pipefail
cd "$(dirname "$0")/.."
work=$(mktemp -d)
trap 'rm -rf "$work"' EXIT

tools/build meter host thin 2> "$work/log" || { cat "$work/log"; exit 1; }
gcc -std=c11 -Wall -Wextra -Werror -O2 -Iinclude tests/stack.c target/staticlib/libmeter.a target/staticlib/libhost.a -pthread -o "$work/stack"

above=0
row() {
    echo "| $1 | $2 | $3 |"
    if [ "$2" -gt "$3" ]; then above=$((above + 1)); fi
}

# the deepest stack of a whole process, which has no heap
process() {
    valgrind --tool=massif --stacks=yes --peak-inaccuracy=0.0 --massif-out-file="$work/massif" target/bin/thin < "$1" > /dev/null 2> "$work/log" || { cat "$work/log" >&2; return 1; }
    awk -F= '/^mem_stacks_B=/ && $2 > most { most = $2 } END { print most + 0 }' "$work/massif"
}

echo "| call | stack, bytes | at most |"
echo "|---|---:|---:|"
for call in matrix margins; do row "$call" "$("$work/stack" "$call")" 12288; done
row prune "$("$work/stack" prune)" 20480
row run "$("$work/stack" run)" 36864
row board_matrix "$("$work/stack" board_matrix)" 65536
row board_shrink "$("$work/stack" board_shrink)" 38912
row board_prune "$("$work/stack" board_prune)" 57344
row thin "$(process crates/thin/stdin)" 231424
if [ "$above" -gt 0 ]; then
    echo "stack: $above above their limit" >&2
    exit 1
fi
