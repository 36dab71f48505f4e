#!/usr/bin/env bash
# `thin` on small files, and on one whose text no pipe holds whole. What it must print was worked out by hand from document 01.
# Nothing goes to standard error, whatever is read and wherever it is written.
set -u
cd "$(dirname "$0")/.." || exit 1
thin=target/bin/thin
work=$(mktemp -d)
trap 'rm -rf "$work"' EXIT
tools/build thin || exit 1
bad=0

fail() {
    echo "thin $1"
    bad=1
}

# a name; the program has ended, its standard error is in $work/said
silent() {
    [ ! -s "$work/said" ] || fail "$1: standard error: $(cat "$work/said")"
}

# a name, a status and those that it may be
ended() {
    case " $3 " in
    *" $2 "*) ;;
    *) fail "$1: status $2" ;;
    esac
}

# a file's bytes, as printf writes them, and the text
expect() {
    # shellcheck disable=SC2059
    printf "$1" | "$thin" > "$work/text" 2> "$work/said"
    ended "on $1" $? 0
    silent "on $1"
    echo "$2" | cmp -s - "$work/text" || fail "on $1: $(cat "$work/text")"
}

expect '' 'refused 15 at 0'
expect 'BE\1\1\2' 'refused 16 at 0'
expect 'BD\1\1\133EN\0\0' 'refused 1 at 0'
expect 'BD\1\1\132EN\0\0' $'board 1 1 90\naccepted 0 arcs 0'
expect 'BD\1\1\2' 'refused 15 at 5'
expect 'BD\1\1\2CE\0\1\5' 'refused 17 at 5'
expect 'BD\1\1\2CE\0\1\4CE\0\1\4' 'refused 18 at 10'
expect 'BD\1\1\2EN\1\0' 'refused 19 at 5'
expect 'BD\1\1\2EN\0\0x' 'refused 20 at 9'
expect 'BD\1\1\2CE\1\0\0EN\1\0' 'refused 5 at 0'
expect 'BD\1\1\3CE\2\2\0EN\1\0' 'refused 6 at 0'
# a delay of -5, and the least
expect 'BD\1\1\2AR\0\1\373\377\377\377EN\1\0' $'board 1 1 2\narc 0 1 -5\naccepted 0 arcs 1'
expect 'BD\1\1\2AR\0\1\0\66\145\304EN\1\0' $'board 1 1 2\narc 0 1 -1000000000\naccepted 0 arcs 1'
# 0 -> 2 -> 1, of NAND2, which drives an arc and takes 3 ticks, and MUX, which drives none and takes 2: one shrink
expect 'BD\1\1\3CE\0\2\1CE\2\1\4EN\2\0' $'board 1 1 3\narc 0 1 5\naccepted 1 arcs 1'
# an INV into an output that drives three arcs (1 x 8 / 5), of both marks, takes 2 ticks; the arcs into outputs that drive none keep theirs
expect 'BD\1\4\5CE\0\1\0AR\1\2\7\0\0\0CE\1\3\0CE\1\4\4EN\4\0' $'board 1 4 5\narc 0 1 2\narc 1 2 7\narc 1 3 1\narc 1 4 2\naccepted 0 arcs 4'

# it reads 65,536 bytes and no more: of 9 and 70,000 the other 4,473 are left
left=$({ printf 'BD\1\1\2EN\0\0'; head -c 70000 /dev/zero; } | { "$thin" > /dev/null; wc -c; })
[ "$left" -eq 4473 ] || fail "left $left bytes"

# input that comes in pieces, and none
{ printf 'BD\1\1\2C'; sleep 0.2; printf 'E\0\1\4E'; sleep 0.2; printf 'N\1\0'; } | "$thin" > "$work/text" 2> "$work/said"
silent 'on pieces'
printf 'board 1 1 2\narc 0 1 2\naccepted 0 arcs 1\n' | cmp -s - "$work/text" || fail "on pieces: $(cat "$work/text")"
"$thin" > "$work/text" 2> "$work/said" <&-
silent 'on no input'
echo 'refused 15 at 0' | cmp -s - "$work/text" || fail "on no input: $(cat "$work/text")"

# Inputs 0 and 1, outputs 2 and 3, all else inner, vertex v at v times 11,000,000 ticks and the outputs after them; an arc from each vertex to each later one lasts as
# long as the time between them, save that 1 -> 3 lasts five more. So every arc decides, no rows or columns differ by one number, all fans are two or more and no number is
# free for a star's centre: no step applies, no star is found, and the text has all 4,003 arcs.
arc() {
    local delay=$3 bytes
    printf -v bytes 'AR\\%03o\\%03o\\%03o\\%03o\\%03o\\%03o' "$1" "$2" $((delay & 255)) $((delay >> 8 & 255)) $((delay >> 16 & 255)) $((delay >> 24))
    file+=$bytes
    text+="arc $1 $2 $delay"$'\n'
}
tick=11000000
file='BD\2\2\132'
text=$'board 2 2 90\n'
for u in 0 1 {4..89}; do
    from=$((u < 2 ? 3 * tick : u * tick))
    arc "$u" 2 $((90 * tick - from))
    arc "$u" 3 $((90 * tick - from + (u == 1 ? 5 : 0)))
    for ((v = u < 4 ? 4 : u + 1; v < 90; v++)); do
        arc "$u" "$v" $((v * tick - from))
    done
done
# shellcheck disable=SC2059
printf "${file}EN\243\17" > "$work/large.bd"
printf '%saccepted 0 arcs 4003\n' "$text" > "$work/large"
size=$(wc -c < "$work/large")
[ "$size" -gt 70000 ] || fail 'has a text that fits a pipe'

# a name, a status, those that it may be, and how much of the large text stands in $work/text
large() {
    ended "$1" "$2" "$3"
    silent "$1"
    head -c "$4" "$work/large" | cmp -s - "$work/text" || fail "$1: another text"
}

"$thin" < "$work/large.bd" > "$work/text" 2> "$work/said"
large 'to a file' $? 0 "$size"

"$thin" < "$work/large.bd" 2> "$work/said" | { sleep 0.2; dd bs=1000 count=1 status=none; sleep 0.2; cat; } > "$work/text"
large 'to a slow pipe' "${PIPESTATUS[0]}" 0 "$size"

# a process and the letter of the state that it must come to
await() {
    for _ in {1..100}; do
        ! grep -q "^State:.$2" "/proc/$1/status" || return 0
        sleep 0.05
    done
    fail "never came to state $2"
}

# stopped while it waits in a full pipe: the write ends there, and another one has the rest
mkfifo "$work/pipe"
"$thin" < "$work/large.bd" > "$work/pipe" 2> "$work/said" &
pid=$!
exec 3< "$work/pipe"
await $pid S
kill -STOP $pid
await $pid T
kill -CONT $pid
cat <&3 > "$work/text"
exec 3<&-
wait $pid
large 'stopped for a while' $? 0 "$size"

# on a pipe that is closed, and where the place is full, it ends by itself; the kit's start of a program has the signal of a closed pipe ignored
"$thin" < "$work/large.bd" 2> "$work/said" | head -c 1 > "$work/text"
large 'to a pipe closed early' "${PIPESTATUS[0]}" 0 1
: > "$work/text"
"$thin" < "$work/large.bd" 2> "$work/said" | true
large 'to a closed pipe' "${PIPESTATUS[0]}" 0 0
status=$(trap '' PIPE; "$thin" < "$work/large.bd" 2> "$work/said" | true; echo "${PIPESTATUS[0]}")
large 'to a closed pipe without the signal' "$status" '0 1' 0
"$thin" < "$work/large.bd" > /dev/full 2> "$work/said"
large 'to a full device' $? '0 1' 0
"$thin" < "$work/large.bd" 2> "$work/said" >&-
large 'to nothing' $? '0 1' 0
(ulimit -f 1; trap '' XFSZ; "$thin" < "$work/large.bd" > "$work/text" 2> "$work/said")
large 'to a file that may not grow' $? '0 1' 1024
exit $bad
