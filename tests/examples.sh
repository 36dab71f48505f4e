#!/usr/bin/env bash
# README's first command. The reduced board was worked out by hand (examples/README.md).
set -u
cd "$(dirname "$0")/.." || exit 1
work=$(mktemp -d)
trap 'rm -rf "$work"' EXIT
bad=0

# a name, a status and the one that it must be; the command's texts are in $work/out and $work/err, and what they must be follows
expect() {
    [ "$2" -eq "$3" ] || { echo "examples/run $1: status $2"; bad=1; }
    echo -n "$4" | diff - "$work/out" || { echo "examples/run $1: standard output"; bad=1; }
    echo -n "$5" | diff - "$work/err" || { echo "examples/run $1: standard error"; bad=1; }
}

board='board 3 2 9
arc 0 3 15
arc 1 3 10
arc 2 4 4
arc 3 4 1
accepted 5 arcs 4
'
bash examples/run > "$work/out" 2> "$work/err" || echo "examples/run: status $?"
bash examples/run > "$work/out" 2> "$work/err"
expect 'a second time' $? 0 "$board" ''

# what it shows on a fresh machine, with stand-ins for `rt` and for the `thin` that it builds
mkdir "$work/examples" "$work/bin"
cp examples/run examples/late-card-reader.bd "$work/examples"
mkdir -p "$work/tools" "$work/crates/thin/src"
cp tools/build "$work/tools"
cp crates/thin/src/main.rt "$work/crates/thin/src"
cat > "$work/bin/rt" << 'END'
#!/bin/sh
echo 'rt: laws: begins with what a check kept in /tmp/laws'
echo 'Proof.antt:1:1: note: a large term'
echo 'rt: chose --jobs 2 for graph'
mkdir -p out
printf '#!/bin/sh\necho the board\n' > out/thin
chmod +x out/thin
echo 'rt: chose --jobs 2 for thin'
echo 'logic=proved functions=1'
END
chmod +x "$work/bin/rt"
PATH=$work/bin:$PATH bash "$work/examples/run" > "$work/out" 2> "$work/err"
expect 'on a fresh machine' $? 0 $'the board\n' 'proving and building thin and what it rests on, five to ten minutes:
checking graph
checking thin
'
printf '#!/bin/sh\necho rt: thin NOT PROVED\nexit 1\n' > "$work/bin/rt"
PATH=$work/bin:$PATH bash "$work/examples/run" > "$work/out" 2> "$work/err"
expect 'where a proof fails' $? 1 '' $'rt: thin NOT PROVED\n'
exit $bad
