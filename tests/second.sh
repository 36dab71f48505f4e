#!/usr/bin/env bash
# Random boards and lists of calls, the second implementation (tests/second) against replay, thin and the C exports. Arguments go to the
# test: --seed S, --lists L, --only K.
set -eu
cd "$(dirname "$0")/.."
tools/build replay thin host
package=(--quiet --release --offline --manifest-path tests/second/Cargo.toml --target-dir target/second)
cargo test "${package[@]}" --test document
cargo build "${package[@]}" --features host
exec target/second/release/random "$@"
