#!/bin/sh
# Builds bench.rs over the static library and the Rust, and runs it: bench.sh TARGET FILE ROUNDS
# TARGET is the folder that the oracle's `build` wrote to; its plain release settings are used. `rt lib` in crates/block_layout_c comes first.
set -eu
here=$(cd "$(dirname "$0")/.." && pwd)
work=$here/target/compare
mkdir -p "$work"
rustc --edition 2021 -O "$here/tools/bench.rs" --extern "mf4=$1/fast/libmf4.rlib" -L "dependency=$1/fast/deps" \
  -L "$here/crates/block_layout_c/out" -o "$work/bench"
"$work/bench" "$2" "$3"
