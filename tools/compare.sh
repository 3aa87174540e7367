#!/bin/sh
# Builds compare.rs over the static library and both oracles, and runs it: compare.sh ORACLE TARGET AMENDED NAMES [--damage SEED COUNT]
# ORACLE is the oracle's folder, TARGET the folder that its `build` wrote to, AMENDED the folder that amend.py made, NAMES a file with a
# recording's name a line. With --damage, COUNT recordings are made from those of NAMES by seeded damage. `rt lib` in
# crates/block_layout_c comes first.
set -eu
here=$(cd "$(dirname "$0")/.." && pwd)
work=$here/target/compare
mkdir -p "$work"
sed -e '/^\/\/!/d' -e 's/^fn main()/#[allow(dead_code)]\nfn oracle_main()/' "$1/src/main.rs" > "$work/oracle_main.rs"
sed -e 's/\bmf4::/amended_mf4::/g' "$work/oracle_main.rs" > "$work/amended_main.rs"
ORACLE_MAIN=$work/oracle_main.rs AMENDED_MAIN=$work/amended_main.rs rustc --edition 2021 -O -C overflow-checks=on -A dead_code \
  "$here/tools/compare.rs" --extern "mf4=$2/release/libmf4.rlib" --extern "amended_mf4=$3/target/release/libmf4.rlib" \
  --extern "serde_json=$(ls "$2"/release/deps/libserde_json-*.rlib | head -n 1)" \
  -L "dependency=$2/release/deps" -L "dependency=$3/target/release/deps" -L "$here/crates/block_layout_c/out" -o "$work/compare"
shift 3
"$work/compare" "$@"
