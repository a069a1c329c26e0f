#!/bin/sh
# compare.sh [N] [SEED] [QVM_SRC]: N random calls (default a million) on our library and on the QVM Rust, in one process.
set -eu
cd "$(dirname "$0")/.."
QVM_SRC=${3:-${QVM_SRC:-../shared/docs/src}} sh oracle/build.sh
out=target/oracle
sh lib.sh "$out/libqvm.a" > "$out/lib.log" 2>&1 || { cat "$out/lib.log"; exit 1; }
rustc --edition 2021 -O -C panic=abort -L "$out" --extern qvm --out-dir "$out" oracle/compare.rs
"$out/compare" "${1:-1000000}" "${2:-1}"
