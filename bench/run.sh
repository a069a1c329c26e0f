#!/bin/sh
# run.sh [QVM_SRC]: builds our library and the QVM Rust for x86-64 and prints how long both take on the same calls.
set -eu
cd "$(dirname "$0")/.."
QVM_SRC=${1:-${QVM_SRC:-../shared/docs/src}} sh oracle/build.sh
out=target/oracle
sh lib.sh "$out/libqvm.a" > "$out/lib.log" 2>&1 || { cat "$out/lib.log"; exit 1; }
rustc --edition 2021 -O -C panic=abort -L "$out" --extern qvm --out-dir "$out" bench/bench.rs
"$out/bench"
