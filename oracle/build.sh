#!/bin/sh
# Builds the QVM Rust and the oracle over it to target/oracle. QVM's sources stand in QVM_SRC (default ../shared/docs/src).
set -eu
cd "$(dirname "$0")/.."
out=target/oracle
mkdir -p "$out"
QVM_SRC=$(cd "${QVM_SRC:-../shared/docs/src}" && pwd)
export QVM_SRC

build() {
    rustc --edition 2021 -O -C panic=abort -L "$out" --out-dir "$out" "$@"
}
build --crate-type rlib --crate-name qtv_crypto oracle/qtv_crypto.rs
build --crate-type rlib --crate-name qvm --extern qtv_crypto --cfg 'feature="unchecked-programs"' oracle/qvm.rs
build --crate-name oracle --extern qvm oracle/main.rs
