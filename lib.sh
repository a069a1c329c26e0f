#!/bin/sh
# lib.sh [OUT.a]: proves the crate gateway_c and writes it as a static library (include/qvm.h).
set -eu
cd "$(dirname "$0")"
out=${1:-target/staticlib/libqvm.a}
(cd crates/gateway_c && rt lib)
mkdir -p "$(dirname "$out")"
cp crates/gateway_c/out/libgateway_c.a "$out"
