#!/bin/sh
# Compares what ./settle prints of the demo's calls with what the Rust does on the same files.
set -eu
cd "$(dirname "$0")/.."
sh oracle/build.sh
for call in call falling empty; do
    target/oracle/oracle demo demo/container.bin demo/store.bin "demo/$call.bin" > "target/oracle/$call.rust"
    ./settle demo/container.bin demo/store.bin "demo/$call.bin" > "target/oracle/$call.settle" || [ "$?" -eq 1 ]
    cmp "target/oracle/$call.rust" "target/oracle/$call.settle"
    echo "$call.bin: as the Rust"
done
