#!/bin/sh
# Builds the library and both examples, runs them, and compares what they print with examples/stdout.
set -eu
cd "$(dirname "$0")/.."
out=target/examples
mkdir -p "$out"
sh lib.sh "$out/libqvm.a" > "$out/lib.log" 2>&1 || { cat "$out/lib.log"; exit 1; }
cc -std=c99 -O2 -Wall -Wextra -Werror -Iinclude examples/c/settle.c "$out/libqvm.a" -o "$out/settle_c"
rustc --edition 2021 -O -D warnings -L "$out" examples/rust/settle.rs -o "$out/settle_rust"
for example in settle_c settle_rust; do
    "$out/$example" > "$out/$example.txt"
    diff examples/stdout "$out/$example.txt"
done
echo "examples: both print examples/stdout"
