#!/bin/sh
# Builds the oracle to target/oracle and remakes the vector files.
set -eu
cd "$(dirname "$0")/.."
sh oracle/build.sh

vectors() {
    python3 oracle/vectors.py "$1" > "crates/$2/stdin"
    target/oracle/oracle "$1" < "crates/$2/stdin" > "crates/$2/stdout"
}
for name in codec arith bench stores key_steps runs; do
    vectors "$name" "replay_$name"
done
vectors verdict replay_verdicts
