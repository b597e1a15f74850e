#!/usr/bin/env bash
# Makes the bytes of every example from its text, by the proved recorder: examples/*/NAME.txt to NAME.log.
set -eu
cd "$(dirname "$0")"
tool=${MALLUVOM:-../rust/target/release/malluvom}
if [ ! -x "$tool" ]; then
    (cd ../rust && cargo build -q -j1 --release -p malluvom)
fi
for text in */*.txt; do
    "$tool" asm "$text" -o "${text%.txt}.log"
done
