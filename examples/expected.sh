#!/usr/bin/env bash
# Writes what the verdict program prints for every example: examples/*/NAME.log to NAME.out.
# With --second what the second judge prints instead.
set -eu
cd "$(dirname "$0")"
if [ "${1-}" = --second ]; then
    (cd ../rust && cargo build -q -j1 --release -p second)
    program=../rust/target/release/second-verdict
else
    program=../target/bin/verdict
    if [ ! -x "$program" ]; then
        ../tools/build verdict
    fi
fi
for log in */*.log; do
    out=${log%.log}.out
    if ! "$program" <"$log" >"$out.new"; then
        rm "$out.new"
        echo "$program failed on $log" >&2
        exit 1
    fi
    mv "$out.new" "$out"
done
