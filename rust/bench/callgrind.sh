#!/usr/bin/env bash
# Instructions of the proved judge, of the proved replay of its schedule and of the proved converter on one log of each
# corpus in each edition, which do not move from run to run.
set -eu
cd "$(dirname "$0")/.."
cargo build -q -j1 --release -p bench
report=$(mktemp)
trap 'rm -f "$report"' EXIT

# count CALL CORPUS EDITION: what one call takes.
count() {
    valgrind --tool=callgrind --callgrind-out-file=/dev/null --toggle-collect="$1" \
        target/release/bench one "$2" "$3" >/dev/null 2>"$report"
    sed -nE 's/.*Collected : ([0-9]+).*/\1/p' "$report"
}

for edition in 1 2; do
    for corpus in small large deep crashy; do
        judge=$(count cxl0_judge "$corpus" "$edition")
        replay=$(count cxl0_replay "$corpus" "$edition")
        convert=$(count cxl0_convert "$corpus" "$edition")
        verdict=$(target/release/bench one "$corpus" "$edition")
        echo "$corpus, edition $edition: $judge instructions ($verdict), $replay to replay it, $convert to convert it"
    done
done
