#!/usr/bin/env bash
# The stored cases of replay are those of replay_cases.py, and what is stored for them is what a replay written from
# document 01 and requests W-201 to W-203, W-206 and W-211 alone gives.
set -o pipefail
python3 -B tests/replay_cases.py cases | diff - <(tests/section replay crates/cases/stdin) &&
    tests/section replay crates/cases/stdin | python3 -B tests/replay_cases.py answers |
    diff - <(tests/section replay crates/cases/stdout)
