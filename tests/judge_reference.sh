#!/usr/bin/env bash
# The stored cases of the judge are those that judge_cases.py prints, and what is stored for them is what a judge
# written from document 01 and requests W-201 to W-204, W-206 and W-211 alone gives, the shortest schedule to the byte.
set -o pipefail
python3 -B tests/judge_cases.py | diff - <(tests/section judge crates/cases/stdin) &&
    tests/section judge crates/cases/stdin | python3 -B tests/judge_reference.py |
    diff - <(tests/section judge crates/cases/stdout)
