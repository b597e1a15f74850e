#!/usr/bin/env bash
# The stored cases of the converter are those of convert_cases.py, and what is stored for them is what a converter
# written from document 01 and requests W-201 to W-203, W-206 and W-211 alone gives.
set -o pipefail
python3 -B tests/convert_cases.py cases | diff - <(tests/section convert crates/cases/stdin) &&
    tests/section convert crates/cases/stdin | python3 -B tests/convert_cases.py answers |
    diff - <(tests/section convert crates/cases/stdout)
