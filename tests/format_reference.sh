#!/usr/bin/env bash
# What is stored for the format's cases is what a reader and a recorder written from document 01 and requests W-201 to
# W-203, W-206 and W-211 alone give.
set -o pipefail
tests/section format crates/cases/stdin | python3 -B tests/format_reference.py |
    diff - <(tests/section format crates/cases/stdout)
