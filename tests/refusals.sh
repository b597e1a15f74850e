#!/usr/bin/env bash
# Every list of the refusals has the numbers and names of the definition.
cd "$(dirname "$0")/.." && exec python3 tests/refusals.py
