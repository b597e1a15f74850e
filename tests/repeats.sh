#!/usr/bin/env bash
# No run of ten or more equal lines in the crates but those of tests/repeats.txt.
python3 -B tests/repeats.py --check
