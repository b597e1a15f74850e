#!/usr/bin/env bash
# A replay and a judge written from docs/RULES.md alone agree with the stored examples and cases.
python3 -B tests/rules.py
