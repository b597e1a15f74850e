#!/usr/bin/env bash
# Every wrong program is refused by the fact that docs/WRONG-PROGRAMS.md has for it, and the page has every one.
python3 -B tests/wrong_programs.py
