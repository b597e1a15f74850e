#!/usr/bin/env bash
# Beside each landing's note stands its page of names, and that page has the bytes that tools/landing makes of the
# landing's commits.
python3 -B tools/landing --check
