#!/usr/bin/env bash
# Links between the pages point to what is there, and bytes shown of a log are those of its file.
python3 -B tests/links.py
