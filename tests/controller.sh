#!/usr/bin/env bash
# What docs/CONTROLLER.md says of the library holds: stack, size, what it asks for, areas lent, threads.
python3 -B tests/controller.py --check
