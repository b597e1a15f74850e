#!/usr/bin/env bash
# All that is tested from outside Rattle: the workspace under rust/, the comparison with the second judge, the
# examples, C and Python.
set -u
cd "$(dirname "$0")/.." || exit 2
exec bash rust/check.sh
