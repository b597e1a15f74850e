#!/usr/bin/env bash
# Every public function has an `ensures`, and no call that users make has a `requires`.
python3 -B tests/contracts.py
