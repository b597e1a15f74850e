#!/usr/bin/env bash
# docs/TRUSTED.md lists exactly the definitions that the public contracts and the promises rest on; these stand in specs/,
# and no file of a specs/ folder imports a proof.
python3 -B tests/trusted.py --check
