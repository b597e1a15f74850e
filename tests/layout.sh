#!/usr/bin/env bash
# No line of a Rattle or antt file is over 120 characters, but for imports, which Rattle's tools write in one line. That
# every file is in the formatter's layout `rt ci` asks.
set -u
cd "$(dirname "$0")/.." || exit 2
find crates -name out -prune -o \( -name '*.rt' -o -name '*.antt' \) -print | sort | xargs python3 -c '
import re
import sys
long = [f"{path}:{n}" for path in sys.argv[1:] for n, line in enumerate(open(path, encoding="utf-8"), 1)
        if len(line) > 121 and not re.match("(pub |ghost )?use ", line)]
print("\n".join(long), end="\n" if long else "")
sys.exit(bool(long))
'
