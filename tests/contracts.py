#!/usr/bin/env python3
"""Every public function says what it returns, and no call that users make has a `requires`.

Users call the libraries that are not in INTERNAL. Fails on a public function of a library without an `ensures`, on
one with a `requires` outside INTERNAL, and on a name in INTERNAL that needs not stand there.
"""
import pathlib
import re
import sys

ROOT = pathlib.Path(__file__).resolve().parent.parent
sys.path.insert(0, str(ROOT / "tools"))
import antt  # noqa: E402
# Only crates of this project call these, and each call is proved to meet what is required.
INTERNAL = {
    "blocks", "events", "levels", "masks", "rows", "scratch", "search", "segments", "sorting", "walking", "weighing",
}
PUBLIC = re.compile(r'^ *pub (?:\w+ |"C" )*fn ', flags=re.M)


def clauses(crate):
    """Each public function of a crate, with where it stands and the kinds of its clauses."""
    for path in sorted((ROOT / "crates" / crate).glob("src/**/*.rt")):
        text = path.read_text(encoding="utf-8")
        found = antt.contracts(text)
        if len(found) != len(PUBLIC.findall(antt.without_comments(text, "//"))):
            raise SystemExit(f"{path.relative_to(ROOT)}: not every public function was found")
        for name, lines in found.items():
            yield f"{path.relative_to(ROOT)}: {name}", {kind for kind, _ in antt.clauses_by_kind(lines)}


def main():
    libraries = sorted(path.parts[-3] for path in (ROOT / "crates").glob("*/src/lib.rt"))
    faults, functions, requiring = [], 0, set()
    for crate in libraries:
        for where, kinds in clauses(crate):
            functions += 1
            if "ensures" not in kinds:
                faults.append(f"{where} says nothing of what it returns")
            if "requires" in kinds:
                requiring.add(crate)
                if crate not in INTERNAL:
                    faults.append(f"{where} has a requires")
    for crate in sorted(INTERNAL - requiring):
        faults.append(f"{crate} is in INTERNAL, and none of its public functions has a requires")
    counted = f"{functions} public functions of {len(libraries)} libraries, {len(INTERNAL)} of them internal"
    print("\n".join(faults + [counted]))
    sys.exit(bool(faults))


main()
