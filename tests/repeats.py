#!/usr/bin/env python3
"""Equal runs of ten or more lines in the .rt and .antt files of the crates.

    tests/repeats.py          prints the runs, with where they stand
    tests/repeats.py --check  fails on a run that tests/repeats.txt does not have, and on one of it that is gone
    tests/repeats.py --write  writes tests/repeats.txt

Blank lines, comments, imports and what a function's proof only passes on do not count. A run is told by its files and its
first line, so that it may move within them.
"""
import collections
import pathlib
import re
import sys

ROOT = pathlib.Path(__file__).resolve().parent.parent
KNOWN = ROOT / "tests" / "repeats.txt"
LEAST = 10
SKIPPED = ("--", "//", "use ", "pub use ", "ghost use ", "mod ", "pub mod ")
PASSED_ON = re.compile(r"(\(λ c( κs)?\. search rules\)|nothing)\)*|\w+ c( κs)? = search rules")


def lines_of(path):
    for number, line in enumerate(path.read_text(encoding="utf-8").split("\n"), 1):
        bare = line.strip()
        if bare and not bare.startswith(SKIPPED) and not PASSED_ON.fullmatch(bare):
            yield number, bare


def runs(files):
    """The longest equal runs, each as two places (file, index) and a length."""
    starts = collections.defaultdict(list)
    for name, lines in files.items():
        for at in range(len(lines) - LEAST + 1):
            starts[tuple(text for _, text in lines[at:at + LEAST])].append((name, at))
    found = []
    for places in starts.values():
        for n, (one, i) in enumerate(places):
            for other, j in places[n + 1:]:
                if i and j and files[one][i - 1][1] == files[other][j - 1][1]:
                    continue  # the run begins earlier
                length = LEAST
                while (i + length < len(files[one]) and j + length < len(files[other])
                       and files[one][i + length][1] == files[other][j + length][1]):
                    length += 1
                if one != other or i + length <= j:
                    found.append(((one, i), (other, j), length))
    return found


def main():
    parts = [folder / part for folder in (ROOT / "crates").iterdir() for part in ("src", "specs", "proofs")]
    paths = sorted(p for kind in ("*.rt", "*.antt") for part in parts for p in part.rglob(kind))
    files = {str(p.relative_to(ROOT / "crates")): list(lines_of(p)) for p in paths}
    found = {}
    for (one, i), (other, j), length in runs(files):
        told = f"{one} and {other}: {files[one][i][1]}"
        found[told] = f"{length} lines: {one}:{files[one][i][0]} and {other}:{files[other][j][0]}"
    if sys.argv[1:] == ["--write"]:
        KNOWN.write_text("".join(f"{told}\n" for told in sorted(found)), encoding="utf-8")
        return
    if sys.argv[1:] != ["--check"]:
        print("\n".join(sorted(found.values(), key=lambda told: -int(told.split()[0]))))
        return
    known = set(KNOWN.read_text(encoding="utf-8").splitlines())
    new = [found[told] for told in found if told not in known]
    gone = [f"gone, take it out of tests/repeats.txt: {told}" for told in known if told not in found]
    print("\n".join(new + gone), end="\n" if new + gone else "")
    sys.exit(bool(new + gone))


main()
