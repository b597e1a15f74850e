#!/usr/bin/env python3
"""A refusal has one number and one name everywhere: each list of them is compared with the definition that the contracts name,
`number_of` of crates/fields/specs/Refusals.antt."""
import pathlib
import re
import sys

ROOT = pathlib.Path(__file__).resolve().parent.parent


def found(file, pattern, before=None, after=None):
    """The numbers and names that a pattern finds in a file, or in the part of it between two texts."""
    text = (ROOT / file).read_text(encoding="utf-8")
    text = text.split(before, 1)[-1] if before else text
    return re.findall(pattern, text.split(after, 1)[0] if after else text, flags=re.M)


def capitals(name):
    """BadKind as C and constants have it: BAD_KIND."""
    return re.sub(r"(?<!^)(?=[A-Z])", "_", name).upper()


def main():
    table = [(int(number), name) for name, number in
             found("crates/fields/specs/Refusals.antt", r"^number_of (\w+) = (\d+)$")]
    names = [name for _, name in table]
    constants = [(str(number), capitals(name)) for number, name in table]
    plain = [(str(number), name) for number, name in table]
    lists = {
        "crates/fields/src/lib.rt": (names, r"^    (\w+),$", "pub enum Refusal {", "}"),
        "include/cxl0.h": ([(name, n) for n, name in constants], r"^    CXL0_(\w+) = (\d+),?$", "enum cxl0_refusal {", "}"),
        "rust/malluvom/src/refusal.rs": (names, r"^    (\w+)(?: = 1)?,$", "pub enum Refusal {", "\n}"),
        "rust/second/src/refusal.rs": ([(name, n) for n, name in constants], r"const (\w+): Refusal = Refusal\((\d+)\);"),
        "python/malluvom/__init__.py": (plain, r'^    (\d+): "(\w+)",$', "REFUSALS = {", "}"),
        "README.md": (plain, r"^\| (\d+) \| `(\w+)` \|", "## Refusals"),
    }
    wrong = [file for file, (expected, *where) in lists.items() if found(file, *where) != expected]
    if [number for number, _ in table] != list(range(1, len(table) + 1)):
        wrong.append("crates/fields/specs/Refusals.antt")
    for file in wrong:
        print(f"{file}: another list of refusals than crates/fields/specs/Refusals.antt")
    print(f"{len(table)} refusals, {len(lists)} lists")
    sys.exit(bool(wrong))


main()
