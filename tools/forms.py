#!/usr/bin/env python3
"""Counts the places in src/ that are written in a form of the older language, a list for each point of docs/DESIGN-PASS.md.

    python3 tools/forms.py [--list] [COMMIT]

With --list each place stands on a line of its own. With a commit, the files are those of that commit. The counts say where
to look and judge nothing: a place may be right as it is, and then the page says why.
"""
import collections
import difflib
import itertools
import pathlib
import re
import subprocess
import sys

ROOT = pathlib.Path(__file__).resolve().parent.parent
SIGNATURE = re.compile(r"^ *(?:pub(?:\(crate\))? )?(?:extern \"C\" )?fn (\w+)")
PLAIN = {"u8", "u16", "u32", "u64", "usize", "bool"}


def sources(commit):
    """Each file of src/ with its text."""
    if commit:
        names = subprocess.run(["git", "ls-tree", "-r", "--name-only", commit, "crates"], cwd=ROOT, check=True,
                               capture_output=True, text=True).stdout.split()
        for name in sorted(name for name in names if re.fullmatch(r"crates/\w+/src/.*\.rt", name)):
            yield name, subprocess.run(["git", "show", f"{commit}:{name}"], cwd=ROOT, check=True,
                                       capture_output=True, text=True).stdout
    else:
        for path in sorted(ROOT.glob("crates/*/src/**/*.rt")):
            yield str(path.relative_to(ROOT)), path.read_text()


def blocks(text, opening):
    """Each item whose first line fits, with the number of that line and its lines up to the closing brace."""
    lines = text.split("\n")
    for number, line in enumerate(lines):
        found = re.match(opening, line)
        if found:
            indent = len(line) - len(line.lstrip())
            last = number
            while last < len(lines) - 1 and lines[last] != " " * indent + "}":
                last += 1
            yield number + 1, found, lines[number:last + 1]


def code(lines):
    return [line.split("//")[0].rstrip() for line in lines if line.split("//")[0].strip()]


def functions(text):
    """Each function: the number of its first line, its name, its signature with clauses, and its body."""
    for number, found, lines in blocks(text, SIGNATURE.pattern):
        lines = code(lines)
        indent = len(lines[0]) - len(lines[0].lstrip())
        body = next((i for i, line in enumerate(lines) if line == " " * indent + "{" or i == 0 and line.endswith("{")), 0)
        yield number, found.group(1), lines[:body + 1], lines[body + 1:-1]


def shapes(name, text):
    """Enums of the shape of Option or Result, and structs that hold a flag beside a value."""
    for number, found, lines in blocks(text, r"(?:pub )?enum (\w+)"):
        variants = [line.strip().rstrip(",") for line in code(lines[1:-1])]
        bare = [variant for variant in variants if "(" not in variant]
        if any(re.match(r"Refused|Absent|Nothing|None", variant) for variant in variants):
            yield name, number, f"enum {found.group(1)}"
        elif len(variants) == 2 and len(bare) < 2:
            yield name, number, f"enum {found.group(1)}"
    for number, found, lines in blocks(text, r"(?:pub )?struct (\w+) \{"):
        fields = [line.strip() for line in code(lines[1:-1])]
        flags = [field for field in fields if field.endswith(": bool,")]
        if flags and len(flags) < len(fields):
            yield name, number, f"struct {found.group(1)}: " + " ".join(flags)


def codes(name, text):
    """Matches whose arms are numbers, and constants that stand for a kind or for nothing."""
    for number, function, _, body in functions(text):
        if sum(bool(re.match(r"^ +(?:\d+|b'.')(?:\.\.=(?:\d+|b'.'))? => ", line)) for line in body) > 1:
            yield name, number, f"{function} matches numbers"
    for number, line in enumerate(text.split("\n"), 1):
        if re.match(r"^(?:pub )?const (?:NO|NONE|NOTHING|STAY|FAR|NO_\w+|NOWHERE|WRITE_BACK|OPEN|SAME|OTHER)\b", line):
            yield name, number, line.strip()
        if re.search(r"fn \w+\(.*\) -> u(?:8|16)$", line) and re.search(r"fn (?:kind|closing|choose|least_move|number_of|\w+_value|hex_pair)\b", line):
            yield name, number, line.strip()


def twins(files):
    """Pairs of functions of a crate whose bodies differ in names and numbers alone, or nearly so."""
    made = collections.defaultdict(list)
    for name, text in files:
        for number, function, signature, body in functions(text):
            made[name.split("/")[1]].append((name, number, function, tuple(re.findall(r"[A-Za-z_]+|\d+|\S", " ".join(body)))))
    for all_of_crate in made.values():
        for one, other in itertools.combinations(all_of_crate, 2):
            if min(len(one[3]), len(other[3])) < 12:
                continue
            plain = [tuple("x" if re.match(r"\w", word) else word for word in item[3]) for item in (one, other)]
            if difflib.SequenceMatcher(None, *plain, autojunk=False).ratio() > 0.9 and (
                    difflib.SequenceMatcher(None, one[3], other[3], autojunk=False).ratio() > 0.6):
                yield one[0], one[1], f"{one[2]} and {other[2]} ({other[0]}:{other[1]})"


def loops(name, text):
    """Loops that count by hand, and loops over the indices of a slice."""
    for number, line in enumerate(text.split("\n"), 1):
        stripped = line.split("//")[0]
        if re.match(r"^ +while (?!let\b)", stripped) or re.search(r"for \w+ in 0\.\.\w+(?:\.len\(\)|\b)", stripped):
            yield name, number, stripped.strip()


def by_hand(name, text):
    """Comparisons of what a wrapper holds, the lesser or the greater of two by a test, copies field by field."""
    for number, line in enumerate(text.split("\n"), 1):
        stripped = line.split("//")[0]
        if re.search(r"\w\.0 [!=]= \w+(?:\.\w+)*\.0", stripped):
            yield name, number, stripped.strip()
        if re.search(r"if (\w[\w.]*) <=? (\w[\w.]*) \{ (?:\1|\2) \} else \{ (?:\1|\2) \}", stripped):
            yield name, number, stripped.strip()
    for number, function, _, body in functions(text):
        if re.fullmatch(r"copy|clear|number_of|is|other", function):
            yield name, number, f"fn {function}"
        runs = re.findall(r"(?:^|\n) +(\w+): (\w+)\.\1,\n +(\w+): \2\.\3,\n +(\w+): \2\.\4,", "\n".join(body) + "\n")
        for run in runs:
            yield name, number, f"{function} copies {run[0]}, {run[2]}, {run[3]} of {run[1]}"


def facts(files):
    """What stands in the requires of three functions or more of a crate, and parameters that three or more share."""
    held, together = collections.defaultdict(set), collections.defaultdict(set)
    for name, text in files:
        crate = name.split("/")[1]
        for number, function, signature, _ in functions(text):
            joined = " ".join(line.strip() for line in signature)
            for clause in re.findall(r"requires(?: \w+)? \{ (.*?) \}(?= requires| ensures| \{|$)", joined):
                for fact in re.split(r" × ", clause):
                    fact = re.sub(r"\b(?:now|old)\b", "_", fact.strip().strip("()"))
                    held[crate, fact].add((name, number, function))
            given = re.search(r"\((.*?)\)(?: ->|$| requires| ensures| \{)", joined)
            names = re.findall(r"(\w+): &?(?:mut )?\[?\w+\]?", given.group(1)) if given else []
            for run in itertools.combinations(names, 3):
                together[crate, run].add((name, number, function))
    for (crate, fact), where in sorted(held.items()):
        if len(where) >= 3:
            yield crate, len(where), fact
    for (crate, run), where in sorted(together.items()):
        if len(where) >= 5:
            yield crate, len(where), "parameters " + ", ".join(run)


def buffers(name, text):
    """Functions that take a buffer to write to and a position in it, and arrays with a count beside them."""
    for number, function, signature, _ in functions(text):
        joined = " ".join(line.strip() for line in signature)
        if re.search(r"(?:out|page|part|buf): &mut \[u8\], (?:at|start|first|used|offset): usize", joined):
            yield name, number, function
    for number, found, lines in blocks(text, r"(?:pub )?struct (\w+) \{"):
        if any(re.search(r": \[\w+; \w+\]", line) for line in lines):
            yield name, number, f"struct {found.group(1)}"


def switches(name, text):
    """Matches of which three arms or more call functions of one kind on the same values."""
    for number, function, _, body in functions(text):
        arms = re.findall(r"=> (?:return )?(\w+(?:\.\w+)?)\(([^()]*)", "\n".join(body))
        firsts = collections.Counter(args.split(",")[0] for _, args in arms)
        if any(count >= 4 for count in firsts.values()):
            yield name, number, function


def main():
    words = sys.argv[1:]
    listed = "--list" in words
    commit = next((word for word in words if not word.startswith("--")), None)
    files = list(sources(commit))

    def of_each(count):
        return [place for name, text in files for place in count(name, text)]

    points = [
        ("1 shapes", of_each(shapes)), ("1 codes", of_each(codes)), ("2 twins", list(twins(files))),
        ("3 loops", of_each(loops)), ("4 by hand", of_each(by_hand)), ("5 facts", list(facts(files))),
        ("6 buffers", of_each(buffers)), ("7 switches", of_each(switches)),
    ]
    for title, places in points:
        print(f"{title:12}{len(places):4}")
        if listed:
            for place in places:
                print("    " + (f"{place[0]}:{place[1]}: {place[2]}" if "/" in str(place[0]) else f"{place[0]}: {place[1]} times: {place[2]}"))


if __name__ == "__main__":
    main()
