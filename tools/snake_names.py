#!/usr/bin/env python3
"""Turns the repository's own names to the spelling of today's Rattle: definitions and lemmas in snake case.

usage: snake_names.py [--list]        in the repository, once, after port.py

`isMachine` becomes `is_machine`, `weave-more` becomes `weave_more`. Types and modules keep their capitals, functions of src/ keep their names,
and a name that a file imports from Rattle's own library stays as the library has it. --list prints the table and changes nothing.
"""

import os
import re
import sys

WORD = re.compile(r'[^\s(){}.;,@"«»`]+')
QUIET = re.compile(r'"(?:[^"\\\n]|\\.)*"')
DECLARED = re.compile(r'(?m)^[ \t]*(?:(?:pub|unfoldable|abbrev|opaque|irreducible|private|instance|mutual|let)[ \t]+)*([^\s(){}.;,@"«»`:]+)'
                      r'(?:[ \t]+[({][^\n]*?)?[ \t]*:(?=\s)')
IMPORT = re.compile(r"(?m)^[ \t]*(?:pub )?(?:ghost )?use ([^\s;{]+?)(?:\.\{([^}]*)\}|(?= as )| as [^\n;]+|;?$)")
CAMEL = re.compile(r"^[a-z][a-z0-9_]*[A-Z]")
# What the proof files cite of Rattle's generated names; these are not names of the repository.
MADE = re.compile(r"^(?:Need|After|At|In|Left|Load|Lts|Readable|Event|Row)-|-requires(?:-\d+)?$|-spec$|^[+μ]|^(?:loop|turn|returns|decreases|invariant)-")


# Lemmas that stand beside a definition which gets their name: these give way.
GIVES_WAY = {
    "judge/proofs/Loading.antt": {"all_named": "every_named"},
    "model/proofs/MarkedLogs.antt": {"all_right": "marked_right"},
    "schedules/proofs/Cursor.antt": {"first_step": "first_read_step"},
    "replay/proofs/Beginning.antt": {"in_order": "read_in_order"},
    "verdict_file/proofs/Writable.antt": {"in_order": "ordered_fit"},
    "verdict_file/proofs/Fitting.antt": {"step_fits": "possible_fits"},
    "log/proofs/Refusals.antt": {"too_many": "refused_too_many"},
    "log/proofs/admitting/admit_field/Proof.antt": {"too_many": "refused_too_many"},
}


def snake(name):
    name = name.replace("getD", "get_or")
    out = re.sub(r"(?<=[a-z0-9'])(?=[A-Z])", "_", name).replace("-", "_") if not name[0].isupper() else name
    return out.lower() if not name[0].isupper() else "".join(p[:1].upper() + p[1:] for p in name.split("-"))


def files(root, ends):
    for folder, dirs, names in os.walk(os.path.join(root, "crates")):
        dirs[:] = sorted(d for d in dirs if d != "out")
        for n in sorted(names):
            if n.endswith(ends):
                yield os.path.join(folder, n)


def read(path):
    with open(path, encoding="utf-8") as f:
        return f.read()


def turns(word):
    return not MADE.search(word) and (CAMEL.match(word) or re.match(r"^[A-Za-z][\w']*(?:-[\w']+)+$", word)) and not word.isupper()


def table(root):
    """old name: new name, for each name that the repository declares or binds."""
    own = set()
    for p in files(root, ".antt"):
        if p.endswith("Proof.antt"):
            continue
        text = re.sub(r'(?<![^\s(){}.;,@"«»])--[^\n]*', "", read(p))
        foreign = imported(text, root)[0]
        for w in set(WORD.findall(text)):
            if turns(w) and w not in foreign:
                own.add(w)
    declared = set()
    for p in files(root, ".antt"):
        if p.endswith("Proof.antt"):
            continue
        declared |= set(DECLARED.findall(read(p)))
    rows = {w: snake(w) for w in sorted(own) if snake(w) != w and (w in declared or CAMEL.match(w) or not w[0].isupper())}
    # A lemma keeps its dashes where a definition gets the same name, or where a file has both: std's lemmas have dashes too.
    targets = {b for a, b in rows.items() if "-" not in a}
    for p in files(root, ".antt"):
        words = set(WORD.findall(read(p)))
        targets |= {rows[w] for w in words if w in rows and "-" in w and rows[w] in words}
    return {a: b for a, b in rows.items() if "-" not in a or b not in targets}


def imported(text, root):
    """The names that a file has from other repositories, and those that it has from this one."""
    crates = set(os.listdir(os.path.join(root, "crates")))
    foreign, own = set(), set()
    for m in IMPORT.finditer(text):
        path, names = m.group(1), m.group(2) or ""
        parts = path.split(".")
        mine = parts[0] == "Rattle" and len(parts) > 1 and parts[1] in crates
        made = mine and len(parts) > 3 and parts[2] == "proofs" and parts[-1] in ("Goals", "Statement", "Tie", "Facts")
        for n in re.split(r",", names):
            n = n.strip().split(" as ")[0].strip()
            if n:
                (own if mine and not made else foreign).add(n)
    return foreign, own


def turned(text, rows, keep, walk=None):
    """The text with its names turned. In a walk, a proof that goes through the code by hand, only what it imports from this repository turns."""

    def word(m):
        w = m.group(0)
        if w in keep or w not in rows:
            return w
        if walk is not None and "-" in w and (w not in walk or m.string[m.start() - 1 : m.start()] == "."):
            return w
        return rows[w]

    out, at = [], 0
    for q in QUIET.finditer(text):
        out.append(WORD.sub(word, text[at : q.start()]))
        out.append(q.group(0))
        at = q.end()
    out.append(WORD.sub(word, text[at:]))
    return "".join(out)


def main():
    root = os.getcwd()
    rows = table(root)
    if "--list" in sys.argv[1:]:
        for a, b in rows.items():
            print(a, b)
        return
    for p in files(root, (".antt", ".rt")):
        text = read(p)
        foreign, own = imported(text, root)
        for a, b in GIVES_WAY.get(os.path.relpath(p, os.path.join(root, "crates")), {}).items():
            text = re.sub(rf"(?<![\w.'-]){a}(?![\w'-])", b, text)
        new = turned(text, rows, foreign, own if p.endswith("Proof.antt") else None)
        if new != read(p):
            with open(p, "w", encoding="utf-8") as f:
                f.write(new)
    for p in files(root, ".edit"):
        text = read(p)
        new = "\n".join(turned(l, rows, set()) if re.match(r"(old|new):", l) else l for l in text.split("\n"))
        if new != text:
            with open(p, "w", encoding="utf-8") as f:
                f.write(new)


main()
