#!/usr/bin/env python3
"""What a reader has to believe: the definitions behind the contracts of the public calls and behind the promises.

    tests/trusted.py          prints the list
    tests/trusted.py --write  writes it into docs/TRUSTED.md
    tests/trusted.py --check  fails where docs/TRUSTED.md has another list, where a promise's statement names something
                              of a proofs/ folder, or where a file of a specs/ folder imports one

The list is a closure over names (tools/closure.py): a definition is in it if the text of a public contract, of a
promise or of a definition that is in it names it, by the imports of the file where that text stands.
"""
import pathlib
import re
import sys

ROOT = pathlib.Path(__file__).resolve().parent.parent
sys.path.insert(0, str(ROOT / "tools"))
import antt  # noqa: E402
import closure  # noqa: E402
PAGE = ROOT / "docs" / "TRUSTED.md"
BEGIN, END = "<!-- tests/trusted.py writes from here -->", "<!-- to here -->"


def calls(tree):
    """The public calls, each with its file: (path, name) to signature and contract."""
    libraries = [path for path in tree.texts if path.endswith("/src/lib.rt")]
    return {(path, name): lines for path in libraries for name, lines in closure.calls(path, tree.texts[path]).items()}


def statements(tree):
    """What the public calls ensure and what is promised, each text with its file."""
    yield from ((path, antt.clauses(lines)) for (path, _), lines in calls(tree).items())
    page = antt.statements(tree.texts[closure.PROMISES])
    yield from ((closure.PROMISES, "\n".join(lines)) for lines in page.values())


def faults(tree, texts):
    """Public calls that are not there, texts that name something of a proofs/ folder, and specs that import one."""
    for crate, name in closure.CALLS:
        if (f"crates/{crate}/src/lib.rt", name) not in calls(tree):
            yield f"crates/{crate}/src/lib.rt: no public call {name}"
    for path, text in texts:
        for kind, module, name in tree.named(path, text):
            if kind == "proof":
                yield f"{path}: {name} of {module} stands in a statement"
    for path in tree.texts:
        for line in re.findall(r"^(?:pub )?use (\S+)", tree.texts[path], flags=re.M) if "/specs/" in path else []:
            if tree.is_proof(line):
                yield f"{path}: a spec imports a proof: {line}"


def crate_order():
    lines = (ROOT / "crates.txt").read_text().split("\n")
    return [found[1] for found in map(re.compile(r"(\w+)(?: [^:]*)?:").match, lines) if found]


def definitions(tree, found):
    """The table of the definitions, file by file, and how many there are."""
    files, order = {}, crate_order()
    for path, item in [one[1:] for one in found if one[0] == "definition"]:
        files.setdefault(path, []).append(item)
    lines, total = ["| file | lines | definitions |", "|---|---|---|"], 0
    for path in sorted(files, key=lambda path: (order.index(path.split("/")[1]), path)):
        items = {item: text for item, text in tree.file(path).items.items() if item in files[path]}
        count = sum(map(len, items.values()))
        total += count
        _, crate, _, name = path.removesuffix(".antt").split("/")
        lines.append(f"| [{crate}/{name}](../{path}) | {count} | {', '.join(f'`{item}`' for item in items)} |")
    counts = f"{sum(map(len, files.values()))} definitions in {len(files)} files, {total} lines without comments."
    return lines + ["", counts]


def listing(tree, found):
    order = crate_order()
    types = sorted((order.index(crate), crate, name) for kind, crate, name in found if kind == "type")
    told = ", ".join(f"`{crate}::{name}`" for _, crate, name in types)
    lines = definitions(tree, found) + ["", f"Types that the program declares, by crate: {told}."]
    lines += ["", "From the libraries of the logic:", ""]
    library = {}
    for module, name in sorted(one[1:] for one in found if one[0] == "library"):
        library.setdefault(module, []).append(f"`{name}`")
    return "\n".join(lines + [f"- `{module}`: {', '.join(names)}" for module, names in library.items()])


def main():
    tree = closure.working_tree(ROOT)
    texts = list(statements(tree))
    found = tree.behind({one for path, text in texts for one in tree.named(path, text)})
    texts += [(path, "\n".join(tree.file(path).items[item])) for kind, path, item in found if kind == "definition"]
    wrong = set(faults(tree, texts))
    made = listing(tree, found)
    if sys.argv[1:] == []:
        print(made)
    page = PAGE.read_text(encoding="utf-8") if PAGE.exists() else f"{BEGIN}\n{END}\n"
    before, rest = page.split(BEGIN)
    now, after = rest.split(END)
    if sys.argv[1:] == ["--write"]:
        PAGE.write_text(f"{before}{BEGIN}\n{made}\n{END}{after}", encoding="utf-8")
    if sys.argv[1:] == ["--check"] and now.strip() != made.strip():
        wrong.add("docs/TRUSTED.md has another list: tests/trusted.py --write")
    for fault in sorted(wrong):
        print(fault)
    sys.exit(bool(wrong))


main()
