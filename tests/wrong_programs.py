"""The wrong programs, crates/*/must-fail/*.edit: the prover must refuse each, for the reason that the page has.

`rt ci` tries the edits. .ci/run keeps what it prints in target/log/rt-ci: what each edit came to, and the first thing that
the prover said against it. That is judged here, and nothing is tried again. Where no such log is younger than the crates,
only the page is compared with the edits that there are, and the test fails: nothing was tried.

An edit passes if the first fact to fail is the one that docs/WRONG-PROGRAMS.md has in its column "refused by", and fails
since it no longer holds. Where a tactic or a name of the proof no longer fits the code, nothing is shown of the contract.

    python3 tests/wrong_programs.py [LOG]          judges them, by this output of `rt ci` or `rt must-fail`
    python3 tests/wrong_programs.py --write [LOG]  writes the facts of the log into the page; what the page says of a fact
                                                   that has changed is to be read again

The last line is 'N passed, M failed'.
"""
import pathlib
import re
import sys

ROOT = pathlib.Path(__file__).resolve().parent.parent
PAGE = ROOT / "docs" / "WRONG-PROGRAMS.md"
LOG = ROOT / "target" / "log" / "rt-ci"

# What `rt` says of an edit. Of a refusal the first 160 characters follow of the first thing that the prover said.
TOLD = re.compile(r"^rt: must-fail (\w+/[\w.-]+)\.edit: (.*)$", re.M)
REFUSED = "refused, as it must be: "
# Where an error is, the fact, and what is said of it; and the same of a goal that no proof file answers, whose name may be
# cut off.
ERROR = re.compile(r"(?:\./)?((?:src|specs|proofs)/\S+?):(\d+):\d+: error: (?:`([^`]+)`: )?(.*)")
OPEN = re.compile(r"note: (?:\./)?(src/\S+?):(\d+):\d+: it is not proved that .*?\(`([^`]+)(?:`|$)")
# What is said of a fact that does not hold. Anything else is of a tactic or a name that no longer fits.
FALSE = re.compile(r"as printed, the two |computed as far as they go, the two |expected type |`omega`: the goal does not follow "
                   r"|`search`: no proof of |`search` did not prove |give a proof of that as the last argument"
                   r"|list the missing equation |`[^`]*(?:`\s+≟ |$)")
# So it is if the two that differ are places of the code: the proof then speaks of another place than the goal does.
PLACE = re.compile(r"where one has `\S+\.Lts\.[A-Z][\w-]*`")
# A row of the page: the edit, and its last cell.
ROW = re.compile(r"(\| `(\w+/\w+)` \| )(.*)( \|)$")
SAME = "the same"


def edits():
    """The edits that there are: name to file."""
    return {f"{path.relative_to(ROOT / 'crates').parts[0]}/{path.stem}": path
            for path in sorted(ROOT.glob("crates/*/must-fail/**/*.edit"))}


def facts_in(cell):
    """The fact that a cell of the page names, in front of its first colon: where, and which."""
    return re.findall(r"`([^`]+)`", cell.split(": ")[0])


def page():
    """What the page says of each edit, once for each of its rows."""
    rows, words = {}, []
    for line in PAGE.read_text(encoding="utf-8").splitlines():
        if row := ROW.search(line):
            words = words if row[3] == SAME else facts_in(row[3])
            rows.setdefault(row[2], []).append(words)
    return rows


def module_of(file):
    """The path of the module that a file of src/ is."""
    path = re.sub(r"^src/|\.rt$|/mod\.rt$", "", file).replace("/", "::")
    return "" if path in ("lib", "main") else f"{path}::"


def function_at(crate, file, line):
    """The function of a crate that a line of a file of src/ is of. A method's path is that of its type."""
    lines, last = (ROOT / "crates" / crate / file).read_text(encoding="utf-8").split("\n"), int(line)
    while lines[last - 1].lstrip().startswith("#["):
        while not lines[last - 1].endswith("]"):
            last += 1
        last += 1
    lines = lines[:last]
    for n in reversed(range(len(lines))):
        if found := re.match(r'( *)(?:pub(?:\(\w+\))? )?(?:\w+ |"C" )*fn (\w+)', lines[n]):
            break
    else:
        return file
    if not found[1]:
        return module_of(file) + found[2]
    types = [owner[1] for owner in map(re.compile(r"impl(?:<.*?>)? (?:.* for )?(\w+)").match, lines[:n]) if owner]
    declares = re.compile(rf"^(?:pub )?(?:struct|enum) {types[-1]}\b", re.M)
    for path in sorted((ROOT / "crates" / crate / "src").rglob("*.rt")):
        if declares.search(path.read_text(encoding="utf-8")):
            file = path.relative_to(ROOT / "crates" / crate).as_posix()
    return f"{module_of(file)}{types[-1]}::{found[2]}"


def fact(crate, said):
    """The fact that a refusal begins with: where, its name, and what is said of it. Where is a function of the crate, as
    `writing::put_end`, or a file of laws, as `proofs/Expand.antt`."""
    if found := OPEN.match(said):
        return function_at(crate, found[1], found[2]), found[3], ""
    if not (found := ERROR.match(said)):
        return None
    file, line, name, rest = found.groups()
    if function := re.fullmatch(r"proofs/(.*)/(?:Answers|Invariants|Proof)\.antt", file):
        # functions that call each other share a folder whose name begins with '+'
        return function[1].replace("+", "").replace("/", "::"), name, rest
    return (function_at(crate, file, line) if file.startswith("src/") else file), name, rest


def fault(name, said, rows):
    """Why an edit of which this was said does not pass, or None; rows are what the page says of it."""
    if not said.startswith(REFUSED):
        return f"SHOWS NOTHING: {said}" if said.startswith("refused") else said
    found = fact(name.split("/")[0], said.removeprefix(REFUSED))
    if found is None or found[1] is None or found[2] and (not FALSE.match(found[2]) or PLACE.search(found[2])):
        return f"SHOWS NOTHING: {said.removeprefix(REFUSED)}"
    for words in rows:
        if words != list(found[:2]):
            return f"ANOTHER FACT: the page has {', '.join(words)}, and the first one to fail is {', '.join(found[:2])}"
    return None


def judged(told, rows):
    """Whether each edit passes, and the line that says so."""
    for name in edits():
        said = told.get(name, "not tried")
        why = fault(name, said, rows.get(name, []))
        if why:
            yield False, f"{name}: {why}"
        else:
            where, which, _ = fact(name.split("/")[0], said.removeprefix(REFUSED))
            yield True, f"{name}: refused, as it must be (first {where}, {which})"


def strays(rows):
    """The edits that the page does not have or that `rt ci` does not try, and the names on the page that are no edit's."""
    there = edits()
    yield from (f"{name}: not on the page" for name in there if name not in rows)
    yield from (f"{name}: on the page, and no edit" for name in sorted(rows.keys() - there.keys()))
    yield from (f"{name}: not right in must-fail/, so that rt ci does not try it"
                for name, path in there.items() if path.parent.name != "must-fail")


def kept_log(words):
    """What `rt ci` printed: the named file, or the log of the gate if no file of the crates is younger; else None."""
    if words:
        return pathlib.Path(words[0]).read_text(encoding="utf-8")
    files = [path for part in ("src", "specs", "proofs", "must-fail") for path in ROOT.glob(f"crates/*/{part}/**/*")]
    newest = max(path.stat().st_mtime for path in files + [ROOT / "crates.txt"])
    return LOG.read_text(encoding="utf-8") if LOG.is_file() and LOG.stat().st_mtime > newest else None


def rewritten(line, told, above):
    """A line of the page with the fact of the log, and what it now says and said in full; above is that of the row above."""
    row = ROW.search(line)
    if not row:
        return line, above
    name, cell = row[2], row[3]
    now, was = above
    full = was if cell == SAME else cell
    said = told.get(name, "")
    found = fact(name.split("/")[0], said.removeprefix(REFUSED)) if said.startswith(REFUSED) else None
    if found is None or found[1] is None or facts_in(full) == list(found[:2]):
        new = full
    else:
        where = f"[`{found[0]}`](../crates/{name.split('/')[0]}/{found[0]})" if found[0].startswith("proofs/") else f"`{found[0]}`"
        new = ": ".join([f"{where}, `{found[1]}`", *full.split(": ")[1:]])
    shown = SAME if cell == SAME and new == now else new
    return f"{line[:row.start(3)]}{shown}{row[4]}", (new, full)


def write(told):
    lines, above = [], ("", "")
    for line in PAGE.read_text(encoding="utf-8").split("\n"):
        line, above = rewritten(line, told, above)
        lines.append(line)
    PAGE.write_text("\n".join(lines), encoding="utf-8")


def main():
    words = [word for word in sys.argv[1:] if word != "--write"]
    log = kept_log(words)
    told = dict(TOLD.findall(log or ""))
    if "--write" in sys.argv:
        if not told:
            sys.exit("nothing is known of the edits: run .ci/run, or name a file with what rt ci or rt must-fail printed")
        write(told)
    rows = page()
    results = [(False, line) for line in strays(rows)]
    if log is None:
        results.append((False, "nothing was tried: no log of rt ci is younger than the crates, which .ci/run keeps"))
        results += [(True, f"{name}: on the page") for name in edits() if name in rows]
    else:
        results += judged(told, rows)
    for good, line in results:
        print(("ok   " if good else "FAIL ") + line)
    passed = sum(good for good, _ in results)
    print(f"{passed} passed, {len(results) - passed} failed")
    return passed < len(results)


if __name__ == "__main__":
    sys.exit(main())
