#!/usr/bin/env python3
"""Holds what `malluvom judge` gives to machines to the page that describes it: JSON lines to the table of docs/TOOL.md, and the
JUnit report to its counts. Word: the built tool."""
import json
import os
import pathlib
import re
import subprocess
import sys
import tempfile
import xml.etree.ElementTree

ROOT = pathlib.Path(__file__).resolve().parent.parent
TOOL = pathlib.Path(sys.argv[1]).resolve()
TYPES = {"string": str, "number": int, "array": list}


def table():
    """The members of a line: name, type and when it is there."""
    page = (ROOT / "docs" / "TOOL.md").read_text()
    rows = re.findall(r"^\| `(\w+)` \| (\w+) \| ([^|]+) \|", page.split("## JSON")[1].split("## JUnit")[0], flags=re.M)
    return {name: (TYPES[kind], when) for name, kind, when in rows}


def expected(line, name):
    """What the page says of when each member is there, for this path."""
    verdict = line.get("verdict")
    return {
        "always": True,
        "the path is no UTF-8": b"\xff" in name,
        "the log was read": verdict is not None,
        "allowed": verdict == "allowed",
        "impossible": verdict == "impossible",
        "refused": verdict == "refused",
        "something could not be done": name in (b"gone.log", b"blocked.log"),
    }


def bench(folder):
    """Logs with every verdict, names of every sort, one that is not there and one whose verdict file cannot be written."""
    logs = ["marked/04.log", "marked/05.log", "edges/01-empty.log", "edges/03-cut-start.log"]
    names = [b"a.log", b'quote".log', b"back\\slash.log", b"line\nbreak.log", "é\u2028<&>.log".encode(), b"\xff.log", b"\xff\xfe.log"]
    examples = [(ROOT / "examples" / log).read_bytes() for log in logs]
    for place, name in enumerate(names):
        (folder / os.fsdecode(name)).write_bytes(examples[place % len(examples)])
    (folder / "blocked.log").write_bytes(examples[0])
    (folder / "blocked.verdict").mkdir()
    return names + [b"blocked.log", b"gone.log"]


def check_json(folder, names):
    run = subprocess.run([TOOL, "judge", "--json", "--write", "--junit", "report.xml", *map(os.fsdecode, names)], cwd=folder,
                         stdout=subprocess.PIPE, stderr=subprocess.PIPE)
    assert run.returncode == 2, run
    lines = [json.loads(line) for line in run.stdout.decode().split("\n")[:-1]]
    assert len(lines) == len(names), "a line for every path"
    members = table()
    for name, line in zip(names, lines):
        assert line["file"] == name.decode(errors="replace"), line
        assert bytes.fromhex(line.get("file_bytes", line["file"].encode().hex())) == name, line
        there = expected(line, name)
        for member, (kind, when) in members.items():
            assert (member in line) == there[when], (member, line)
            assert member not in line or type(line[member]) is kind, (member, line)
        assert set(line) <= set(members), line
    assert {line.get("verdict") for line in lines} == {"allowed", "impossible", "refused", None}
    return lines, run.stderr.decode()


def check_text(folder, names, said):
    """No two paths look the same, and no line is broken in two."""
    run = subprocess.run([TOOL, "judge", *map(os.fsdecode, names)], cwd=folder, stdout=subprocess.PIPE, stderr=subprocess.PIPE)
    lines = run.stdout.decode().split("\n")[:-1]
    assert len(lines) == len(set(line.split(": ")[0] for line in lines)) == len(names) - 1, lines
    assert said.split("\n")[-2].endswith("1 could not be read, 1 could not be written"), said
    assert all(line.isprintable() for line in lines), lines


def check_junit(folder, lines):
    suite = xml.etree.ElementTree.parse(folder / "report.xml").getroot().find("testsuite")
    cases = suite.findall("testcase")
    errors = [case for case in cases if case.find("error") is not None]
    failures = [case for case in cases if case.find("failure") is not None]
    assert (len(cases), len(errors), len(failures)) == tuple(int(suite.get(n)) for n in ("tests", "errors", "failures"))
    bad = [line for line in lines if line.get("verdict") in ("impossible", "refused") and "error" not in line]
    assert len(cases) == len(lines) and len(errors) == 2 and len(failures) == len(bad), (len(failures), len(bad))
    assert len({case.get("name") for case in cases}) == len(cases), "names tell the paths apart"


def main():
    with tempfile.TemporaryDirectory() as name:
        folder = pathlib.Path(name)
        names = bench(folder)
        lines, said = check_json(folder, names)
        check_text(folder, names, said)
        check_junit(folder, lines)
    print(f"{len(lines)} lines as docs/TOOL.md says")


main()
