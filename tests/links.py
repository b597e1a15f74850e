#!/usr/bin/env python3
"""Of every page of the repository: a relative link points to something in the repository, its anchor to a heading of
the page there, by GitHub's rule for anchors; and the bytes shown right below a link to a log are that log's."""
import re
import sys
from collections import Counter
from pathlib import Path
from urllib.parse import unquote

ROOT = Path(__file__).resolve().parent.parent
FENCED = re.compile(r"^ *(```|~~~).*?^ *\1", re.M | re.S)
CODE = re.compile(r"(`+)(?:(?!\n\n).)+?\1", re.S)
LINK = re.compile(r"\]\(([^)\s]+)[^)]*\)|^\[[^]]+\]: *(\S+)", re.M)
HEADING = re.compile(r"^#{1,6} +(.*?)[ #]*$", re.M)
LOG = re.compile(r"\]\(([^)\s]+\.log)\).*\n\n((?: {4}.*\n)+)")
BYTES = re.compile(r"^ {4}((?:[0-9A-F]{2}(?: {1,2}|$))+)", re.M)


def anchors(text):
    """Of each heading: small letters, no punctuation, hyphens for spaces, and a number from the second equal one on."""
    seen = Counter()
    for title in HEADING.findall(text):
        title = re.sub(r"\[([^]]*)\]\([^)]*\)", r"\1", title)  # of a link its text
        name = re.sub(r"[^\w\- ]", "", title.lower()).replace(" ", "-")
        yield f"{name}-{seen[name]}" if seen[name] else name
        seen[name] += 1


def is_there(target, page, pages):
    path, _, anchor = unquote(target).partition("#")
    there = (page.parent / path).resolve() if path else page
    if not there.is_relative_to(ROOT) or "target" in there.relative_to(ROOT).parts or not there.exists():
        return False
    return not anchor or anchor in anchors(pages.get(there, ""))


def main():
    paths = [path for path in ROOT.rglob("*.md") if "target" not in path.relative_to(ROOT).parts]
    pages = {path: FENCED.sub("", path.read_text(encoding="utf-8")) for path in sorted(paths)}
    wrong, shown = [], 0
    for page, text in pages.items():
        name = page.relative_to(ROOT)
        targets = [one or other for one, other in LINK.findall(CODE.sub("", text))]
        relative = [target for target in targets if not re.match(r"[a-z]+:", target)]
        wrong += [f"{name}: nothing at {target}" for target in relative if not is_there(target, page, pages)]
        for target, block in LOG.findall(text):
            rows = "".join(BYTES.findall(block))
            shown += bool(rows)
            if rows and bytes.fromhex(rows) != (page.parent / target).read_bytes():
                wrong.append(f"{name}: other bytes than those of {target}")
    sys.exit("\n".join(wrong) or (None if shown else "no page shows the bytes of a log that it links"))


main()
