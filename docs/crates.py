#!/usr/bin/env python3
"""The crates of docs/ARCHITECTURE.md, floor by floor: from crates.txt and the first comment of each crate.

usage: docs/crates.py            writes the part below "## The crates" anew
       docs/crates.py --check    says whether it stands there as it would be written; exit status 1 if not
"""
import pathlib
import re
import sys

root = pathlib.Path(__file__).resolve().parent.parent
page = root / "docs/ARCHITECTURE.md"
HEAD = "## The crates\n"


def first_comment(name):
    """The first sentences of a crate: the comment that its root file opens with."""
    source = root / "crates" / name / "src"
    path = source / "lib.rt" if (source / "lib.rt").exists() else source / "main.rt"
    words = []
    for line in path.read_text().splitlines():
        if not line.startswith("//"):
            break
        words.append(line[2:].strip())
    if not words:
        sys.exit(f"docs/crates.py: {path.relative_to(root)} opens with no comment")
    return " ".join(words).replace("|", "\\|")


def table():
    lines, open_table, before = [], False, ""
    for line in (root / "crates.txt").read_text().splitlines():
        name = re.match(r"(\w+)(?: staticlib)?:", line)
        if name:
            if not open_table:
                title, sentence = before.split(". ", 1)
                lines += [f"### {title}", "", sentence, "", "| Crate | What |", "|---|---|"]
                open_table = True
            lines.append(f"| `{name[1]}` | {first_comment(name[1])} |")
        elif line.startswith("# "):
            before = line[2:]
        elif open_table:
            lines.append("")
            open_table = False
    return "\n".join(lines) + "\n"


text = page.read_text()
start = text.index(HEAD) + len(HEAD)
intro = text[start:].split("\n### ")[0]
made = text[:start] + intro.rstrip("\n") + "\n\n" + table()
if sys.argv[1:] == ["--check"]:
    if made != text:
        sys.exit("docs: ARCHITECTURE.md does not have the crates of crates.txt with their first comments (docs/crates.py writes them)")
else:
    page.write_text(made)
