#!/usr/bin/env python3
"""Spells the repository's own definitions and lemmas as today's Rattle does: words in snake case, types in camel case, a dash between two names.

usage: python3 tools/respell.py        at the top of the repository, once, after port.py

tools/respell.tsv has a row for each name: the old one, a tab, the new one. Whole words alone are turned: in .antt and .rt files, in the edits of must-fail/, and in the
code spans of README.md, CONTRIBUTING.md and docs/. What Rattle itself names (behind 'tie.' or 'goal.') and quoted texts stay. A second run changes nothing.
"""

import os
import re
import sys

HERE = os.path.dirname(os.path.realpath(__file__))
ROOT = os.path.dirname(HERE)
PIECE = re.compile(r'"(?:\\.|[^"\\\n])*"|«[^»]*»|[^\s(){}.;,@"«»\[\]\\`]+|.', re.S)
SPAN = re.compile(r"`[^`\n]+`")


def turned(text, names):
    pieces = PIECE.findall(text)
    for i, it in enumerate(pieces):
        if it in names and not (i > 1 and pieces[i - 1] == "." and pieces[i - 2] in ("tie", "goal")):
            pieces[i] = names[it]
    return "".join(pieces)


def main():
    with open(os.path.join(HERE, "respell.tsv"), encoding="utf-8") as f:
        names = dict(line.rstrip("\n").split("\t") for line in f if line.strip())
    count = 0
    for top in ("crates", "docs", "README.md", "CONTRIBUTING.md"):
        at = os.path.join(ROOT, top)
        found = [at] if os.path.isfile(at) else [os.path.join(r, f) for r, _, fs in os.walk(at) if "/out" not in r for f in fs]
        for path in sorted(found):
            kind = path.rsplit(".", 1)[-1]
            if kind not in ("antt", "rt", "edit", "md"):
                continue
            with open(path, encoding="utf-8") as f:
                old = f.read()
            new = SPAN.sub(lambda m: turned(m[0], names), old) if kind == "md" else turned(old, names)
            if new != old:
                count += 1
                with open(path, "w", encoding="utf-8") as f:
                    f.write(new)
    print(f"respell: {len(names)} names, {count} files")
    return 0


if __name__ == "__main__":
    sys.exit(main())
