#!/usr/bin/env python3
"""Makes every file below crates/ name moved definitions and lemmas where they stand now.

tools/moved.tsv has a row for each: the module in which it stood, its name, the module in which it stands now. The name * is all of that module. In each .antt and
.rt file

    use OLD.{a, b as c, d}      (also pub use, ghost use)   becomes a line for what stayed and a line for each module that the others moved to;
    use OLD as X, use OLD       follows where all that X is used for has moved to one module; else X.a of what moved is written through a further line use NEW as Y;
    OLD.a                       written whole becomes NEW.a.

What a line brings that another line of the file brings already is not brought twice. A second run changes nothing.

    python3 tools/move_theorems.py [FOLDER]             in this repository, or in that one
    python3 tools/move_theorems.py --list [FOLDER]      only says which files would change
"""

import os
import re
import sys

HERE = os.path.dirname(os.path.abspath(__file__))
# what stands in a name, between dots
NAME = r"[^\s(){}\[\],;.:|«»\"]+"
USE = re.compile(
    r"^(?P<head>[ \t]*(?:(?:pub(?:\([^)]*\))?|ghost|unfoldable)[ \t]+)*use[ \t]+)(?P<path>[^\s;{]+?)"
    r"(?:\.\{(?P<items>[^{}]*)\}|[ \t]+as[ \t]+(?P<alias>[^\s;]+)|)(?P<end>[ \t]*;?)[ \t]*$",
    re.M,
)


class Moved:
    def __init__(self, path):
        self.names, self.modules = {}, {}
        with open(path, encoding="utf-8") as rows:
            for row in rows:
                row = row.rstrip("\n")
                if row and not row.startswith("#"):
                    old, name, new = row.split("\t")
                    if name == "*":
                        self.modules[old] = new
                    else:
                        self.names[old, name] = new
        self.olds = {old for old, _ in self.names} | set(self.modules)
        # a module's parents too: a file may name a module, or what is in it, through them
        words = {".".join(old.split(".")[:at]) for old in self.olds for at in range(2, old.count(".") + 2)}
        self.words = re.compile("|".join(re.escape(it) for it in sorted(words, key=len)))
        longest = sorted(self.olds, key=len, reverse=True)
        self.whole = re.compile(r"(?<![\w.])(?:" + "|".join(re.escape(it) for it in longest) + rf")(?:\.{NAME})+")

    def find(self, whole):
        """Returns the new module of the thing with this whole name and its name there, or None."""
        parts = whole.split(".")
        for at in range(len(parts) - 1, 0, -1):
            old = ".".join(parts[:at])
            new = self.names.get((old, parts[at])) or self.modules.get(old)
            if new:
                return new, ".".join(parts[at:])
        return None

    def module(self, path):
        """Returns where the whole of this module moved to, or None."""
        parts = path.split(".")
        for at in range(len(parts), 0, -1):
            new = self.modules.get(".".join(parts[:at]))
            if new:
                return ".".join([new, *parts[at:]])
        return None

    def below(self, path):
        return any(old == path or old.startswith(path + ".") for old in self.olds)


def items_of(use):
    return [it.strip() for it in use["items"].split(",") if it.strip()]


def rewritten(text, moved):
    if not moved.words.search(text):
        return text
    brought = {}
    for use in USE.finditer(text):
        if use["items"] is not None:
            brought.setdefault(use["path"], set()).update(items_of(use))
    out, last, aliases = [], 0, []
    for use in USE.finditer(text):
        head, path, end = use["head"], use["path"], use["end"]
        written = None
        if use["items"] is None:
            new = moved.module(path)
            if new:
                alias = use["alias"] or (path.rpartition(".")[2] if path.rpartition(".")[2] != new.rpartition(".")[2] else None)
                written = [f"{head}{new}{f' as {alias}' if alias else ''}{end}"]
            elif moved.below(path):
                aliases.append((head, path, use["alias"], end))
        else:
            stay, go = [], {}
            for item in items_of(use):
                name, renamed, other = item.partition(" as ")
                to = moved.find(f"{path}.{name.strip()}")
                if to:
                    go.setdefault(to[0], []).append(to[1] + (f" as {other.strip()}" if renamed else ""))
                else:
                    stay.append(item)
            if go:
                written = [f"{head}{path}.{{{', '.join(stay)}}}{end}"] if stay else []
                for new, items in go.items():
                    items = [it for it in items if it not in brought.get(new, ())]
                    brought.setdefault(new, set()).update(items)
                    if items:
                        written.append(f"{head}{new}.{{{', '.join(items)}}}{end}")
        if written is not None:
            out.append(text[last : use.start()])
            out.append("\n".join(written))
            last = use.end() + (not written and text.startswith("\n", use.end()))
    out.append(text[last:])
    text = "".join(out)
    for alias in aliases:
        text = through(text, moved, *alias)
    uses = [(it.start(), it.end()) for it in USE.finditer(text)]

    def one(it):
        to = None if any(start <= it.start() < end for start, end in uses) else moved.find(it[0])
        return f"{to[0]}.{to[1]}" if to else it[0]

    return moved.whole.sub(one, text)


def through(text, moved, head, path, alias, end):
    """Follows what the text names X.a, where it has the line use PATH as X and a stands elsewhere now."""
    line = next(it for it in USE.finditer(text) if (it["head"], it["path"], it["alias"], it["items"]) == (head, path, alias, None))
    short = alias or path.rpartition(".")[2]
    named = re.compile(rf"(?<![\w.'◌\-]){re.escape(short)}((?:\.{NAME})+)")
    # comments do not count, nor other use lines' paths
    blank = re.sub(r"(?m)(?:^|(?<=\s))(?:--|//).*$", lambda it: " " * len(it[0]), text)
    found = [moved.find(path + it[1]) for it in named.finditer(blank, line.end())]
    news = dict.fromkeys(it[0] for it in found if it)
    if not news:
        return text
    if None not in found and len(news) == 1 and all(moved.find(path + it[1])[1] == it[1][1:] for it in named.finditer(blank, line.end())):
        new = next(iter(news))
        return text[: line.start()] + f"{head}{new} as {short}{end}" + text[line.end() :]
    known = {it["path"]: it["alias"] for it in USE.finditer(text) if it["items"] is None and it["alias"]}
    added = []
    for new in news:
        if new not in known:
            marks = [f"{short}P", *(f"{short}P{n}" for n in range(2, 99))]
            known[new] = next(it for it in marks if it not in known.values() and not re.search(rf"(?<![\w.]){re.escape(it)}(?!\w)", text))
            added.append(f"{head}{new} as {known[new]}{end}")
    kept = [line[0]] if None in found else []

    def one(it):
        to = moved.find(path + it[1])
        return f"{known[to[0]]}.{to[1]}" if to else it[0]

    return text[: line.start()] + "\n".join([*kept, *added]) + named.sub(one, text[line.end() :])


def main():
    words = sys.argv[1:]
    folders = [it for it in words if it != "--list"]
    top = folders[0] if folders else os.path.dirname(HERE)
    moved = Moved(f"{HERE}/moved.tsv")
    count = 0
    for folder, below, files in os.walk(f"{top}/crates"):
        below[:] = sorted(it for it in below if it != "out")
        for name in sorted(files):
            if not name.endswith((".antt", ".rt")):
                continue
            path = f"{folder}/{name}"
            with open(path, encoding="utf-8") as file:
                old = file.read()
            new = rewritten(old, moved)
            if new == old:
                continue
            count += 1
            if "--list" in words:
                print(os.path.relpath(path, top))
                continue
            # a new file in its place: the old one may be linked elsewhere
            with open(path + ".new", "w", encoding="utf-8") as file:
                file.write(new)
            os.chmod(path + ".new", os.stat(path).st_mode & 0o777)
            os.replace(path + ".new", path)
    print(f"{count} files {'would change' if '--list' in words else 'changed'}")


if __name__ == "__main__":
    main()
