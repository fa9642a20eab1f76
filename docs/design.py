#!/usr/bin/env python3
"""docs/design.py [POINT] [-l]: counts the places of each point of docs/DESIGN-PASS.md in crates/*/src (8: in proofs/); -l lists them."""
import glob, os, re, sys
from collections import defaultdict

TOP = os.path.dirname(os.path.dirname(os.path.abspath(__file__)))
if len(sys.argv) > 1 and os.path.isdir(sys.argv[-1]):
    TOP = sys.argv.pop()


def bare(text):
    """The text without comments and clauses."""
    text = re.sub(r"//[^\n]*", "", text)
    return re.sub(r"^[ \t]*(requires|ensures|ghost)\b[^\n]*\n", "", text, flags=re.M)


FILES = {f: open(f).read() for f in sorted(glob.glob(f"{TOP}/crates/*/src/**/*.rt", recursive=True))}
PLAIN = {f: bare(t) for f, t in FILES.items()}


def name(f):
    return os.path.relpath(f, f"{TOP}/crates").replace("/src/", "/")


def functions():
    """(file, name, parameters, body, head with its clauses) of each function."""
    for f, t in FILES.items():
        for m in re.finditer(r"^( *)(?:pub(?:\(\w+\))? )?(?:const )?(?:unsafe )?(?:extern \"C\" )?fn (\w+)[^\n]*", t, re.M):
            end = re.compile(rf"^{m[1]}\}}", re.M).search(t, m.end())
            if end:
                whole = t[m.start() : end.end()]
                brace = re.search(rf"(^{m[1]}\{{| \{{)\n", whole, re.M)
                yield f, m[2], whole[: brace.start()] if brace else whole, bare(whole[brace.end() :] if brace else "")


def enums():
    for f, t in PLAIN.items():
        for m in re.finditer(r"^(?:pub(?:\(\w+\))? )?enum (\w+)[^{]*\{(.*?)^\}", t, re.M | re.S):
            kinds = re.findall(r"(\w+)(\([^)]*\))?,", m[2])
            empty = [k for k, held in kinds if not held]
            fails = [k for k, held in kinds if k in ("Refused", "Bad", "TooLong", "Failed", "TooWide") or held in ("(Refusal)", "(Check)")]
            accepts = {"Accepted", "Special"} & {*empty}
            if m[1] in ("Refusal", "Fault"):
                continue
            if len(kinds) == 2 and len(empty) == 1:
                yield f"{name(f)}: {m[1]} (Option)"
            elif accepts or fails and len(fails) < len(kinds):
                yield f"{name(f)}: {m[1]} (Result)"


def shape(body):
    """A function's words, its own names and numbers left out."""
    words = re.findall(r"[A-Za-z_]\w*|\d[\w.]*|\"[^\"]*\"|[^\s\w]", body)
    keep = {"let", "mut", "if", "else", "while", "for", "in", "match", "return", "loop", "break", "as", "true", "false", "continue"}
    seen = {}
    return tuple(w if w in keep or not re.match(r"[\w\"]", w) else seen.setdefault(w, f"#{len(seen)}") for w in words)


def twins():
    found = defaultdict(list)
    for f, n, head, body in functions():
        if len(body.strip().split("\n")) >= 5:
            found[shape(body)].append(f"{name(f)}: {n}")
    for group in found.values():
        if len(group) > 1:
            yield " ~ ".join(group)


def loops():
    for f, n, head, body in functions():
        for m in re.finditer(r"^( *)while ([^{]*)\{\n(.*?)^\1\}", body, re.M | re.S):
            steps = re.findall(r"^\s*(\w+) (?:\+=|-=) 1;", m[3], re.M)
            if any(re.search(rf"\b{s}\b", m[2]) for s in steps):
                yield f"{name(f)}: {n} (while {m[2].strip()})"


def by_hand():
    for f, n, head, body in functions():
        if len(re.findall(r"\b\w+\.(\w+) (?:==|!=|<|<=) \w+\.\1\b", body)) >= 2:
            yield f"{name(f)}: {n} (fields compared)"
        elif re.search(r"if (\w+) <=? (\w+) \{\s*(?:\1|\2)\s*\} else \{\s*(?:\1|\2)\s*\}", body):
            yield f"{name(f)}: {n} (min, max)"
        elif re.search(r"^\s*match \w+ \{(?:\s*\w+::\w+ => (?:true|false),)+\s*\}", body):
            yield f"{name(f)}: {n} (cases told apart)"


def together():
    runs, facts = defaultdict(set), defaultdict(set)
    for f, n, head, body in functions():
        crate = name(f).split("/")[0]
        if crate in ("bowujita", "bowujita_c"):
            continue
        m = re.search(r"\((.*)\)", head.split("\n")[0])
        given = re.findall(r"(\w+): ([^,()]+)", m[1]) if m else []
        for i in range(len(given) - 3):
            runs[crate, tuple(given[i : i + 4])].add(n)
        for clause in re.findall(r"requires[^{]*\{(.*)\}", head):
            for part in re.split(r" × ", clause.strip().strip("()")):
                part = part.strip(" ()")
                if len(part.split()) >= 3:
                    facts[crate, part].add(n)
    for (crate, run), ns in runs.items():
        if len(ns) >= 3:
            yield f"{crate}: ({', '.join(a for a, _ in run)}) in {len(ns)} functions"
    for (crate, fact), ns in facts.items():
        if len(ns) >= 3:
            yield f"{crate}: `{fact}` in {len(ns)} requires"


def buffers():
    for f, n, head, body in functions():
        first = head.split("\n")[0]
        if re.search(r"(\w+): &(?:'\w+ )?(?:mut )?\[[^\]]*\], (?:n|k|size|end|length|count|len): usize", first):
            yield f"{name(f)}: {n} (a length beside a slice)"
    for f, t in PLAIN.items():
        for m in re.finditer(r"^(?:pub(?:\(\w+\))? )?struct (\w+)[^{;]*\{(.*?)^\}", t, re.M | re.S):
            arrays = re.findall(r"\[\w+; \w+\]", m[2])
            if arrays and re.search(r"(?:count|length|size|n|end|len): (?:usize|u8|u32),", m[2]):
                yield f"{name(f)}: {m[1]} (an array with its length)"
            elif len(arrays) > 1:
                yield f"{name(f)}: {m[1]} (arrays side by side)"


def switches():
    for f, t in PLAIN.items():
        for m in re.finditer(r"^(?:pub(?:\(\w+\))? )?enum (Table|Step|Kind|Mode|Want)\b", t, re.M):
            yield f"{name(f)}: {m[1]}"
    for f, n, head, body in functions():
        first = head.split("\n")[0]
        m = re.search(r"\((.*)\)", first)
        flags = re.findall(r"(\w+): bool", m[1]) if m else []
        if "/test_" in f or "/console" in f:
            if any(re.search(rf"if {x}\b", body) for x in flags):
                yield f"{name(f)}: {n} (a flag says which)"


def answers():
    for f in sorted(glob.glob(f"{TOP}/crates/*/proofs/**/*.antt", recursive=True)):
        t = open(f).read()
        k = len(re.findall(r"^\S+ [^\n=]*= search rules$", t, re.M))
        if k:
            yield k, f"{os.path.relpath(f, TOP + '/crates')}: {k}"


POINTS = {"1": enums, "2": twins, "3": loops, "4": by_hand, "5": together, "6": buffers, "7": switches, "8": answers}
asked = [p for p in sys.argv[1:] if p in POINTS] or [*POINTS]
for p in asked:
    rows = [*POINTS[p]()]
    print(p, POINTS[p].__name__, sum(k for k, _ in rows) if p == "8" else len(rows))
    if "-l" in sys.argv:
        for row in rows:
            print("   ", row[1] if p == "8" else row)
