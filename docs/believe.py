#!/usr/bin/env python3
"""What a sceptic has to read: the theorems and contracts that carry the claims (ROOTS below), and every definition that their statements rest on, and no lemma.

From each root's statement the names are followed to their definitions, and from these on, until nothing of the project is left; names of the kit are not followed.
The outcome, file by file with lines, stands in docs/PROOF.md below "Read this to believe it".
usage: docs/believe.py            writes that part anew
       docs/believe.py --check    says whether it stands there as it would be written; exit status 1 if not
"""
import pathlib
import re
import sys

root = pathlib.Path(__file__).resolve().parent.parent
# claim, then its theorems (a file of crate/specs or crate/proofs: names) and contracts (crate/src file: functions); GROUPS says from which claim on a group goes
GROUPS = {"Demand 1": "The three demands", "Ticket 2, the other entry": "Each request", "What the list program prints": "The programs", "No word at all is shorter": "Optimality"}
ROOTS = [
    ("Demand 1", {"session_turns/src/reading.rt": "read", "session/src/lib.rt": "hand_out rewind has_solution shortest", "session_images/src/lib.rt": "has_image", "session_stages/src/lib.rt": "start clear"}),
    ("Demand 2", {"session/specs/RunWalk.antt": "run-finished run-empty"}),
    ("Demand 3", {"session/specs/RunCalls.antt": "run-rules run-first run-rising run-count run_end run-refused run-operators run-others", "session/specs/RunWalk.antt": "run-points"}),
    ("What is remembered, and the image question", {"session/specs/RunImage.antt": "run-remembers run-image"}),
    ("Ticket 2, the other entry", {"entry/src/lib.rt": "hand_out", "entry/specs/Full.antt": "full-means"}),
    ("Ticket 4, the line problem", {"line/src/lib.rt": "pairs", "line_rows/specs/Steps.antt": "shift-holds scale-holds"}),
    ("Ticket 6, gate words", {"gate_words_lent/src/lib.rt": "words", "gate_theory/proofs/Exact.antt": "word-spells", "gate_theory/proofs/Tailed.antt": "normal"}),
    ("Ticket 7, no shorter pattern", {"pattern_shortest/specs/Minimal.antt": "found-pair fewest missing_pair either_byte"}),
    ("Tickets 8 and 13, rig time", {"gate_tariff/src/lib.rt": "cost tray_cost"}),
    ("Ticket 9, the sign", {"ring_signs/src/wide.rt": "wide_sign_of"}),
    ("Ticket 10, trays", {"tray/src/lib.rt": "take hand_out rewind clear", "tray/specs/RunCalls.antt": "run-first run-count run_end run-refused run-points run-finished", "tray/specs/Run.antt": "run-rules"}),
    ("Ticket 11, the tally", {"session_tallied/specs/Counted.antt": "run-tallied"}),
    ("Ticket 12, OpenQASM lines", {"gate_qasm/src/lib.rt": "write read", "gate_qasm/specs/Laws.antt": "same_text word-text text-word text-iff"}),
    ("Ticket 14, pattern sheets", {"pattern_sheet/src/lib.rt": "read write", "pattern_sheet/specs/Crew.antt": "crew_same crew_blind"}),
    ("What the list program prints", {"list_printing/src/lib.rt": "print_list"}),
    ("What the other programs print", {"pattern_text/src/lib.rt": "put", "job_words/src/lib.rt": "put", "qasm_file/src/lib.rt": "put_file"}),
    ("`job` of what `show` prints", {"record_text/src/lib.rt": "put", "show/specs/Show.antt": "shown-refused", "show/specs/Back.antt": "shown-back"}),
    ("Parts of a list", {"list_segment/src/lib.rt": "print", "part/specs/Joined.antt": "parts-joined parts-output"}),
    ("No word at all is shorter", {"pattern_t_count/proofs/Calls.antt": "run-fewest run-beyond"}),
]
NAME = r"[^\s(){}\[\],;`\"'.:λ∀→×≡¬]+'*"
decls, uses, modules = {}, {}, {}


class Decl:
    def __init__(self, path, start):
        self.path, self.start, self.end, self.head, self.body = path, start, start, [], []


def module_of(path):
    parts = path.relative_to(root / "crates").with_suffix("").parts
    return parts[0], parts[1], ".".join(parts[2:])


def parse(path):
    """The declarations of a file of specs/ or proofs/, and what its use lines bring."""
    lines = path.read_text().split("\n")
    found, brought, current, comment, given, opening = {}, {}, None, None, [], False
    text = "\n".join(lines)
    found_uses = list(re.finditer(r"^\s*(?:unfoldable )?(?:pub )?use (Rattle\.[^\s{]+?)(?:\.\{(.*?)\}| as (\S+))?$", text, re.M | re.S))
    for m in found_uses:
        where, some, alias = m[1], m[2], m[3]
        if some is not None:
            for item in some.replace("\n", " ").split(","):
                item = item.strip()
                if item:
                    old, _, new = item.partition(" as ")
                    brought[(new or old).strip()] = (where, old.strip())
        else:
            brought[(alias or where.rsplit(".", 1)[-1])] = (where, None)
    if len(re.findall(r"^(?!\s*--).*\buse Rattle\.", text, re.M)) != len(found_uses):
        sys.exit(f"docs/believe.py: {path.relative_to(root)} has a use line that is not understood")
    for number, line in enumerate(lines, 1):
        stripped = line.strip()
        indent = len(line) - len(line.lstrip())
        if not stripped:
            comment = None
            continue
        if stripped.startswith("--"):
            if comment is None:
                comment = number
            continue
        if opening or re.match(r"module\b", stripped):
            given = given + [stripped] if opening else [stripped]
            opening, current, comment = not stripped.endswith("where"), None, None
            continue
        if indent == 0:
            given = []
        if indent == 0 and re.match(r"(unfoldable )?(pub )?(use|mod|open|import)\b", stripped):
            current, comment = None, None
            continue
        head = re.match(r"((?:abbrev |unfoldable |pub |record |data |inductive |infixl? |infixr? )*)(" + NAME + r")\s*(.*)$", stripped)
        record = re.match(r"(?:pub )?(?:abbrev )?(?:record|data|inductive)\s+(" + NAME + ")", stripped)
        sign = re.match(r"(?:(?:abbrev|unfoldable|pub)\s+)*(" + NAME + r")\s*:\s", stripped + " ")
        if record and indent <= 2:
            current = found.setdefault(record[1], Decl(path, comment or number))
            current.head += given + [stripped]
            current.end, current.indent = number, indent
            current.record = True
            current.cases = not re.match(r"(?:pub )?(?:abbrev )?record", stripped)
        elif indent <= 2 and sign and not (current is not None and getattr(current, "record", False) and indent > current.indent) and not stripped.startswith("let "):
            current = Decl(path, comment or number)
            found.setdefault(sign[1], current)
            current.head += given + [stripped]
            current.end = number
            current.in_head = True
        elif re.match(r"unfolding\b", stripped):
            pass
        elif current is not None:
            first = re.match("(" + NAME + ")", stripped)
            if indent <= 2 and not getattr(current, "record", False) and first and " = " in stripped + " " and getattr(current, "in_head", False):
                current.in_head = False
            (current.head if getattr(current, "in_head", False) else current.body).append(stripped)
            current.end = number
            # a case of a data type leads to the type
            case = re.match(r"(?:pub )?(" + NAME + r"(?:\s+" + NAME + r")*)\s*:\s", stripped + " ") if getattr(current, "cases", False) else None
            for name in case[1].split() if case else ():
                found.setdefault(name, current)
        comment = None
    return found, brought


def struct(crate, name):
    for path in sorted((root / "crates" / crate / "src").rglob("*.rt")):
        lines = path.read_text().split("\n")
        for number, line in enumerate(lines, 1):
            if re.match(r"\s*(?:pub(?:\(crate\))? )?(struct|enum) " + re.escape(name) + r"\b", line):
                end = number
                while lines[end - 1].strip() != "}" and not lines[end - 1].rstrip().endswith(";"):
                    end += 1
                start = number
                while start > 1 and lines[start - 2].strip().startswith(("//", "#[")):
                    start -= 1
                d = Decl(path, start)
                d.end, d.body = end, lines[number - 1:end]
                return d
    return None


def load():
    for path in sorted([*root.glob("crates/*/specs/**/*.antt"), *root.glob("crates/*/proofs/**/*.antt")]):
        found, brought = parse(path)
        modules[module_of(path)] = path
        decls[path], uses[path] = found, brought


def locate(where, name, seen=()):
    """The declaration that a module has or passes on under a name."""
    m = re.match(r"Rattle\.(\w+)\.(specs|proofs)\.(.*)$", where)
    if not m:
        return None
    crate, part, inner = m[1], m[2], m[3]
    declared = re.match(r"declared\.(?:\w+\.)*?(\w+)(?:\.TheVariants)?$", inner)
    if declared:
        return struct(crate, declared[1])
    path = modules.get((crate, part, inner))
    if path is None:
        return None
    if name in decls[path]:
        return decls[path][name]
    if name in uses[path] and (path, name) not in seen:
        there, old = uses[path][name]
        if old is not None:
            return locate(there, old, seen + ((path, name),))
    return None


def names_in(text):
    """The names of a text, but for fields: those that are taken of what stands in brackets ((g x).f), given (record { f = .. }) or declared (pub f : ..)."""
    text = re.sub(r"([)\]}])(?:\." + NAME + ")+", r"\1", text)
    text = re.sub(r"([{;]\s*)" + NAME + r"\s*=", r"\1", text)
    text = re.sub(r"^(pub )?" + NAME + r"\s*: ", "", text, flags=re.M)
    return re.findall(NAME + r"(?:\." + NAME + ")*", text)


def found_at(path, where, name):
    """As locate, but a name of the project that leads nowhere is an error: nothing may be missing in silence."""
    d = locate(where, name)
    crate = re.match(r"Rattle\.(\w+)", where)
    if d is None and crate and (root / "crates" / crate[1]).is_dir():
        sys.exit(f"docs/believe.py: {path.relative_to(root)} has {name} from {where}, and it is not found there")
    return d


def followed(path, text, table):
    """The declarations that the names of a text of this file lead to."""
    out = []
    for word in names_in(text):
        # what follows a name is its fields (x.f), and what follows a module's a name of the module
        parts = word.split(".")
        if parts[0] in table:
            out.append(table[parts[0]])
        elif parts[0] in uses.get(path, {}):
            where, old = uses[path][parts[0]]
            if old is not None:
                out.append(found_at(path, where, old))
            elif len(parts) > 1:
                out.append(found_at(path, where, parts[1]))
    # operators: a name with places for its arguments, all of whose parts stand in the text
    spaced = f" {text} ".replace("\n", " ")
    for mark in [*table, *uses.get(path, {})]:
        parts = [p for p in mark.split("◌") if p]
        if "◌" in mark and parts and all(f" {p} " in spaced or f"{p} " in spaced for p in parts):
            if mark in table:
                out.append(table[mark])
            else:
                where, old = uses[path][mark]
                out.append(found_at(path, where, old or mark))
    return [d for d in out if d is not None]


def contract(path, name):
    """The contract of a function: its lines up to the body, with the names that its file brings."""
    lines = path.read_text().split("\n")
    brought = {}
    for m in re.finditer(r"^ghost use (Rattle\.[^\s{]+?)\.\{(.*?)\};$", "\n".join(lines), re.M | re.S):
        for item in m[2].replace("\n", " ").split(","):
            old, _, new = item.strip().partition(" as ")
            if old:
                brought[(new or old).strip()] = (m[1], old.strip())
    for m in re.finditer(r"^ghost use (Rattle\.\S+) as (\S+);$", "\n".join(lines), re.M):
        brought[m[2]] = (m[1], None)
    uses[path] = brought
    for number, line in enumerate(lines, 1):
        if re.match(r"\s*pub (?:extern \"C\" )?fn " + name + r"\b", line):
            end = number
            while lines[end - 1].strip() != "{" and not lines[end - 1].rstrip().endswith("{"):
                end += 1
            start = number
            while start > 1 and lines[start - 2].strip().startswith(("//", "#[")):
                start -= 1
            d = Decl(path, start)
            d.end, d.head = end - 1, lines[number - 1:end - 1]
            return d
    sys.exit(f"docs/believe.py: {path} has no public function {name}")


def closure(roots):
    """All places to read for some roots: theorems and contracts by their statements, definitions whole."""
    places, todo = {}, []
    for file, names in roots.items():
        path = root / "crates" / file
        for name in names.split():
            if path.suffix == ".rt":
                d = contract(path, name)
                table = {}
            else:
                d = decls[path].get(name)
                if d is None:
                    sys.exit(f"docs/believe.py: {file} has no {name}")
                table = decls[path]
                d = statement(d)
            places[(str(d.path), d.start)] = d
            todo += followed(path, "\n".join(d.head), table)
    while todo:
        d = todo.pop()
        key = (str(d.path), d.start)
        if key in places:
            continue
        if is_lemma(d):
            d = statement(d)
        places[key] = d
        todo += followed(d.path, "\n".join(d.head + d.body), decls.get(d.path, {}))
    return places


def is_lemma(d):
    """Whether a declaration is a proof, by its type: its outcome is an equation or an order. A definition may hold one, and then its statement is what is read."""
    if d.path.suffix != ".antt" or getattr(d, "record", False) or not d.body:
        return False
    said = " ".join(d.head).split(" : ", 1)[-1]
    return bool(re.search(r" (≡|≤|<|↔) ", said.rsplit(" → ", 1)[-1])) and not re.search(r"\bType \d", said)


def counted(places):
    """The lines of places, with comments and without."""
    rows = {(str(d.path), n) for d in places for n in range(d.start, d.end + 1)}
    texts = {path: pathlib.Path(path).read_text().split("\n") for path, _ in rows}
    plain = sum(1 for path, n in rows if texts[path][n - 1].strip() and not texts[path][n - 1].strip().startswith(("--", "//")))
    return len(rows), plain


def statement(d):
    """A theorem without its proof."""
    s = Decl(d.path, d.start)
    lines = d.path.read_text().split("\n")
    s.head, s.end = d.head, d.start
    while s.end < d.end and not all(h in "\n".join(lines[d.start - 1:s.end]) for h in d.head):
        s.end += 1
    return s


def ranges(places):
    """Lines of one file, those that touch joined."""
    out = []
    for start, end in sorted((d.start, d.end) for d in places):
        if out and start <= out[-1][1] + 2:
            out[-1][1] = max(end, out[-1][1])
        else:
            out.append([start, end])
    return ", ".join(f"{a} to {b}" if a < b else f"{a}" for a, b in out)


def by_file(places):
    files = {}
    for d in places.values():
        files.setdefault(str(d.path.relative_to(root / "crates")), []).append(d)
    return sorted(files.items())


def made():
    everything, rows, sums, group = {}, [], [], None
    for claim, roots in ROOTS:
        places = closure(roots)
        new = {k: d for k, d in places.items() if k not in everything}
        everything.update(new)
        if claim in GROUPS:
            group = GROUPS[claim]
            rows.append(f"| **{group}** | | | |")
            sums.append([group, {}])
        sums[-1][1].update(new)
        said = "; ".join(f"`{file}`: " + ", ".join(f"`{n}`" for n in names.split()) for file, names in roots.items())
        rows.append(f"| {claim} | {said} | {counted(new.values())[1]:,} | {counted(places.values())[1]:,} |")
    lines, plain = counted(everything.values())
    files = by_file(everything)
    parts = "; ".join(f"{name[0].lower() + name[1:]} {counted(places.values())[1]:,}" for name, places in sums)
    return "\n".join(
        [
            "",
            "Made by `docs/believe.py`, and compared by the gate: from the statements of the theorems and contracts in the first table every name is followed to its definition, and from there on, until only names of the toolchain are left; of a lemma that a definition holds the statement alone counts; a name of the project that leads nowhere is an error. The script goes by names, and is itself not proved. "
            f"What the claims below say is these {len(everything)} places in {len(files)} files below `crates/`, and no others: {plain:,} lines without comments and blank ones ({lines:,} with them); all else is lemma, proof or code, which the prover has read. In this order: {parts}.",
            "",
            "| Claim | Theorems, and functions with their contracts | Lines that it adds | Lines for it alone |",
            "|---|---|---|---|",
            *rows,
            "",
            "| File | Lines |",
            "|---|---|",
            *(f"| `{file}` | {ranges(places)} |" for file, places in files),
            "",
            "",
        ]
    )


HEAD = "## Read this to believe it\n"
page = root / "docs/PROOF.md"
if __name__ == "__main__":
    load()
    text = page.read_text()
    start = text.index(HEAD) + len(HEAD)
    whole = text[:start] + made() + text[text.index("\n## ", start) + 1:]
    if sys.argv[1:] == ["--check"]:
        if whole != text:
            sys.exit("docs: PROOF.md does not have the places to read as they are now (docs/believe.py writes them)")
    else:
        page.write_text(whole)
