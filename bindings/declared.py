#!/usr/bin/env python3
"""declared: holds the declarations for C, Rust and Python to the Rattle source.

usage: declared.py c|rust|python

The source's `#[repr(C)]` structs and `#[unsafe(no_mangle)] pub extern "C"` functions give each struct's size, the offset, size and sign of each field in order, and each
call's parameters and answer. `c` and `rust` print a file that compiles only where the header, or raw.rs, has the same; `python` compares the module's own. A struct or a call that
one side lacks is an error.
"""
import pathlib
import re
import sys

ROOT = pathlib.Path(__file__).resolve().parent.parent
SIZES = {"u8": 1, "u16": 2, "u32": 4, "u64": 8, "usize": 8, "i16": 2, "i32": 4, "i64": 8}
C_TYPES = {"u8": "uint8_t", "u16": "uint16_t", "u32": "uint32_t", "u64": "uint64_t", "usize": "size_t", "i16": "int16_t", "i32": "int32_t", "i64": "int64_t"}
# the names in C; Rust and Python have the source's, but for those below
C_NAMES = {
    "Four": "point", "WideFour": "wide_point", "Eight": "operator", "Shape": "shape", "Count": "count", "Counts": "counts", "State": "session",
    "Reply": "reply", "Left": "left", "Three": "interval", "TwoWords": "wide", "Handed": "handed", "Word": "word", "Inverted": "inverted",
    "Prices": "tariff", "Ticks": "ticks", "Wrote": "wrote", "Seen": "seen", "PlainSheet": "sheet", "TrayState": "tray_session", "TrayLeft": "tray_left",
}
RUST_NAMES = {"Four": "Point", "WideFour": "WidePoint", "Eight": "Operator", "Three": "Interval", "TwoWords": "Wide", "Prices": "Tariff", "PlainSheet": "Sheet"}
# `operator` is a keyword of C++
C_FIELDS = {"operator": "op"}


def source():
    structs, calls = {}, {}
    for crate in ("library_numbers", "library_calls", "library_trays", "bowujita", "bowujita_c"):
        for path in sorted((ROOT / "crates" / crate / "src").glob("*.rt")):
            text = re.sub(r"//.*", "", path.read_text())
            for name, body in re.findall(r"#\[repr\(C\)\]\s*(?:#\[derive\([^)]*\)\]\s*)?pub struct (\w+) \{(.*?)\n\}", text, re.S):
                structs[name] = re.findall(r"pub (\w+): ([^,]+),", body)
            for name, takes, gives in re.findall(r'#\[unsafe\(no_mangle\)\]\s*pub extern "C" fn (\w+)\((.*?)\) -> (\w+)', text, re.S):
                calls[name] = ([p.split(":", 1)[1].strip() for p in takes.split(",") if p.strip()], gives)
    return structs, calls


STRUCTS, CALLS = source()


def array(kind):
    found = re.fullmatch(r"\[(\w+); (\d+)\]", kind)
    return (found[1], int(found[2])) if found else (kind, None)


def layout(kind):
    """Size and alignment by C's rules."""
    kind, count = array(kind)
    if kind in SIZES:
        size = align = SIZES[kind]
    else:
        fields, size, align = offsets(kind)
    return size * (1 if count is None else count), align


def offsets(name):
    at, most, fields = 0, 1, []
    for field, kind in STRUCTS[name]:
        size, align = layout(kind)
        at = -(-at // align) * align
        fields.append((field, kind, at, size))
        at, most = at + size, max(most, align)
    return fields, -(-at // most) * most, most


def c_type(kind):
    return C_TYPES.get(kind) or "bowujita_" + C_NAMES[kind]


def c_file():
    out = ['#include "bowujita.h"', "#ifdef __cplusplus", "#define HOLD static_assert", "#else", "#define HOLD _Static_assert", "#endif"]
    for name in STRUCTS:
        fields, size, _ = offsets(name)
        out.append(f'HOLD(sizeof({c_type(name)}) == {size}, "{name}");')
        for field, kind, at, size in fields:
            own, (kind, count) = C_FIELDS.get(field, field), array(kind)
            out.append(f'HOLD(offsetof({c_type(name)}, {own}) == {at} && sizeof((({c_type(name)} *)0)->{own}) == {size}, "{name}.{field}");')
            tail = "[0]" if count else ""
            out.append(f"static inline {c_type(kind)} *is_{name}_{field}({c_type(name)} *x) {{ return &x->{own}{tail}; }}")
    lent = {"&[u8]": "const uint8_t *, size_t", "&mut [u8]": "uint8_t *, size_t", "&mut [i32]": "int32_t *, size_t"}
    for name, (takes, gives) in CALLS.items():
        takes = ", ".join(lent.get(t) or c_type(t) for t in takes) or "void"
        out.append(f"extern {c_type(gives)} (*const call_{name})({takes});\n{c_type(gives)} (*const call_{name})({takes}) = {name};")
    header = (ROOT / "include/bowujita.h").read_text()
    said = set(re.findall(r"^[a-z]\w+ (bowujita_\w+)\(", header, re.M))
    agree("the header's calls", said, set(CALLS))
    agree("the header's structs", set(re.findall(r"^} bowujita_(\w+);", header, re.M)), {C_NAMES[n] for n in STRUCTS})
    out.append("int main(void) {\n    return 0;\n}")
    return "\n".join(out)


def rust_type(kind):
    return kind if kind in SIZES else "bowujita::Point" if kind == "Four" else "bowujita::raw::" + RUST_NAMES.get(kind, kind)


def rust_file():
    out = ["use core::mem::{offset_of, size_of};"]
    for name in STRUCTS:
        fields, size, _ = offsets(name)
        out.append(f"const _: () = assert!(size_of::<{rust_type(name)}>() == {size});")
        for field, kind, at, _ in fields:
            kind, count = array(kind)
            whole = rust_type(kind) if count is None else f"[{rust_type(kind)}; {count}]"
            out.append(f"const _: () = assert!(offset_of!({rust_type(name)}, {field}) == {at});\npub fn is_{name}_{field}(x: &{rust_type(name)}) -> &{whole} {{ &x.{field} }}".replace(f"is_{name}", f"is_{name.lower()}"))
    lent = {"&[u8]": "*const u8, usize", "&mut [u8]": "*mut u8, usize", "&mut [i32]": "*mut i32, usize"}
    for name, (takes, gives) in CALLS.items():
        takes = ", ".join(lent.get(t) or rust_type(t) for t in takes)
        out.append(f"pub const CALL_{name.upper()}: unsafe extern \"C\" fn({takes}) -> {rust_type(gives)} = bowujita::raw::{name};")
    raw = (ROOT / "bindings/rust/src/raw.rs").read_text()
    agree("the calls of raw.rs", set(re.findall(r"pub fn (bowujita_\w+)", raw)), set(CALLS))
    return "\n".join(out)


def python_check():
    sys.path.insert(0, str(ROOT / "bindings/python"))
    import ctypes

    import bowujita as module

    def python_type(kind):
        kind, count = array(kind)
        own = getattr(module, {"usize": "size"}.get(kind, kind) if kind in SIZES else re.sub(r"(?<!^)(?=[A-Z])", "_", kind).upper())
        return own * count if count else own

    for name in STRUCTS:
        own = python_type(name)
        fields, size, _ = offsets(name)
        agree(f"{name}: the size", ctypes.sizeof(own), size)
        agree(f"{name}: the fields", [(f, getattr(own, f).offset, getattr(own, f).size) for f, _ in own._fields_], [(f, at, size) for f, _, at, size in fields])
        agree(f"{name}: the types", [t for _, t in own._fields_], [python_type(kind) for _, kind, _, _ in fields])
    lent = {"&[u8]": (module._bytes, module.size), "&mut [u8]": (module._bytes, module.size), "&mut [i32]": (module._numbers, module.size)}
    calls = {name: (tuple(t for kind in takes for t in (lent.get(kind) or (python_type(kind),))), python_type(gives)) for name, (takes, gives) in CALLS.items()}
    agree("the module's calls", module.CALLS, calls)


def agree(what, said, source):
    if said != source:
        sys.exit(f"declared: {what} differ from the source:\n  said   {said}\n  source {source}")


if __name__ == "__main__":
    {"c": lambda: print(c_file()), "rust": lambda: print(rust_file()), "python": python_check}[sys.argv[1]]()
