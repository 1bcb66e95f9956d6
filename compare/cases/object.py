#!/usr/bin/env python3
"""Writes crates/list_object/stdin, a small shared object that has a schema section, and crates/list_object/stdout, its listing.

The section is written below field by field, in the order of docs/FORMAT.md. An assembler file has its bytes, and the system's own
as and ld make the shared object of it:

    as -o schema.o schema.s
    ld -shared -z noseparate-code -z max-page-size=16 -o schema.so schema.o

The listing is that of the fields, with offsets from the start of the section. Another version of as or ld may lay out the rest of
the file otherwise; the listing stays the same.
"""
import pathlib
import subprocess
import tempfile

KIND, TAG, FLAG, NUMBER, COUNT, TEXT = range(1, 7)


def text(s):
    return (TEXT, s.encode())


def number(n):
    return (NUMBER, n)


# Two entities: a schema, and an enum with two variants whose SQL is left to pgrx.
SCHEMA = [(KIND, 1), text("ext::api"), text("api"), text("src/lib.rs"), number(3)]
ENUM = [
    (KIND, 5), text("Side"), text("src/lib.rs"), number(7), text("ext"), text("ext::Side"), text("ext::Side"),
    (COUNT, 2), text("Left"), text("Right"),
    (FLAG, 1), (FLAG, 0),
]
SENTINEL = b"\x00\x04\x00\x00\x00pgrx"
PADDING = 6


def four(n):
    return n.to_bytes(4, "little")


def leaf(sort, value):
    if sort == TEXT:
        return four(len(value)) + value
    return four(value) if sort in (NUMBER, COUNT) else bytes([value])


def entry(payload):
    return four(len(payload)) + payload


def entity(fields):
    return entry(b"".join(leaf(*field) for field in fields))


def rows(fields, at):
    for sort, value in fields:
        yield (sort, at + 4, len(value)) if sort == TEXT else (sort, at, value)
        at += len(leaf(sort, value))


def section():
    """The bytes of the section, and the lines of its rows."""
    s = entry(SENTINEL)
    lines = []
    for fields in (SCHEMA, ENUM):
        lines += rows(fields, len(s) + 4)
        s += entity(fields)
    return s + bytes(PADDING), lines


def shared_object(s):
    """A shared object with one function and the section .pgrxsc."""
    assembly = ["    .globl one", "    .type one, @function", "one:", "    mov $1, %eax", "    ret", "    .size one, . - one"]
    assembly += ['    .section .pgrxsc, "a", @progbits']
    assembly += ["    .byte " + ", ".join(str(b) for b in s[i : i + 16]) for i in range(0, len(s), 16)]
    with tempfile.TemporaryDirectory() as folder:
        path = pathlib.Path(folder)
        (path / "schema.s").write_text("\n".join(assembly) + "\n")
        subprocess.run(["as", "-o", "schema.o", "schema.s"], cwd=folder, check=True)
        link = ["ld", "-shared", "-z", "noseparate-code", "-z", "max-page-size=16", "-o", "schema.so", "schema.o"]
        subprocess.run(link, cwd=folder, check=True)
        return (path / "schema.so").read_bytes()


def main():
    s, lines = section()
    crate = pathlib.Path(__file__).resolve().parents[2] / "crates" / "list_object"
    (crate / "stdin").write_bytes(shared_object(s))
    listing = [f"accept 2 {len(lines)}"] + ["%d %d %d" % line for line in lines]
    (crate / "stdout").write_text("\n".join(listing) + "\n")


main()
