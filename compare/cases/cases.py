#!/usr/bin/env python3
"""Writes the cases of the crate cases: its stdin, and its stdout with the counts and the tally.

Run it after a change. It takes no arguments, and prints how many cases of each letter there are. The sources are the cases below,
with answers by the rules of docs/FORMAT.md, and nine files beside this script, whose lines README.md explains:

- model.txt has answers of a model of the format that was written apart from this project and compared with the published Rust;
- entities.txt has answers of the same model to the writing of payloads and sections, paths.txt its path reports, names.txt where SQL
  names start, kept_names.txt how much of a name the server keeps, shared_objects.txt where the sections of shared objects are, and
  directory.txt which entity holds a byte;
- sample.txt has the published Rust's own answers, as `compare/run --sample 2000 --seed 3629` prints them;
- rfc3629.txt has byte strings and whether they are UTF-8, as rfc3629.py writes them.

Each case is taken once, and from some of them others are made:

- Each reading that is accepted is followed by the same with a table of just as many rows, and with one of a row less, which 13
  refuses.
- Some sections are also read from a shared object that has them (f), with the same answers.
- For each section there are cases of the path report (R), which differ in how many numbers of work are lent: as many as there are
  entities, as many as there are paths, one less, and none. Their pairs are counted here, by kind and path, on the rows of the
  section's answer. A section that is refused has one with none. If a section's length is a multiple of ten, there is one more:
  with the most work that the crate lends, or with five numbers if the section is refused.
- A path report whose answer is given is made with no work, and with as much as is always enough.
- Each writing that is accepted is followed by the same with a destination of just the length, and with one of a byte less, which
  17 refuses. Each writing but one that 17 refuses is also measured (V, v, Y, y), with no destination.

In stdin a case has its own length before it, a part stands as its bytes, a table to be written stands after the destination's size
and the count of its numbers, the destination ends the answer after a refusal too, and = stands for the bytes of the case before.
"""
from collections import Counter
from pathlib import Path

HERE = Path(__file__).resolve().parent
MODEL = ("model.txt", "entities.txt", "paths.txt", "names.txt", "kept_names.txt", "shared_objects.txt", "directory.txt")
ANSWERED = (*MODEL, "sample.txt")
CRATE = HERE.parents[1] / "crates" / "cases"
LINKED = CRATE.parent / "list_object"  # whose stdin is a shared object that object.py made, and whose stdout is its listing

READINGS = ("S", "P", "M", "G", "f")  # a section; one payload, one metadata record, one mapping, each alone; a shared object's section
ROW_PARTS = ("T", "K", "N")  # a row's text, its kept name, the SQL name from it
WRITINGS = ("W", "w", "E", "e")  # a metadata record, one mapping, one payload, a section
MEASURINGS = {"W": "V", "w": "v", "E": "Y", "e": "y"}  # the same, measured
# F is where a shared object's section is; Q is the SQL text of a mapping; R is the path report; H is what holds a byte; O is a
# section as objects; U is the text check, and C with its boundary; X is the walk over a name
LETTERS = READINGS + ("F",) + ROW_PARTS + ("Q", "R", "H") + WRITINGS + tuple(MEASURINGS.values()) + ("O", "U", "C", "X")
DIRECTORY = "D"  # a reading with a directory, which the tests of the Rust crate run
LENGTH_DIGITS = 5
NUMBERS = 2**32
MANY = 5461  # rows
ROW_WIDTH = 3
MOST_WORK = MANY * ROW_WIDTH + ROW_WIDTH - 1  # numbers
SORTS = {"kind": 1, "tag": 2, "flag": 3, "number": 4, "count": 5, "text": 6}
FULL_PATH = {2: 3, 3: 4, 4: 5, 5: 5, 6: 4, 7: 4, 8: 1, 9: 5}  # of each kind, how many rows after the kind's; a schema has none
LEAST_ENTRY = 27  # bytes, of an entity with a full_path
SENTINEL = "000400000070677278"

# Custom SQL with empty texts and no requirement, and the count 1 of its declarations; the next byte is at 35
CUSTOM_SQL = "02" + "00" * 30 + "01000000"
CUSTOM_SQL_ROWS = "1 0 2 6 5 0 6 9 0 6 13 0 6 17 0 4 17 0 6 25 0 3 25 0 3 26 0 5 27 0 5 31 1"
# A declaration of kind 1 with an empty name and an empty type_ident; its result is at 44
DECLARED = CUSTOM_SQL + "01" + "00" * 8
DECLARED_ROWS = CUSTOM_SQL_ROWS + " 2 35 1 6 40 0 6 44 0"

ADDED = [
    # Sections (FORMAT.md, Worked cases)
    ("S", "1100000001" + "00" * 16, "accept 1 5 1 4 1 6 9 0 6 13 0 6 17 0 4 17 0"),
    ("S", "-", "accept 0 0"),
    ("S", "000000", "accept 0 0"),
    ("S", "00000000", "accept 0 0"),
    ("S", "09000000" + SENTINEL, "accept 0 0"),
    ("S", "0001", "refuse 2 0"),
    ("S", "0000000005", "refuse 3 0"),
    ("S", "0200000001", "refuse 4 0"),
    ("S", "010000000a", "refuse 8 4"),
    ("S", "010000000a01", "refuse 2 5"),
    ("S", "1200000001" + "00" * 17, "refuse 12 21"),
    # One payload, record or mapping alone
    ("P", "01" + "00" * 16, "accept 1 5 1 0 1 6 5 0 6 9 0 6 13 0 4 13 0"),
    ("P", "01" + "00" * 17, "refuse 12 17"),
    ("P", "0a", "refuse 8 0"),
    ("P", SENTINEL, "refuse 8 0"),
    ("P", "-", "refuse 5 0"),
    ("P", DECLARED + "0201", "refuse 11 44"),
    ("P", DECLARED + "020701000000ff", "refuse 7 50"),
    ("P", DECLARED + "020705000000", "refuse 5 50"),
    ("P", DECLARED + "0208", "refuse 9 45"),
    ("P", DECLARED + "03", "refuse 9 44"),
    ("P", DECLARED + "0102", "refuse 5 46"),
    ("P", DECLARED + "010204", "refuse 10 44"),
    ("P", DECLARED + "010205", "refuse 9 46"),
    ("P", DECLARED + "0104", "refuse 10 44"),
    ("P", DECLARED + "0105", "refuse 10 44"),
    ("P", DECLARED + "010500", "refuse 10 44"),
    ("P", DECLARED + "0106", "refuse 9 45"),
    ("P", DECLARED + "010302", "refuse 6 46"),
    ("P", DECLARED + "01010100000061", f"accept 1 17 {DECLARED_ROWS} 2 44 1 2 45 1 6 50 1"),
    ("P", DECLARED + "0103000700000000ffffffff", f"accept 1 20 {DECLARED_ROWS} 2 44 1 2 45 3 3 46 0 4 47 7 3 51 0 4 52 4294967295"),
    ("P", CUSTOM_SQL + "0901000000", "refuse 5 40"),
    ("P", CUSTOM_SQL + "0900000000", "refuse 9 35"),
    ("P", CUSTOM_SQL + "0301000000ff", "refuse 7 40"),
    ("P", CUSTOM_SQL + "030100000061", f"accept 1 13 {CUSTOM_SQL_ROWS} 2 35 3 6 40 1"),
    ("M", "000105010105", "accept 0 6 3 0 0 2 1 1 2 2 5 2 3 1 2 4 1 2 5 5"),
    ("M", "0001050103ffffffff" + "05" * 11, "refuse 5 20"),
    ("M", "0001050103ffffffff" + "05" * 10 + "06", "refuse 9 19"),
]

SCHEMA_SECTION = ".pgrxsc"
# The sections of the shared object in LINKED: name, offset and size, as readelf -S prints them
LINKED_SECTIONS = [
    (".hash", 0x120, 0x14),
    (".gnu.hash", 0x138, 0x24),
    (".dynsym", 0x160, 0x30),
    (".dynstr", 0x190, 0x5),
    (".text", 0x195, 0x6),
    (".pgrxsc", 0x19B, 0x94),
    (".eh_frame", 0x230, 0),
    (".dynamic", 0x230, 0xC0),
    (".symtab", 0x2F0, 0x48),
    (".strtab", 0x338, 0xE),
    (".shstrtab", 0x346, 0x56),
]
# Names that none of them has
OTHER_NAMES = ["", ".", ".pgrxs", "pgrxsc", ".pgrxsc2", ".pgrxsc\0", "\0", "strtab", ".bss", ".pgrx_schema"]

# Rows: letter, bytes, sort, offset, value, answer
ADDED_ROWS = [
    ("N", b"a:::b", 6, 0, 5, "part 3 2"),
    ("N", b"a::", 6, 0, 3, "part 3 0"),
    ("N", b"abc", 6, 0, 3, "part 0 3"),
    ("N", b"::::", 6, 0, 4, "part 4 0"),
    ("N", b":::", 6, 0, 3, "part 2 1"),
    ("N", b"a::b", 6, 0, 2, "part 0 2"),
    ("N", b"a::b", 4, 0, 4, "refuse 15 0"),
    ("T", b"abc", 6, 1, 2, "part 1 2"),
    ("T", b"abc", 6, 1, 3, "refuse 15 0"),
    ("T", b"abc", 6, 3, 0, "part 3 0"),
    ("T", b"abc", 6, 4, 0, "refuse 15 0"),
    ("T", b"", 6, 0, 0, "part 0 0"),
    ("T", b"\xc3\xa9", 6, 1, 1, "refuse 15 0"),
    ("K", b"abc", 6, 1, 2, "part 1 2"),
    ("K", b"abc", 6, 1, 3, "refuse 15 0"),
    ("K", b"abc", 6, 3, 0, "part 3 0"),
    ("K", b"abc", 6, 4, 0, "refuse 15 0"),
    ("K", b"", 6, 0, 0, "part 0 0"),
    ("K", b"abc", 4, 0, 3, "refuse 15 0"),
    # The end of the bytes, behind what is kept
    ("K", b"a" * 67, 6, 3, 64, "part 3 63"),
    ("K", b"a" * 67, 6, 3, 65, "refuse 15 0"),
    ("K", b"a" * 67, 6, 4294967295, 64, "refuse 15 0"),
    ("K", b"a" * 67, 6, 3, 4294967295, "refuse 15 0"),
    # A part of a character at the start of the text, and behind what is kept
    ("K", b"\xc3\xa9" + b"a" * 64, 6, 1, 65, "refuse 15 0"),
    ("K", b"a" * 64 + b"\xc3\xa9", 6, 0, 65, "refuse 15 0"),
    ("K", b"a" * 64 + b"\xc3\xa9", 6, 1, 65, "part 1 63"),
]

# The first and the last character of 2, 3 and 4 bytes, whose continuation bytes are the least and the greatest
EDGES = [character.encode() for character in ("\u0080", "\u07ff", "\u0800", "\uffff", "\U00010000", "\U0010ffff")]

# Texts, and how many of their bytes are kept; None is one that is not UTF-8
ADDED_TEXTS = [
    *((b"a" * length, min(length, 63)) for length in (0, 1, 62, 63, 64, 65, 127, 128, 1000)),
    *((b"a" * 62 + octet * 2, 63) for octet in (b"\x00", b"\x7f")),
    # A character that begins at each place around 63, with ASCII behind it and at the end of the text
    *((b"a" * at + edge + b"b" * 70, at if at + len(edge) > 63 else 63) for edge in EDGES for at in range(58, 64)),
    *((b"a" * at + edge, at if at + len(edge) > 63 else at + len(edge)) for edge in EDGES for at in range(58, 64)),
    # Such characters alone, from each of the first places on
    *((b"a" * at + edge * 40, 63 - (63 - at) % len(edge)) for edge in EDGES for at in range(4)),
    # A wrong byte before 63, there, behind it and far behind it, and a character that is not finished
    *((b"a" * at + wrong + b"a" * 9, None) for wrong in (b"\x80", b"\xbf", b"\xc3", b"\xff") for at in (61, 62, 63, 64, 65, 200)),
    *((b"a" * at + edge[:-1], None) for edge in EDGES for at in (60, 61, 62, 63, 200)),
    *((edge * 40 + b"\x80", None) for edge in EDGES),
]

# Names, and where the SQL name starts; None is a name that is not UTF-8
ADDED_NAMES = [
    (b"", 0),
    (b"ab", 0),
    (b"a:::b", 3),
    (b"a::", 3),
    (b":", 0),
    (b"::", 2),
    (b":::", 2),
    (b"::::", 4),
    (b":::::", 4),
    (b"a:b::c:d", 5),
    (b"a::b:", 3),
    (b"a::b::", 6),
    # Colons with a character between them
    (b":\xc3\xa9:", 0),
    (b":\xf0\x9f\x98\x80::", 7),
    (b"\xe2\x82\xac::\xe2\x82\xac:", 5),
    # A wrong byte after a match, and one within it
    (b"a::b\xff", None),
    (b"a::\x80", None),
    (b":\xff:", None),
    # A character that is not finished at the end, before a colon, and before a match
    (b"a::b\xc3", None),
    (b"a::\xf0\x9f\x98", None),
    (b"\xe2\x82:", None),
    (b"\xc3::b", None),
    # Longer ones, with ASCII before and after other characters
    (b"a" * 63 + b"::b", 65),
    (b"a" * 64 + b"::" + b"b" * 64, 66),
    (b"exercise::" * 9 + "\u00fc::bung".encode(), 94),
    ("\u00fc::".encode() + b"exercise::" * 9 + b"note", 94),
    (b"exercise::" * 9 + b"\xfc", None),
]

# Numeric mappings: the bytes after the tag, and the SQL text
ADDED_NUMERIC = [
    ("010a0000000102000000", b"NUMERIC(10, 2)"),
    ("00000000000105000000", b"NUMERIC"),
    ("00090000000105000000", b"NUMERIC"),
    ("010a0000000002000000", b"NUMERIC(10)"),
    ("01ffffffff01ffffffff", b"NUMERIC(4294967295, 4294967295)"),
]

# The rows of a record (FORMAT.md, Worked cases), the first rows of one that returns a table, and the rows of one with 1024 columns,
# up to the last column's text. If that has 16370 bytes, the record has 16,777,216
RECORD = "3,0,0 2,1,1 2,2,5 2,3,1 2,4,1 2,5,5"
RETURNS_TABLE = "3,0,0 2,0,2 2,0,1 2,0,1 2,0,3"
LONG = RETURNS_TABLE + " 5,0,1024" + " 2,0,1 6,0,16379" * 1023 + " 2,0,1"
LONG_TEXT = b"a" * 16379

# The rows of a schema (FORMAT.md, Worked cases) and of a trigger, and their payloads
SCHEMA = "1,4,1 6,0,0 6,0,0 6,0,0 4,17,0"
SCHEMA_BYTES = "01" + "00" * 16
TRIGGER = "1,0,9 6,0,1 6,2,1 4,9,258 6,1,2 6,3,0 3,0,1 3,0,1 6,0,3"
TRIGGER_BYTES = "09" + "0100000061" + "0100000063" + "02010000" + "020000006263" + "00000000" + "0101" + "03000000616263"

# The rows of custom SQL up to the name and the type_ident of one declaration, of kind 1 or 2
DECLARES = "1,0,2 6,0,0 6,0,0 6,0,0 6,0,0 4,0,0 6,0,0 3,0,0 3,0,0 5,0,0 5,0,1"
DECLARES_TYPE = DECLARES + " 2,0,1 6,0,0 6,0,0"
DECLARES_ENUM = DECLARES + " 2,0,2 6,0,0 6,0,0"

# The rows of an enum with 1025 variants, up to the last one's text, and the flags after it. If that text has 989 bytes, the
# payload has 16,777,216
LONG_ENUM = "1,0,5 6,0,0 6,0,0 4,0,0 6,0,0 6,0,0 6,0,0 5,0,1025" + " 6,0,16379" * 1024
NO_TO_SQL = " 3,0,0 3,0,0"


def long_section(length, count=342):
    """The rows of schemas whose section has that length. Each has 21 bytes beside its three texts, the length of its entry included."""
    texts = 3 * count
    least, longer = divmod(length - 21 * count, texts)
    sizes = [least + (number < longer) for number in range(texts)]
    assert max(sizes) <= len(LONG_TEXT)
    rows = ("1,0,1 6,0,%d 6,0,%d 6,0,%d 4,0,0" % tuple(sizes[at : at + 3]) for at in range(0, texts, 3))
    return " ".join(rows)


def entry(payload):
    return four(len(payload) // 2).hex() + payload


def four(number):
    return number.to_bytes(4, "little")


# Writings: letter, table, lent text, and what is written; the destination has three bytes more
ADDED_WRITES = [
    ("W", RECORD, b"", "000105010105"),
    # The offsets of other rows than texts
    ("W", "3,9,0 2,9,1 2,9,5 2,4294967295,1 2,0,1 2,9,5", b"", "000105010105"),
    # Other tags
    ("W", "3,0,1 6,1,2 2,0,2 2,0,1 2,0,1 6,0,1 2,0,1 2,0,2 2,0,4", b"abc", "010200000062630201010100000061010204"),
    ("W", "3,0,0 2,0,2 2,0,7 6,3,0 2,0,2 2,0,10", b"abc", "00020700000000020a"),
    ("W", RETURNS_TABLE + " 5,0,0", b"", "000201010300000000"),
    ("W", RETURNS_TABLE + " 5,0,2 2,0,4 2,0,5", b"", "0002010103020000000405"),
    ("w", "2,0,5", b"", "05"),
    ("w", "2,0,2 2,0,1 6,1,2", b"abc", "0201020000006263"),
    # Texts at the end of the lent bytes, one between bytes that are no text, and one with the bytes of another
    ("w", "2,0,1 6,3,0", b"abc", "0100000000"),
    ("w", "2,0,1 6,0,3", b"abc", "0103000000616263"),
    ("w", "2,0,1 6,0,0", b"", "0100000000"),
    ("w", "2,0,1 6,1,2", b"\xffab\xff", "01020000006162"),
    ("W", "3,0,1 6,0,2 2,0,1 2,0,1 2,0,1 6,1,2 2,0,2 2,0,1", b"abc", "010200000061620101010200000062630201"),
    # Unused numbers
    ("w", "2,0,3 3,0,0 4,0,7 3,0,0 4,0,4294967295", b"", "03000700000000ffffffff"),
    ("w", "2,0,2 2,0,3 3,0,0 4,0,9 3,0,1 4,0,256", b"", "020300090000000100010000"),
    # Payloads and sections
    ("E", SCHEMA, b"", SCHEMA_BYTES),
    ("e", SCHEMA, b"", entry(SCHEMA_BYTES)),
    ("E", TRIGGER, b"abc", TRIGGER_BYTES),
    ("e", " ".join([SCHEMA, TRIGGER, SCHEMA]), b"abc", entry(SCHEMA_BYTES) + entry(TRIGGER_BYTES) + entry(SCHEMA_BYTES)),
    ("e", " ".join([TRIGGER, TRIGGER]), b"abc", entry(TRIGGER_BYTES) * 2),
    # Declarations As and Numeric, and of a function
    ("E", DECLARES_TYPE + " 2,0,1 2,0,1 6,0,1", b"a", DECLARED + "01010100000061"),
    ("E", DECLARES_TYPE + " 2,0,1 2,0,3 3,0,0 4,0,7 3,0,0 4,0,4294967295", b"", DECLARED + "0103000700000000ffffffff"),
    ("E", DECLARES + " 2,0,3 6,0,1", b"a", CUSTOM_SQL + "030100000061"),
]

# Writings that are refused: letter, table, lent text, the destination's size, and the number
ADDED_REFUSED_WRITES = [
    # Tables that are empty, no whole rows, too short or too long
    ("W", "", b"", 9, 14),
    ("w", "", b"", 0, 14),
    ("W", RECORD + " 0", b"", 9, 14),
    ("W", RECORD + " 0,0", b"", 9, 14),
    ("W", RECORD + " 0,0,0", b"", 9, 14),
    ("W", RECORD + " 2,5,5", b"", 9, 14),
    ("W", RECORD[:-6], b"", 9, 14),
    ("W", RECORD[:-4], b"", 9, 14),
    ("W", RECORD[:-2], b"", 9, 14),
    ("w", "2,0,5 0,0,0", b"", 9, 14),
    ("W", "2,0,5", b"", 9, 14),
    ("w", RECORD, b"", 9, 14),
    # Sorts and values that are right in their last bytes only
    ("w", "258,0,5", b"", 9, 14),
    ("w", "65538,0,5", b"", 9, 14),
    ("w", "2,0,257 6,0,0", b"", 9, 14),
    ("w", "2,0,261", b"", 9, 14),
    ("w", "2,0,65541", b"", 9, 14),
    ("w", "2,0,16777221", b"", 9, 14),
    ("w", "2,0,1 262,0,0", b"", 9, 14),
    ("w", "2,0,3 3,0,256 4,0,0 3,0,0 4,0,0", b"", 19, 14),
    ("W", "3,0,256 2,1,1 2,2,5 2,3,1 2,4,1 2,5,5", b"", 9, 14),
    # Other sorts than are due
    ("w", "1,0,5", b"", 9, 14),
    ("w", "257,0,5", b"", 9, 14),
    ("w", "6,0,5", b"abcde", 9, 14),
    ("w", "2,0,1 4,0,0", b"", 9, 14),
    ("w", "2,0,3 3,0,0 5,0,0 3,0,0 4,0,0", b"", 19, 14),
    ("W", RETURNS_TABLE + " 4,0,0", b"", 19, 14),
    # Unknown tags and flags
    ("w", "2,0,0", b"", 9, 14),
    ("w", "2,0,6", b"", 9, 14),
    ("w", "2,0,2 2,0,2 2,0,4", b"", 9, 14),
    ("w", "2,0,2 2,0,5", b"", 9, 14),
    ("w", "2,0,3 3,0,0 4,0,0 3,0,2 4,0,0", b"", 19, 14),
    ("W", "3,0,1 6,0,0 2,0,3 2,0,2 2,0,1 2,0,2 2,0,1", b"", 19, 14),
    ("W", "3,0,0 2,0,2 2,0,8 2,0,2 2,0,1", b"", 9, 14),
    ("W", "3,0,0 2,0,2 2,0,1 2,0,2 2,0,11", b"", 9, 14),
    ("W", "3,0,0 2,0,2 2,0,1 2,0,3 2,0,1", b"", 9, 14),
    ("W", "3,0,0 2,0,2 2,0,1 2,0,1 2,0,4", b"", 9, 14),
    # Counts of other lists
    ("W", RETURNS_TABLE + " 5,0,1 2,0,4 2,0,5", b"", 19, 14),
    ("W", RETURNS_TABLE + " 5,0,3 2,0,4 2,0,5", b"", 19, 14),
    ("W", RETURNS_TABLE + " 5,0,4294967295 2,0,5", b"", 19, 14),
    # Texts that leave the lent bytes, and parts of a character
    ("w", "2,0,1 6,4,0", b"abc", 9, 15),
    ("w", "2,0,1 6,1,3", b"abc", 9, 15),
    ("w", "2,0,1 6,1,4294967295", b"abc", 9, 15),
    ("w", "2,0,1 6,4294967295,1", b"abc", 9, 15),
    ("w", "2,0,1 6,4294967295,4294967295", b"abc", 9, 15),
    ("w", "2,0,1 6,0,1", b"\xc3\xa9", 9, 15),
    ("w", "2,0,1 6,1,1", b"\xc3\xa9", 9, 15),
    ("W", "3,0,1 6,0,0 2,0,1 2,0,1 2,0,1 6,0,4 2,0,2 2,0,1", b"abc", 99, 15),
    ("W", "3,0,1 6,0,4 2,0,1 2,0,1 2,0,1 6,0,0 2,0,2 2,0,1", b"abc", 99, 15),
    # Where more than one number is met
    ("W", "3,0,1 6,0,4 2,0,1 2,0,1 2,0,1 6,0,0 2,0,2 2,0,11", b"abc", 99, 14),
    ("W", "3,0,1 6,0,4 2,0,1 2,0,1 2,0,1 6,0,0 2,0,2 2,0,1 0", b"abc", 99, 14),
    ("w", "2,0,1 6,4,0 0,0,0", b"abc", 0, 14),
    ("w", "2,0,1 6,4,0", b"abc", 0, 15),
    # Lengths above the limit, and the limit itself
    ("W", LONG + " 6,0,16371", LONG_TEXT, 9, 16),
    ("W", LONG + " 6,0,16370", LONG_TEXT, 9, 17),
    ("W", LONG + " 6,0,16380", LONG_TEXT, 9, 15),
    ("E", LONG_ENUM + " 6,0,990" + NO_TO_SQL, LONG_TEXT, 9, 16),
    ("E", LONG_ENUM + " 6,0,989" + NO_TO_SQL, LONG_TEXT, 9, 17),
    # The lengths of a section's entries count too
    ("e", LONG_ENUM + " 6,0,989" + NO_TO_SQL, LONG_TEXT, 9, 16),
    ("e", LONG_ENUM + " 6,0,986" + NO_TO_SQL, LONG_TEXT, 9, 16),
    ("e", LONG_ENUM + " 6,0,985" + NO_TO_SQL, LONG_TEXT, 9, 17),
    ("e", long_section(16777217), LONG_TEXT, 9, 16),
    ("e", long_section(16777216), LONG_TEXT, 9, 17),
    # Rows of no entity, of more than one, and of a record or a mapping
    ("E", "", b"", 9, 14),
    ("e", "", b"", 9, 14),
    ("E", SCHEMA + " " + SCHEMA, b"", 99, 14),
    ("E", SCHEMA + " 0,0,0", b"", 99, 14),
    ("e", SCHEMA + " 0,0,0", b"", 99, 14),
    ("e", SCHEMA + " 0", b"", 99, 14),
    ("e", SCHEMA + " 0,0", b"", 99, 14),
    ("e", SCHEMA + " 1,0,1", b"", 99, 14),
    ("e", SCHEMA + " " + SCHEMA[6:], b"", 99, 14),
    ("e", SCHEMA[6:] + " " + SCHEMA, b"", 99, 14),
    ("E", RECORD, b"", 99, 14),
    ("e", RECORD, b"", 99, 14),
    ("W", SCHEMA, b"", 99, 14),
    # Kinds that are unknown, and the sentinel's
    ("E", "1,0,10" + SCHEMA[5:], b"", 99, 14),
    ("E", "1,0,257" + SCHEMA[5:], b"", 99, 14),
    ("e", "1,0,0" + SCHEMA[5:], b"", 99, 14),
    ("e", "1,0,0 6,0,4", b"pgrx", 99, 14),
    ("E", "2,0,1" + SCHEMA[5:], b"", 99, 14),
    # Declarations with an error, and with another mapping
    ("E", DECLARES_TYPE + " 2,0,2 2,0,1", b"", 99, 14),
    ("E", DECLARES_TYPE + " 2,0,2 2,0,7 6,0,0", b"", 99, 14),
    ("E", DECLARES_TYPE + " 2,0,1 2,0,4", b"", 99, 14),
    ("E", DECLARES_TYPE + " 2,0,1 2,0,5", b"", 99, 14),
    ("E", DECLARES_TYPE + " 2,0,1 2,0,2 2,0,1 6,0,0", b"", 99, 14),
    ("E", DECLARES_ENUM + " 2,0,1 2,0,4", b"", 99, 14),
    ("e", DECLARES_ENUM + " 2,0,2 2,0,1", b"", 99, 14),
    ("E", DECLARES + " 2,0,4 6,0,0", b"", 99, 14),
    # Texts of the second entity, and 14 after a bad text
    ("e", SCHEMA + " " + TRIGGER, b"ab", 99, 15),
    ("e", TRIGGER + " " + SCHEMA, b"ab\xff", 99, 15),
    ("e", TRIGGER + " 1,0,1", b"ab", 99, 14),
    ("e", DECLARES_TYPE.replace("6,0,0", "6,9,0") + " 2,0,1 2,0,4", b"", 99, 14),
]


def flags(*values):
    return [("flag", value) for value in values]


def tags(*values):
    return [("tag", value) for value in values]


def entity(kind, path, module=b"m", used=b"u"):
    """The leaves of an entity of that kind, with that full_path; an aggregate's state has a type with the full_path used."""
    path, module, used = ("text", path), ("text", module), ("text", used)
    name, file, line, ident = ("text", b"n"), ("text", b"f.rs"), ("number", 7), ("text", b"i")
    none = ("count", 0)
    to_sql = flags(1, 0)
    skip = [*flags(0), *tags(1, 5, 1, 1, 5)]
    fields = {
        1: [module, name, file, line],
        2: [ident, module, path, file, line, name, *flags(0, 1), none, none],
        3: [name, name, module, path, none, *tags(1), *flags(0), file, line, none, *flags(0, 0, 0), *to_sql],
        4: [name, file, line, module, path, ident, name, name, *flags(0, 0), *to_sql, *flags(0)],
        5: [name, file, line, module, path, ident, ("count", 2), name, path, *to_sql],
        6: [name, file, line, path, module, ident, *to_sql],
        7: [name, file, line, path, module, ident, *to_sql],
        8: [path, module, file, line, name, *flags(0), none, *flags(0, 0), ident, used, *flags(0, 0, 0, 0), *skip, name]
        + [*flags(*[0] * 15), *to_sql],
        9: [name, file, line, module, path, *to_sql],
    }
    return [("kind", kind), *fields[kind]]


# Path reports: the entities of a section, and how many pairs repeat a path. None is a sentinel
ADDED_REPORTS = [
    ([entity(4, b"p"), entity(6, b"p"), entity(7, b"p")], 0),  # a type with its ord and hash
    ([entity(5, b"p"), entity(7, b"p"), entity(6, b"p")], 0),  # an enum with its hash and ord
    ([entity(6, b"p"), entity(7, b"p")], 0),
    ([entity(3, b"p"), entity(3, b"p")], 1),  # two functions
    ([entity(3, b"p"), None, entity(4, b"p"), entity(3, b"p")], 1),
    ([entity(1, b"", b"p"), entity(1, b"", b"p")], 0),  # schemas
    ([entity(6, b"p"), entity(7, b"p"), entity(6, b"p"), entity(7, b"p")], 2),
    ([entity(kind, b"p") for kind in range(2, 10)], 0),
    ([entity(kind, b"p") for kind in range(2, 10)] * 2, 8),
    ([entity(kind, b"p") for kind in range(2, 10)] * 3, 24),
    ([entity(kind, path) for path in (b"p", b"q") for kind in (9, 6, 9, 7, 9)], 6),
]

# Further sections for the path report
ADDED_SECTIONS = [
    [entity(2, b"a::p"), entity(3, b"a::p"), entity(4, b"a::p")],
    [entity(6, b"p"), entity(7, b"q")],
    [entity(6, b"p", b"m"), entity(7, b"p", b"k")],
    [entity(7, b"p"), entity(7, b"p"), entity(6, b"q"), entity(6, b"q")],
    [entity(kind, b"p", b"p") for kind in range(1, 10)],
    [entity(kind, b"p%d" % kind, b"p") for kind in range(1, 10)],
    [entity(1, b"", b"p"), entity(1, b"", b"p")],
    [None, entity(6, b"p"), None, None, entity(1, b"", b"p"), entity(9, b"p"), None, entity(5, b"p"), None],
    [entity(4, b"p", b"q"), entity(6, b"q", b"p")],
    [entity(8, b"p", b"m", b"q"), entity(3, b"q"), entity(9, b"m")],
    [entity(8, b"p", b"m", b"q"), entity(8, b"r", b"m", b"q")],
    [entity(2, b""), entity(9, b"")],
    [entity(5, b"ab"), entity(5, b"a"), entity(5, b"abc"), entity(5, b"ac"), entity(5, b"bb")],
    [entity(3, b"p"), entity(4, b"q"), entity(5, b"p"), entity(9, b"q")],
    [entity(2 + number % 8, b"p", b"%d" % number) for number in range(20)],
]

# Paths for the sorting, and how often each is there: 40 together, in runs of 1, 2, 3 and 7
RUNS = [
    (b"", 2),
    (b"a", 1),
    (b"a::b", 7),
    (b"a::b::c", 3),
    (b"a::c", 1),
    (b"b", 2),
    (b"ba", 3),
    (b"m::first", 7),
    (b"m::firsu", 1),
    (b"m::second", 2),
    (b"z" * 39 + b"y", 3),
    (b"z" * 40, 7),
    ("\u00e9".encode(), 1),
]


KINDS = range(2, 10)  # those with a path


def entities_with(paths, kinds=KINDS):
    """An entity for each path, of the kinds by turns."""
    return [entity(kinds[number % len(kinds)], path) for number, path in enumerate(paths)]


def sorted_sections():
    """Sections whose paths stand in several orders."""
    rising = [path for path, count in RUNS for _ in range(count)]
    scattered = [rising[number * 17 % len(rising)] for number in range(len(rising))]
    for paths in (rising, rising[::-1], scattered, sorted(scattered, key=len)):
        yield entities_with(paths)
        yield entities_with(paths, [9])
        yield entities_with(paths, [7, 6])
    # All different: in the last byte alone, each a prefix of the next, and bytes above 127 among others
    last = [b"exercise::note_%x" % number for number in range(16)]
    prefixes = [b"exercise"[:length] for length in range(9)]
    bytewise = [text.encode() for text in ("z", "\u00ff", "a", "\u0080", "\U00010000", "\u00e9", "\x00", "")]
    for paths in (last, prefixes, bytewise):
        yield entities_with(paths)
        yield entities_with(paths[::-1], [3])
        yield entities_with(paths + paths[:1], [4])
    # One pair, of the first and the last, among 2 to 9
    for count in range(2, 10):
        yield entities_with([b"%d" % (number % (count - 1)) for number in range(count)], [count])
        yield entities_with([b"%d" % (-number % (count - 1)) for number in range(count)], [count])
    # With schemas, which have no path
    yield [entity(1, b""), entity(9, b"b"), entity(1, b""), entity(9, b"a"), entity(1, b""), entity(3, b"b"), entity(1, b"")]


# A section of two schemas, each after a sentinel, with padding; of the sentinels, the schemas and the padding the first positions and
# the last, then positions past the end; and which entity holds them
HELD = 2 * (entry(SENTINEL) + entry(SCHEMA_BYTES)) + "000000"
ADDED_HOLDERS = [
    *((0, None), (12, None), (13, 0), (16, 0), (17, 0), (33, 0)),
    *((34, None), (46, None), (47, 1), (50, 1), (51, 1), (67, 1)),
    *((68, None), (70, None), (71, None), (NUMBERS + 13, None), (2**64 - 1, None)),
]


def hexadecimal(octets):
    return octets.hex() or "-"


def octets_of(field):
    return bytes.fromhex(field.replace("-", ""))


def section(items, padding):
    """The bytes of a section, and the answer to its reading."""
    octets, rows = b"", []
    for item in items:
        if item is None:
            octets += four(9) + bytes.fromhex(SENTINEL)
            continue
        start, payload = len(octets) + 4, b""
        for sort, value in item:
            at = start + len(payload)
            if sort == "text":
                payload += four(len(value)) + value
                at, value = at + 4, len(value)
            else:
                payload += four(value) if sort in ("number", "count") else bytes([value])
            rows += [SORTS[sort], at, value]
        octets += four(len(payload)) + payload
    entities = len(items) - items.count(None)
    answer = ["accept", entities, len(rows) // ROW_WIDTH, *rows]
    return octets + bytes(padding), " ".join(map(str, answer))


def shared_object(octets):
    """An ELF file, 64-bit and little-endian, whose section .pgrxsc has these bytes."""
    names = b"\0.shstrtab\0" + SCHEMA_SECTION.encode() + b"\0"
    start = 64 + len(names)
    end = start + len(octets)
    # Of the file header: class 64, little-endian, a shared object for x86-64, and where its section headers are
    file_header = b"\x7fELF" + bytes([2, 1, 1]) + bytes(9) + bytes([3, 0, 62, 0, 1, 0, 0, 0]) + bytes(16)
    file_header += end.to_bytes(8, "little") + bytes(4) + bytes([64, 0, 0, 0, 0, 0, 64, 0, 3, 0, 1, 0])

    def header(name, kind, offset, size):
        fields = four(name) + four(kind) + bytes(16) + offset.to_bytes(8, "little") + size.to_bytes(8, "little")
        return fields + bytes(8) + (1).to_bytes(8, "little") + bytes(8)

    headers = bytes(64) + header(1, 3, 64, len(names)) + header(11, 1, start, len(octets))
    return file_header + names + octets + headers


def linked():
    """The cases of a shared object that the system's linker made."""
    field = (LINKED / "stdin").read_bytes().hex()
    for name, offset, size in LINKED_SECTIONS:
        yield f"F {field} {hexadecimal(name.encode())} part {offset} {size}"
    for name in OTHER_NAMES:
        yield f"F {field} {hexadecimal(name.encode())} refuse 20 0"
    yield f"f {MANY} {field} {' '.join((LINKED / 'stdout').read_text().split())}"


def answered():
    """The cases as lines of the files, and those added."""
    for name in ANSWERED:
        yield from (HERE / name).read_text().splitlines()
    yield from linked()
    # Not ELF; a section, but no shared object; and one of another name
    yield f"f {MANY} - refuse 18 0"
    yield f"f {MANY} {entry(SCHEMA_BYTES)} refuse 18 0"
    yield f"f {MANY} {shared_object(b'').replace(b'.pgrxsc', b'.pgrxsd').hex()} refuse 20 0"
    for letter, field, answer in ADDED:
        yield f"{letter} {MANY} {field} {answer}"
    for padding, items in enumerate([*ADDED_SECTIONS, *sorted_sections()]):
        octets, answer = section(items, padding)
        yield f"S {MANY} {hexadecimal(octets)} {answer}"
    for items, pairs in ADDED_REPORTS:
        yield f"R {hexadecimal(section(items, 0)[0])} count {pairs}"
    for letter, octets, sort, offset, value, answer in ADDED_ROWS:
        yield f"{letter} {hexadecimal(octets)} {sort} {offset} {value} {answer}"
    for octets, kept in ADDED_TEXTS:
        yield f"C {hexadecimal(octets)} {'no' if kept is None else f'kept {kept}'}"
        # And as the text of a row, between bytes that are no text
        answer = "refuse 15 0" if kept is None else f"part 1 {kept}"
        yield f"K ff{octets.hex()}ff {SORTS['text']} 1 {len(octets)} {answer}"
    for octets, start in ADDED_NAMES:
        yield f"X {hexadecimal(octets)} {'no' if start is None else f'start {start}'}"
    for first, index in ADDED_HOLDERS:
        yield f"H {HELD} {first} {'none' if index is None else f'entity {index}'}"
    for numbers, text in ADDED_NUMERIC:
        yield f"Q ff03{numbers}ff 1 31 buffer 0 {len(text)} {text.hex()}{'ee' * (31 - len(text))}"
    for letter, table, text, written in ADDED_WRITES:
        length = len(octets_of(written))
        yield f"{letter} {table.replace(' ', ',')} {hexadecimal(text)} {length + 3} wrote {length} {written}{untouched(3)}"
    for letter, table, text, size, number in ADDED_REFUSED_WRITES:
        yield f"{letter} {table.replace(' ', ',') or '-'} {hexadecimal(text)} {size} refuse {number} 0"
    for line in (HERE / "rfc3629.txt").read_text().splitlines():
        if not line.startswith("#"):
            *octets, answer = line.split(" ")
            yield f"U {''.join(octets)} {answer}"


def reading(line):
    """A case of reading, and the same with other tables."""
    letter, rows, field, verdict, *numbers = line.split(" ")
    if verdict == "refuse":
        yield f"{letter} {rows} {field} {' '.join(numbers)}"
        return
    needed = int(numbers[1])
    assert needed <= int(rows) <= MANY and len(numbers) == 2 + ROW_WIDTH * needed, line
    for size in (rows, needed):
        yield f"{letter} {size} {field} 0 0 {' '.join(numbers)}"
    if needed > 0:
        yield f"{letter} {needed - 1} {field} 13 0"


def object_reading(line):
    """The reading of a section from a shared object, for one section in ten, but no long one."""
    letter, rows, field, answer = line.split(" ", 3)
    octets = octets_of(field)
    if len(octets) % 10 == 5 and len(octets) < 10000:
        yield f"f {rows} {shared_object(octets).hex()} {answer}"


def finding(line):
    letter, field, name, verdict, *numbers = line.split(" ")
    first, second = map(int, numbers)
    octets = octets_of(name)
    answer = f"{first} {second} {first} {second} -"
    if verdict == "part":
        answer = f"0 0 {first} {second} 0 0 {part(field, first, second)}"
    return f"{letter} {','.join(map(str, [len(octets), *octets]))} {field} {answer}"


def row_part(line):
    letter, field, sort, offset, value, verdict, *numbers = line.split(" ")
    first, second = map(int, numbers)
    answer = f"{first} {second} -"
    if verdict == "part":
        answer = f"0 0 {part(field, first, second)}"
    return f"{letter} {sort},{offset},{value} {field} {answer}"


def sql_text(line):
    letter, field, offset, size, verdict, first, second, *rest = line.split(" ")
    answer = f"{first} {second} - {untouched(int(size))} {first} {second}"
    if verdict != "refuse":
        answer = f"0 0 {part(field if verdict == 'section' else rest[0], int(first), int(second))} {rest[0]} 0 0"
    return f"{letter} {offset},{size} {field} {answer}"


def part(field, start, length):
    octets = octets_of(field)
    assert start + length <= len(octets)
    return hexadecimal(octets[start : start + length])


def untouched(size):
    """A buffer of that size as it was lent."""
    return "ee" * size or "-"


def writing(line):
    """A case of writing, and the same with other destinations."""
    letter, table, field, size, verdict, first, second = line.split(" ")
    numbers = [] if table == "-" else table.split(",")

    def case(room, answer):
        return f"{letter} {','.join([str(room), str(len(numbers)), *numbers])} {field} {answer}"

    if verdict == "refuse":
        yield case(size, f"{first} {second} {untouched(int(size))}")
        return
    length = int(first)
    written = second[: 2 * length]
    assert second == written + "ee" * (int(size) - length), line
    yield case(size, f"0 0 {length} {second}")
    yield case(length, f"0 0 {length} {written}")
    yield case(length - 1, f"17 0 {untouched(length - 1)}")


def measuring(line):
    """The case of measuring what a writing was given, unless only the destination was refused."""
    letter, table, field, _, verdict, first, _ = line.split(" ")
    numbers = [] if table == "-" else table.split(",")
    if verdict != "refuse" or first != "17":
        answer = f"{first} 0" if verdict == "refuse" else f"0 0 {first}"
        yield f"{MEASURINGS[letter]} {','.join(['0', str(len(numbers)), *numbers])} {field} {answer} -"


def path_report(line):
    """The cases of the path report for a section, unless only the table was refused."""
    letter, rows, field, verdict, *numbers = line.split(" ")
    if numbers[0] == "13" and verdict == "refuse":
        return
    octets = octets_of(field)
    works, answer = [0], " ".join(numbers)
    if verdict == "accept":
        paths = kinds_and_paths(octets, list(map(int, numbers[2:])))
        works = [int(numbers[0]), len(paths), max(len(paths) - 1, 0), 0]
        answer = f"0 0 {sum(count * (count - 1) // 2 for count in Counter(paths).values())}"
    if len(octets) % 10 == 0:
        works.append(MOST_WORK if verdict == "accept" else 5)
    for work in works:
        yield f"R {work} {field} {answer}"


def given_report(line):
    """The cases of a path report whose answer is given."""
    letter, field, verdict, *numbers = line.split(" ")
    answer = " ".join(numbers if verdict == "refuse" else ["0", "0", *numbers])
    for work in (0, len(octets_of(field)) // LEAST_ENTRY):
        yield f"{letter} {work} {field} {answer}"


def kinds_and_paths(octets, numbers):
    """The kind and the full_path of each entity that has one, from the rows of a section."""
    rows = [numbers[at : at + ROW_WIDTH] for at in range(0, len(numbers), ROW_WIDTH)]
    paths = []
    for at, (sort, _, kind) in enumerate(rows):
        if sort == SORTS["kind"] and kind in FULL_PATH:
            sort, offset, length = rows[at + FULL_PATH[kind]]
            assert sort == SORTS["text"]
            paths.append((kind, octets[offset : offset + length]))
    return paths


def holder(line):
    """The case of what holds a byte."""
    letter, field, position, verdict, *numbers = line.split(" ")
    upper, lower = divmod(int(position), NUMBERS)
    answer = {"entity": ["0", "0", "1", *numbers], "none": ["0"] * 4, "refuse": numbers}[verdict]
    return f"{letter} {lower},{upper} {field} {' '.join(answer)}"


def cases():
    for line in answered():
        letter = line[0]
        if letter == DIRECTORY:
            continue
        assert letter in LETTERS, line
        if letter in READINGS:
            yield from reading(line)
        if letter == "S":
            yield from path_report(line)
            for other in object_reading(line):
                yield from reading(other)
        if letter == "F":
            yield finding(line)
        if letter == "R":
            yield from given_report(line)
        if letter == "H":
            yield holder(line)
        if letter in ROW_PARTS:
            yield row_part(line)
        if letter == "Q":
            yield sql_text(line)
        if letter in WRITINGS:
            yield from writing(line)
            yield from measuring(line)
        if letter in ("O", "U", "C", "X"):
            yield f"{letter} 0 {line[2:]}"


def shortened(lines):
    """The lines, with = for bytes that are those of the line before."""
    before = None
    for line in lines:
        letter, numbers, field, answer = line.split(" ", 3)
        yield " ".join([letter, numbers, "=" if field == before else field, answer])
        before = field


def main():
    lines = list(dict.fromkeys(cases()))
    assert all(len(line) < 10**LENGTH_DIGITS for line in lines)
    tally = Counter(line.split(" ")[3] == "0" for line in lines if line[0] == "S")
    stdin = [f"{len(line):0{LENGTH_DIGITS}} {line}" for line in shortened(lines)]
    stdout = [f"cases {len(lines)}", "differ 0", f"tally {tally[True]} {tally[False]}"]
    for name, written in (("stdin", stdin), ("stdout", stdout)):
        (CRATE / name).write_text("\n".join(written) + "\n")
    letters = Counter(line[0] for line in lines)
    print(" ".join(f"{letter} {letters[letter]}" for letter in LETTERS))


if __name__ == "__main__":
    main()
