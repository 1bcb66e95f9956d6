#!/usr/bin/env python3
"""Writes rfc3629.txt beside it: the cases of the text check, with their answers, which cases.py takes.

The answers are those of RFC 3629's grammar, taken as a regular expression, and each must be the answer of Python's own
UTF-8 decoder too. Run it after changing the list, and cases.py after it.
"""
import re
from pathlib import Path

RANGES = {  # the alternatives of UTF8-char: for each byte its first and its last value
    "UTF8-1": [(0x00, 0x7F)],
    "UTF8-2": [(0xC2, 0xDF), (0x80, 0xBF)],
    "UTF8-3 after E0": [(0xE0, 0xE0), (0xA0, 0xBF), (0x80, 0xBF)],
    "UTF8-3 after E1-EC": [(0xE1, 0xEC), (0x80, 0xBF), (0x80, 0xBF)],
    "UTF8-3 after ED": [(0xED, 0xED), (0x80, 0x9F), (0x80, 0xBF)],
    "UTF8-3 after EE-EF": [(0xEE, 0xEF), (0x80, 0xBF), (0x80, 0xBF)],
    "UTF8-4 after F0": [(0xF0, 0xF0), (0x90, 0xBF), (0x80, 0xBF), (0x80, 0xBF)],
    "UTF8-4 after F1-F3": [(0xF1, 0xF3), (0x80, 0xBF), (0x80, 0xBF), (0x80, 0xBF)],
    "UTF8-4 after F4": [(0xF4, 0xF4), (0x80, 0x8F), (0x80, 0xBF), (0x80, 0xBF)],
}
CHAR = "|".join("".join(f"[\\x{lo:02x}-\\x{hi:02x}]" for lo, hi in alternative) for alternative in RANGES.values())
OCTETS = re.compile(f"(?:{CHAR})*".encode(), re.DOTALL)


def answer(text):
    by_grammar = OCTETS.fullmatch(text) is not None
    try:
        text.decode("utf-8")
        by_python = True
    except UnicodeDecodeError:
        by_python = False
    assert by_grammar == by_python, text.hex(" ")
    return "yes" if by_grammar else "no"


def edges(alternative):
    """Each byte at, one below and one above each end of its range, the other bytes at their first and at their last values."""
    for rest in (0, 1):
        for i, (lo, hi) in enumerate(alternative):
            for value in (lo - 1, lo, lo + 1, hi - 1, hi, hi + 1):
                if 0 <= value <= 0xFF:
                    yield bytes(value if j == i else ends[rest] for j, ends in enumerate(alternative))


def prefixes(alternative):
    """A character cut short, at the end and before an ASCII byte."""
    char = bytes(lo for lo, _ in alternative)
    for n in range(1, len(char)):
        yield char[:n]
        yield char[:n] + b"a"


def blocks():
    """Characters of two to four bytes around the end of a block of 64 bytes, whole and cut short, with ASCII after them."""
    for char in ("\u00e9", "\u2262", "\U000233b4"):
        char = char.encode()
        for before in range(65 - len(char), 66):
            for tail in (0, 1, 64):
                yield b"a" * before + char + b"b" * tail
                yield b"a" * before + char[:-1] + b"b" * tail
    for n in (15, 16, 17, 31, 32, 33, 63, 64, 65, 127, 128, 129):
        yield b"a" * n
        yield b"a" * (n - 1) + b"\x80"
        yield b"\x80" + b"a" * (n - 1)


def hexes(*texts):
    return [bytes.fromhex(text) for text in texts]


groups = [
    ("RFC 3629, section 7: its four examples", hexes("41e289a2ce912e", "ed959ceab5adec96b4", "e697a5e69cace8aa9e", "efbbbff0a38eb4")),
    ("RFC 3629, section 10: the forms it warns of, C0 80 for a zero byte and 2F C0 AE 2E 2F", hexes("c080", "2fc0ae2e2f")),
    ("No byte, and one byte of each kind", hexes("", "00", "7f", "80", "bf", "c0", "c1", "c2", "df", "e0", "ef", "f0", "f4", "f5", "ff")),
    ("Overlong forms: of 2F, of the last character that a shorter form holds, and of 00",
     hexes("c0af", "e080af", "f08080af", "f8808080af", "fc80808080af", "c1bf", "e09fbf", "f08fbfbf", "c080", "e08080", "f0808080")),
    ("Surrogates: the first and the last of each half, and a pair", hexes("eda080", "edafbf", "edb080", "edbfbf", "eda080edb080")),
    ("Above 10FFFF, and forms of five and six bytes", hexes("f48fbfbf", "f4908080", "f7bfbfbf", "f888808080", "fc8480808080")),
]
groups += [(f"{name}: every edge of its ranges", list(edges(alternative))) for name, alternative in RANGES.items()]
groups += [(f"{name}: cut short", list(prefixes(alternative))) for name, alternative in RANGES.items() if len(alternative) > 1]
groups += [("Around blocks of ASCII", list(blocks()))]

lines = []
for title, texts in groups:
    lines.append("# " + title)
    lines += [f"{text.hex(' ') or '-'} {answer(text)}" for text in dict.fromkeys(texts)]
Path(__file__).with_suffix(".txt").write_text("\n".join(lines) + "\n")
