#!/usr/bin/env python3
"""Brings the names that this repository defines to today's spelling, once, after the kit's port.py: run at the top.

Definitions, constructors, fields and lemmas go to snake case, and types and statements to upper camel case. A lemma that would get
the name of a definition ends in `_lem`. The crate `bytes`, whose name a library of the kit has, becomes `raw_bytes`. Names of the
kit, functions of src/, C names, strings, inputs and outputs stay.
"""
import glob
import os
import re
import subprocess
import sys

NAME = r"[A-Za-z_][\w'₀-₉]*(?:-[\w'₀-₉]+)*"
TOKEN = re.compile(r"[A-Za-z_][\w'₀-₉*]*(?:-[\w'₀-₉*]+)*")
DECLARED = re.compile(rf"^(\s*)(?:(?:abbrev|unfoldable|pub|data|record)\s+)*((?:{NAME}\s+)*{NAME})\s*(?:[({{].*)?:(?:\s|$)")
OWN_USE = re.compile(r"^\s*(?:ghost )?use Rattle\.(?!std\b)")
ANY_USE = re.compile(r"^\s*(?:ghost )?use ")
KEYWORDS = {"use", "let", "in", "module", "where", "infix", "infixl", "infixr", "record", "open", "elim", "as", "unfolding"}
CRATE = ("bytes", "raw_bytes")
# Names that would fall together with those of other definitions.
APART = {
    "Refusal-alone": "RefusalAloneExact",
    "Exact-length": "LengthExact",
    "Exact-writing": "WritingExact",
    "Exact-framing": "FramingExact",
    "Path-text": "PathIsText",
    "file-header-end": "file_header_end_tested",
    "headers-end": "headers_end_tested",
    "names-end": "names_end_tested",
    "section-end": "section_end_tested",
    "not-utf8": "text_not_utf8",
}


def snake(name):
    parts = re.split("[-_]", name)
    out = []
    for part in parts:
        part = re.sub(r"(?<=[a-z0-9])(?=[A-Z])", "_", part)
        out.append(part.lower())
    return "_".join(out)


def camel(name):
    return "".join(part[:1].upper() + part[1:] for part in name.split("-"))


def new_name(name):
    if name in APART:
        return APART[name]
    return camel(name) if name[0].isupper() else snake(name)


def declared(path):
    """The names that a file declares, at any depth."""
    names = set()
    for line in open(path, encoding="utf-8"):
        line = line.split("--")[0].rstrip()
        if ANY_USE.match(line) or re.match(r"^\s*(let|module|infix\w*|mod|pub mod)\b", line):
            continue
        found = DECLARED.match(line)
        if found:
            names |= {n for n in found.group(2).split() if n not in KEYWORDS}
    return names


def imported(text):
    """The names that a file takes from the kit."""
    names = set()
    for line in text.splitlines():
        if ANY_USE.match(line) and not OWN_USE.match(line):
            found = re.search(r"\{(.*)\}", line)
            if found:
                names |= {n.strip().split(" as ")[0] for n in found.group(1).split(",")}
    return names


def rename_crate():
    old, new = CRATE
    if not os.path.isdir(f"crates/{old}"):
        return
    subprocess.check_call(["git", "mv", f"crates/{old}", f"crates/{new}"])
    lines = open("crates.txt").read()
    open("crates.txt", "w").write(re.sub(rf"\b{old}\b", new, lines))
    for path in glob.glob("crates/**/*", recursive=True):
        if not os.path.isfile(path) or not path.endswith((".rt", ".antt", ".edit")):
            continue
        text = open(path, encoding="utf-8").read()
        out = re.sub(rf"\bRattle\.{old}\.", f"Rattle.{new}.", text)
        if not path.endswith(".antt"):
            out = re.sub(rf"(?<![\w.]){old}::", f"{new}::", out)
        if out != text:
            open(path, "w", encoding="utf-8").write(out)


def main():
    rename_crate()
    specs = glob.glob("crates/*/specs/*.antt")
    lemmas = glob.glob("crates/*/proofs/*.antt")
    proofs = [p for p in glob.glob("crates/*/proofs/**/*.antt", recursive=True) if p not in lemmas]
    in_specs, in_lemmas = set(), set()
    for path in specs:
        in_specs |= declared(path)
    for path in lemmas:
        in_lemmas |= declared(path)
    turned, taken = {}, {}
    for name in sorted(in_specs):
        turned[name] = new_name(name)
        taken.setdefault(turned[name], name)
    for name in sorted(in_lemmas - in_specs):
        new = new_name(name)
        if new in taken and taken[new] != name:
            new += "_lem"
        turned[name] = new
        taken.setdefault(new, name)
    turned = {old: new for old, new in turned.items() if old != new}
    if "--show" in sys.argv:
        for old, new in sorted(turned.items()):
            print(old, new)
        return

    def turn(text, keep):
        return TOKEN.sub(lambda m: m.group() if m.group() in keep else turned.get(m.group(), m.group()), text)

    for path in specs + lemmas:
        text = open(path, encoding="utf-8").read()
        open(path, "w", encoding="utf-8").write(turn(text, imported(text)))
    for path in proofs:
        text = open(path, encoding="utf-8").read()
        own = set(re.findall(rf"^(?:abbrev |pub )*({NAME}) :", text, re.M))
        open(path, "w", encoding="utf-8").write(turn(text, imported(text) | own))
    for path in glob.glob("crates/*/src/**/*.rt", recursive=True) + glob.glob("crates/*/must-fail/*.edit"):
        text = open(path, encoding="utf-8").read()
        # code has no camel case and no dashes in its names: only clauses and imports turn
        plain = {old for old in turned if re.fullmatch(r"[a-z0-9_]+", old)}
        open(path, "w", encoding="utf-8").write(turn(text, imported(text) | plain))
    for path in ["README.md"] + glob.glob("docs/*.md"):
        text = open(path, encoding="utf-8").read()
        text = re.sub(r"`[^`\n]+`", lambda m: turn(m.group(), set()), text)
        open(path, "w", encoding="utf-8").write(text)


main()
