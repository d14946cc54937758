#!/usr/bin/env python3
"""Brings the names that specs/ and proofs/ declare to today's spelling: definitions, lemmas, fields and constructors in
snake case, types and modules as they are. Run once, at the top, on what the toolchain's own port script left.

usage: respell.py [--list]

A dash stays where it joins two names of functions (`mapped-mapped`) or follows a type's (`Agrees-none`), and becomes '_'
elsewhere. Functions of src/ keep their names; of specs/ the folder Contracts becomes Duties, since the toolchain makes a
module of that name. With --list it prints the names and changes nothing. It ends with an error where two names would fall
together, or where a new one already stands for something else.
"""

import os
import re
import sys

WORD = r"[^\s(){}.;,@\"«»\[\]\\]+"
TOKEN = re.compile(r"--[^\n]*|//[^\n]*|\"(?:[^\"\\\n]|\\.)*\"|" + WORD)
DEFINED = re.compile(r"(?:(?:abbrev|unfoldable|opaque|pub|private) +)*(?:pub +)?(" + WORD + r") :(?= |$)", re.M)
FIELD = re.compile(r"^  (?:pub )?(" + WORD + r") :(?= |$)", re.M)
INNER = re.compile(r"^ +(?:(?:abbrev|unfoldable|pub) +)*(" + WORD + r") :(?= |$)", re.M)
# std's functions that our lemmas speak of
FUNCTIONS = {"length", "take", "drop", "append", "map", "get_or", "set", "eqb", "ltb", "leb", "max", "sum", "reverse"}
# where the plain new name would fall together with another, or say less
CHOSEN = {
    "chart-of-961": "chart_of_961",
}
# a lemma in this file whose name, as it stands after the port, a definition gets
LEMMAS = {"crates/planner/proofs/TrueMemory.antt": {"kept_table": "kept_table_lem"}}


def texts(root):
    for folder, dirs, files in os.walk(os.path.join(root, "crates")):
        dirs[:] = sorted(d for d in dirs if d != "out")
        yield from (os.path.join(folder, f) for f in sorted(files) if f.endswith((".rt", ".antt", ".edit")))


def read(path):
    with open(path, encoding="utf-8", newline="") as it:
        return it.read()


def snake(word):
    return re.sub(r"(?<=[a-z0-9])([A-Z])", lambda m: "_" + m[1].lower(), word)


def declared(root):
    """Names that are declared in specs/ and in the lemma files of proofs/: of definitions, of lemmas, of fields."""
    definitions, lemmas, fields = set(), set(), set()
    for path in texts(root):
        below = os.path.relpath(path, root).split(os.sep)[2:]
        if not path.endswith(".antt") or below[-1] == "Proof.antt":
            continue
        text = re.sub(r"--[^\n]*", "", read(path))
        of_laws = below[0] == "proofs" or "Laws" in below
        for block in re.split(r"^(?=\S)", text, flags=re.M):
            found = DEFINED.match(block)
            if found:
                (lemmas if of_laws and not block.startswith(("abbrev", "unfoldable")) else definitions).add(found[1])
            if re.match(r"(?:pub )?(?:record|data)\b", block):
                fields |= set(FIELD.findall(block))
            elif block.startswith("module "):
                lemmas |= set(INNER.findall(block))
    return definitions, lemmas | fields


def respelled(name, functions):
    if name in CHOSEN:
        return CHOSEN[name]
    if name[0].isupper() and "-" not in name:
        return name
    parts = name.split("-")
    if not all(parts):
        return name
    parts = [p if p[0].isupper() else snake(p) for p in parts]
    whole = parts[0]
    for before, part in zip(parts, parts[1:]):
        joins = (before[0].isupper() and len(before) > 1) or (before in functions and part in functions)
        whole += ("-" if joins else "_") + part
    return whole


def renamed_lemmas(root, path, text):
    for name, to in LEMMAS.get(os.path.relpath(path, root), {}).items():
        text = re.sub(r"(?<![.\w-])" + name + r"(?![\w-])", to, text)
    return text


def library(root):
    """Names that some file imports from a module that is not ours."""
    ours = "|".join(sorted(os.listdir(os.path.join(root, "crates"))))
    found = set()
    for path in texts(root):
        for module, names in re.findall(r"^ *(?:ghost |pub )?use ([^\s;{]+?)\.\{([^}]*)\}", read(path), re.M):
            if not re.match(r"Rattle\.(" + ours + r")\.", module):
                found |= {n.split(" as ")[0].strip() for n in names.split(",")}
    return found


def mapping(root):
    definitions, lemmas = declared(root)
    taken = library(root)
    functions = FUNCTIONS | {snake(n) for n in definitions if "-" not in n}
    new = {n: respelled(n, functions) for n in (definitions | lemmas) - taken}
    new = {n: to for n, to in new.items() if n != to}
    standing = set()
    for path in texts(root):
        if path.endswith(".antt"):
            text = renamed_lemmas(root, path, read(path))
            for m in TOKEN.finditer(text):
                # after a dot stands a label or a part of a path, before one a part of a path
                if text[m.start() - 1] != "." and text[m.end() : m.end() + 1] != ".":
                    standing.add(m[0])
    plain = {to for n, to in new.items() if "-" not in n}
    for n, to in new.items():
        if "-" in n and (to in plain or to in standing):
            new[n] = to + "_lem"
    wrong = [f"{to}, for {n}, stands already" for n, to in sorted(new.items()) if to in standing]
    by_new = {}
    for n, to in sorted(new.items()):
        by_new.setdefault(to, []).append(n)
    wrong += [f"{to}: {', '.join(of)}" for to, of in by_new.items() if len(of) > 1]
    return new, wrong


def turned(text, new):
    def one(m):
        t = m[0]
        if t.startswith(("--", "//", '"')) or t not in new:
            return t
        if m.start() and text[m.start() - 1] == "." and "-" in t:
            return t  # a label
        return new[t]

    return TOKEN.sub(one, text)


def main():
    root = os.getcwd()
    new, wrong = mapping(root)
    if "--list" in sys.argv:
        print("\n".join(f"{n}\t{to}" for n, to in sorted(new.items())))
    if wrong:
        print("\n".join("respell: " + w for w in wrong), file=sys.stderr)
        return 1
    if "--list" in sys.argv:
        return 0
    for path in list(texts(root)):
        text = read(path)
        to = re.sub(r"(?<=specs\.)Contracts(?=\.)", "Duties", turned(renamed_lemmas(root, path, text), new))
        to = re.sub(r"^pub mod Contracts$", "pub mod Duties", to, flags=re.M)
        if to != text:
            with open(path, "w", encoding="utf-8", newline="") as it:
                it.write(to)
    for crate in sorted(os.listdir(os.path.join(root, "crates"))):
        for end in ("", ".antt"):
            old = os.path.join(root, "crates", crate, "specs", "Contracts" + end)
            if os.path.exists(old):
                os.rename(old, os.path.join(os.path.dirname(old), "Duties" + end))
    return 0


raise SystemExit(main())
