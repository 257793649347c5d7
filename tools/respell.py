#!/usr/bin/env python3
"""Brings the repository's own definitions and lemmas to the kit's spelling, once, after port.py.

usage: python3 tools/respell.py [--list]     at the top of the repository; --list prints the names and changes nothing

Words are in snake case (all_digits), facts and types in upper camel case (SpareBits). Names that Rattle makes
(goals, steps of a proof) and names of std keep their dashes. Functions of src/, strings, inputs and outputs stay.
"""

import os
import re
import sys

WORD = r"[A-Za-z_][A-Za-z0-9_']*(?:-[A-Za-z0-9_'≤<≡]+)+"
TOKEN = re.compile(r"(?<![A-Za-z0-9_'\-◌])" + WORD + r"(?![A-Za-z0-9_'◌])")
HEAD = re.compile(r"^(?:(?:pub|abbrev|unfoldable|record|data|ruleset)\s+)*(" + WORD + r")\s*(?:(?:\([^)]*\)|\{[^}]*\})\s*)*:(?=\s|$)")
FIELD = re.compile(r"^\s+(?:pub\s+)?(" + WORD + r")\s*:(?=\s)")
ALIAS = re.compile(r"\bas (" + WORD + r")(?=\s*[,}])")
MADE = ("Answers.antt", "Invariants.antt", "Proof.antt")


def texts(root, ends):
    for folder, dirs, files in os.walk(os.path.join(root, "crates")):
        dirs[:] = sorted(d for d in dirs if d not in ("out", ".git"))
        for f in sorted(files):
            if f.endswith(ends):
                yield os.path.join(folder, f)


def is_made(path, line):
    """A goal's own name, which Rattle makes."""
    return os.path.basename(path) in MADE and re.search(r":\s*(?:\([^)]*\)\s*→\s*)*goal\.", line)


def respelled(name):
    parts = name.split("-")
    if name[0].isupper():
        return "".join(p[0].upper() + p[1:] for p in parts)
    return "_".join(parts)


def own_names(root):
    heads, fields = set(), set()
    for path in texts(root, (".antt", ".rt")):
        with open(path, encoding="utf-8") as f:
            for line in f:
                if re.match(r"^\s*(?:pub |ghost )*use Rattle\.(?!std\.)", line):
                    heads.update(ALIAS.findall(line))
                if path.endswith(".rt"):
                    continue
                if (m := HEAD.match(line)) and not is_made(path, line):
                    heads.add(m.group(1))
                elif m := FIELD.match(line):
                    fields.add(m.group(1))
    return heads, fields


def std_names(text):
    """Names that a file takes from std."""
    found = set()
    for m in re.finditer(r"use\s+(?:Rattle\.std\.|borrow\.|denote\.|logic\.|mathlib\.|Prim\.)[\w.'+-]*\.\{([^}]*)\}", text):
        for part in m.group(1).split(","):
            found.add(part.split(" as ")[-1].strip())
    return found


def turned(text, heads, fields):
    taken = std_names(text)

    def one(m):
        name, before = m.group(0), text[: m.start()]
        if name in taken:
            return name
        if before.endswith("."):
            path = re.search(r"[\w.'+-]*$", before).group(0)
            if path.startswith("Rattle.") and not path.startswith("Rattle.std."):
                return respelled(name) if name in heads or name in fields else name
            return respelled(name) if name in fields else name
        return respelled(name) if name in heads or name in fields else name

    return TOKEN.sub(one, text)


def main():
    root = os.getcwd()
    heads, fields = own_names(root)
    if "--list" in sys.argv[1:]:
        for name in sorted(heads | fields):
            print(name, "->", respelled(name))
        return
    count = 0
    for path in texts(root, (".antt", ".rt")):
        with open(path, encoding="utf-8") as f:
            text = f.read()
        if path.endswith(".rt"):
            new = "".join(
                line if line.lstrip().startswith("//") else turned_line(line, text, heads, fields)
                for line in text.splitlines(keepends=True)
            )
        else:
            new = turned(text, heads, fields)
        if new != text:
            count += 1
            with open(path, "w", encoding="utf-8") as f:
                f.write(new)
    print(f"respell: {len(heads | fields)} names, {count} files")


def turned_line(line, text, heads, fields):
    taken = std_names(text)

    def one(m):
        name = m.group(0)
        if name in taken or name not in heads | fields:
            return name
        return respelled(name)

    return TOKEN.sub(one, line)


main()
