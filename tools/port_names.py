#!/usr/bin/env python3
"""Brings the repository's own definitions and lemmas to the spelling of today's Rattle: snake case for what is no type and no module.

usage: python3 tools/port_names.py [FOLDER]   once, behind the kit's port.py, at the top of the repository

A name that begins with a small letter and has a capital behind a small letter or a digit, `inSale`, becomes `in_sale`, wherever it stands in a part of a
name that dashes join. Files of specs/, proofs/ and src/ are read whole, but for texts in quotes; code itself has such a name in one parameter. Prints the names that would fall together with one that was there before, and changes nothing then.
"""
import os
import re
import sys

WORD = re.compile(r"\"(?:[^\"\\\n]|\\.)*\"|(?<![\w'])[a-z][A-Za-z0-9_₀-₉]*'*")
CAPITAL = re.compile(r"[a-z0-9₀-₉][A-Z]")
KEPT = {"hMETIS"}
# Names that would fall together with one that the spelling makes: the file's name in snake case, and what it is called instead.
APART = {
    "crates/guarantees/specs/Numbers.antt": {"digits_of": "digits_of_lem"},
    "crates/hall_columns/specs/Sets.antt": {"set_long": "set_long_lem"},
    "crates/lines/proofs/Operands.antt": {"late_of": "late_of_lem"},
    "crates/spaced/proofs/Edges.antt": {"edge_row": "edge_row_lem"},
}


def snake(name):
    if name[0] == '"' or name in KEPT or not CAPITAL.search(name):
        return name
    name = name.replace("getD", "get_or")
    name = re.sub(r"([a-z0-9₀-₉])([A-Z])", r"\1_\2", name)
    return re.sub(r"([A-Z])([A-Z][a-z])", r"\1_\2", name).lower()


def files(root):
    for folder, dirs, names in os.walk(os.path.join(root, "crates")):
        dirs[:] = sorted(d for d in dirs if d not in ("out", "must-fail"))
        for name in sorted(names):
            if name.endswith((".rt", ".antt")):
                yield os.path.join(folder, name)


def main():
    root = sys.argv[1] if len(sys.argv) > 1 else "."
    texts = {path: open(path, encoding="utf-8").read() for path in files(root)}
    for path, names in APART.items():
        path = os.path.join(root, path)
        for old, new in names.items() if path in texts else ():
            texts[path] = re.sub(rf"(?<![\w'-]){old}(?![\w'-])", new, texts[path])
    before, made = {}, {}
    for path, text in texts.items():
        for word in WORD.findall(text):
            (before if snake(word) == word else made).setdefault(snake(word), set()).add(word if snake(word) != word else path)
    clash = {new: olds for new, olds in made.items() if len(olds) > 1}
    for new, olds in sorted(clash.items()):
        print("fall together:", new, sorted(olds))
    for new in sorted(set(before) & set(made)):
        print("there before:", new, sorted(made[new]), sorted(os.path.relpath(p, root) for p in before[new])[:6])
    if "--list" in sys.argv:
        return
    changed = 0
    for path, text in texts.items():
        new = WORD.sub(lambda m: snake(m.group(0)), text)
        if new != text:
            changed += 1
            with open(path, "w", encoding="utf-8") as out:
                out.write(new)
    print(f"{changed} files")


main()
