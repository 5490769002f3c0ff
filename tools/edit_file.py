"""A must-fail edit: lines `file: `, `old: ` and `new:`, each pair a replacement in the last file named, a path below the crate's folder.
Any other line is a comment. The old text must stand in the file once, as `rt` asks."""
import os

import places


def pairs(path):
    """(file, old, new) of each replacement."""
    file = old = ""
    for line in places.read(path).split("\n"):
        if line.startswith("file: "):
            file = line[6:]
        elif line.startswith("old: "):
            old = line[5:]
        elif line.startswith("new:"):
            yield file, old, line[4:].removeprefix(" ")
            old = ""


def apply(path, crate):
    """The files of the crate's folder that the edit changes, by path, with their new text; or what is wrong with it, as a line."""
    texts = {}
    for file, old, new in pairs(path):
        where = os.path.join(crate, file)
        if file.split("/")[0] not in ("src", "specs", "proofs") or ".." in file.split("/") or not os.path.isfile(where):
            return {}, f"there is no {where}"
        text = texts.get(where) or places.read(where)
        times = text.count(old) if old else 0
        if times != 1:
            return {}, f"its old text stands {times} times in {where}"
        texts[where] = text.replace(old, new)
    return texts, "" if texts else "it replaces nothing"
