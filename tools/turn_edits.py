#!/usr/bin/env python3
"""Brings the must-fail edits to the spelling of today's files.

usage: python3 tools/turn_edits.py [--base COMMIT]..   at the top of the repository; by default the two commits before the port

An edit whose `old:` texts all stand exactly once in today's file is left as it is. Of another the lines that it changes are looked for in the file as
it stood at the base commit, and the corresponding line of today's file is found: the one line with the same letters and signs once the spelling is
taken away. The same change is then made in today's line: what was put in is spelled anew with the words of the line and the file. Prints what is
turned, and what is left to do by hand; in the end it checks every edit: each `old:` stands once, and each name in a `new:` is a name of today's crate.
"""
import glob
import os
import re
import subprocess
import sys

BASES = ["c505d10", "516d168"]
TOKEN = re.compile(r"[A-Za-z0-9_₀-₉'′·]+|\s+|.", re.S)


def at_commit(commit, path):
    ran = subprocess.run(["git", "show", f"{commit}:{path}"], capture_output=True)
    return ran.stdout.decode() if ran.returncode == 0 else None


def spelled(text, muts=()):
    """The text as port.py and port_names.py would spell it."""
    text = re.sub(r"\(now \(([\w']+) \.entry\)\)", lambda m: m[1] + (".old" if m[1] in muts else ".now"), text)
    text = re.sub(r"\(now \(([\w']+) \.exit\)\)", r"\1.new", text)
    text = re.sub(r"now \(([\w']+) \.entry\)", lambda m: m[1] + (".old" if m[1] in muts else ".now"), text)
    text = re.sub(r"now \(([\w']+) \.exit\)", r"\1.new", text)
    text = text.replace(" ⌝ }", " }").replace("λ r. ⌜ ", "").replace("′", "'").replace("negℤ", "neg_ℤ").replace("getD", "get_or")
    text = re.sub(r"\(r \.(\w+)\)", r"result.\1", text)
    text = re.sub(r"\(r \.(\w+)$", r"(result.\1", text)
    # a projection of an application stands behind its bracket
    text = re.sub(r"\(([\w']+(?: [\w']+)+) \.(\w+)\)", r"(\1).\2", text)
    text = re.sub(r"(?<=[\w'] )([\w']+) \.(\w+)\)", r"\1).\2)", text)
    # a projection that is an argument, `(s .stack)`, stands tight and bare
    for _ in range(3):
        text = re.sub(r"\(([\w']+(?:\.[\w']+)*) \.([a-z]\w*)\)", r"\1.\2", text)
    text = re.sub(r" \.([a-z]\w*)", r".\1", text)
    return re.sub(r"(?<![\w'\".])([a-z][A-Za-z0-9_₀-₉]*)", lambda m: snake(m[1]), re.sub(r"\.([a-z]\w*)", lambda m: "." + snake(m[1]), text))


def snake(name):
    if not re.search(r"[a-z0-9₀-₉][A-Z]", name):
        return name
    name = re.sub(r"([a-z0-9₀-₉])([A-Z])", r"\1_\2", name)
    return re.sub(r"([A-Z])([A-Z][a-z])", r"\1_\2", name).lower()


def read(edit):
    """The file, and the lines of the edit: (kind, text)."""
    out = []
    for line in open(edit, encoding="utf-8").read().rstrip("\n").split("\n"):
        m = re.match(r"(file|old|new): ?(.*)", line)
        out.append((m[1], m[2]) if m else ("", line))
    return out


def pairs(lines):
    olds = [t for k, t in lines if k == "old"]
    news = [t for k, t in lines if k == "new"]
    return list(zip(olds, news))


def apply(text, made):
    for old, new in made:
        if text.count(old) != 1:
            return None, f"stands {text.count(old)} times: {old[:100]}"
        text = text.replace(old, new)
    return text, None


def bare(line):
    """The letters and signs of a line that no spelling changes."""
    line = re.sub(r"\b(ensures|requires|invariant)\s+[\w-]*\s*\{", r"\1", spelled(line)).replace("⌜", "").replace("⌝", "")
    line = re.sub(r"λ [r_]\. ?(?!\w)|\b(now|old|new|entry|exit|result|r)\b", "", line)
    return re.sub(r"[^a-z0-9≡∷×λ→+*/<≤-]", "", line.lower().replace("λ r.", "").replace("λ _.", "").replace("_", ""))


def words(text):
    return set(re.findall(r"[A-Za-z_][\w'₀-₉-]*", text))


def known(crate):
    """All words of the crate's files and of std's imports there."""
    found = set()
    for folder in ("src", "specs", "proofs"):
        for at, _, names in os.walk(f"{crate}/{folder}"):
            for name in names:
                if name.endswith((".rt", ".antt")):
                    found |= words(open(f"{at}/{name}", encoding="utf-8").read())
    return found


def main():
    bases = [b for a, b in zip(sys.argv, sys.argv[1:]) if a == "--base"] or BASES
    done = left = stood = 0
    for edit in sorted(glob.glob("crates/*/must-fail/*.edit")):
        crate = edit.split("/must-fail/")[0]
        lines = read(edit)
        path = f"{crate}/" + next(t for k, t in lines if k == "file").strip()
        today = open(path, encoding="utf-8").read()
        if apply(today, pairs(lines))[1] is None:
            # the text stands; does it stand where it stood?
            older = next((t for t in (at_commit(b, path) for b in bases) if t and apply(t, pairs(lines))[1] is None), None)
            if older is None:
                print(f"{edit}: stands, but at no base")
            else:
                text, was = today, older
                for old, new in pairs(lines):
                    one = bare(was[: was.index(old)].split("\n")[-1] + was[was.index(old) :].split("\n")[0])
                    two = bare(text[: text.index(old)].split("\n")[-1] + text[text.index(old) :].split("\n")[0])
                    near = [bare(x) for x in was[: was.index(old)].split("\n")[-4:-1]]
                    now = [bare(x) for x in text[: text.index(old)].split("\n")[-4:-1]]
                    if one != two or near != now:
                        print(f"{edit}: stands; look at what is around it:\n   was {was[: was.index(old)].split(chr(10))[-4:-1]}\n   now {text[: text.index(old)].split(chr(10))[-4:-1]}")
                    text, was = text.replace(old, new), was.replace(old, new)
            stood += 1
        else:
            older = next((t for t in (at_commit(b, path) for b in bases) if t and apply(t, pairs(lines))[1] is None), None)
            if older is None:
                print(f"{edit}: its text stands at no base commit")
                left += 1
                continue
            made, text, why = [], today, None
            for old, new in pairs(lines):
                line = older[: older.index(old)].split("\n")[-1] + older[older.index(old) :].split("\n")[0]
                # of `&mut` parameters: those of the file that have an exit
                muts = set(re.findall(r"([\w']+) \.exit", line))
                turned = spelled(old, muts), spelled(new, muts)
                older = older.replace(old, new)
                if text.count(turned[0]) != 1:
                    why = f"{text.count(turned[0])} times: {turned[0][:160]}"
                    same = [x for x in text.split("\n") if bare(x) == bare(line)]
                    why += f"\n   today's line: {same[0].strip()[:200] if len(same) == 1 else len(same)}"
                    break
                at = text[: text.index(turned[0])].split("\n")[-1] + text[text.index(turned[0]) :].split("\n")[0]
                if bare(at) != bare(line):
                    why = f"another line? {at.strip()[:120]} / {line.strip()[:120]}"
                    break
                text = text.replace(*turned)
                made.append(turned)
            if why:
                print(f"{edit}: by hand: {why}")
                left += 1
                continue
            it = iter([t for pair in made for t in pair])
            with open(edit, "w", encoding="utf-8") as out:
                out.write("\n".join(f"{k}: {next(it) if k in ('old', 'new') else t}" if k else t for k, t in lines) + "\n")
            done += 1
            print(f"{edit}: turned")
    print(f"{stood} stood, {done} turned, {left} left")
    bad = 0
    for edit in sorted(glob.glob("crates/*/must-fail/*.edit")):
        crate = edit.split("/must-fail/")[0]
        lines = read(edit)
        path = f"{crate}/" + next(t for k, t in lines if k == "file").strip()
        why = apply(open(path, encoding="utf-8").read(), pairs(lines))[1]
        here = words(open(path, encoding="utf-8").read())
        for _, new in pairs(lines):
            strange = sorted(words(new) - here)
            if strange:
                print(f"{edit}: not a word of its file: {strange}{'' if set(strange) <= known(crate) else ', nor of its crate'}")
        if why:
            bad += 1
            print(f"{edit}: {why}")
    print(f"{bad} edits cannot be made")
    return bad > 0


if __name__ == "__main__":
    sys.exit(main())
