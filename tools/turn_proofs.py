#!/usr/bin/env python3
"""Turns proofs that walk by places (`Proof.antt`) to `Invariants.antt` and `Answers.antt`.

usage: python3 tools/turn_proofs.py NAMES CRATE..   at the top of the repository

NAMES is a folder with CRATE/names.json, or crates/CRATE/names.json, as `rattle check --generated DIR --old-names` writes it. For each function of a CRATE
with a Proof.antt it writes the loops' invariants and measures, and an answer for each need whose old answer says more than `search rules` or `omega arith`;
paths that count places by `.before` become paths by name. The old file goes. What it can't turn, it says. Run once; what comes out is a first draft for the
check.
"""
import functools
import json
import os
import re
import subprocess
import sys

COMMON = "Rattle.std.proofs.Common"
TRIVIAL = re.compile(r"^\s*(search rules|omega arith|search needs)\s*$")
NAME = r"[^\s(){}\[\],;.:λ]+"


def plain(name):
    return re.sub(r"[-_]", "", name)


@functools.lru_cache(None)
def kit(name):
    top = os.path.dirname(subprocess.run(["rt", "doc"], capture_output=True, text=True, check=True).stdout.strip())
    return open(f"{top}/rattle/std/proofs/{name}.antt", encoding="utf-8").read()


@functools.lru_cache(None)
def exported():
    """The names that std's Common passes on."""
    return {n.strip().split(" as ")[-1] for names in re.findall(r"(?ms)^pub use \S+?\.\{(.*?)\}", kit("Common")) for n in names.split(",")}


def facade(module):
    """A module of the logic as std's Math passes it on, or itself."""
    return f"Rattle.std.proofs.Math.{module.rsplit('.', 1)[-1]}" if f"pub use {module}\n" in kit("Math") else module


def homes(root):
    """The module of each name of std, as the turned files import it."""
    found = {}
    for folder, dirs, files in os.walk(os.path.join(root, "crates")):
        dirs[:] = [d for d in dirs if d not in ("out", "must-fail", "src")]
        for f in files:
            if not f.endswith(".antt"):
                continue
            for module, names in re.findall(r"(?m)^use (Rattle\.(?:std|core)\.\S+?)\.\{([^}]*)\}", open(os.path.join(folder, f), encoding="utf-8").read()):
                for n in names.split(","):
                    n = n.strip()
                    counts = found.setdefault(n, {})
                    counts[module] = counts.get(module, 0) + 1
    best = {}
    for n, counts in found.items():
        proofs = {m: c for m, c in counts.items() if ".proofs." in m}
        best[n] = max(proofs or counts, key=(proofs or counts).get)
        if best[n] == "Rattle.std.specs.Prelude":
            best[n] = COMMON
    return best


def clauses(root):
    """The names of each function's clauses, where a kind has several: path -> (requires, ensures)."""
    found = {}
    for folder, dirs, files in os.walk(os.path.join(root, "crates")):
        if "/src" not in folder + "/":
            continue
        for f in files:
            if not f.endswith(".rt"):
                continue
            crate, _, at = os.path.relpath(os.path.join(folder, f), os.path.join(root, "crates")).partition("/src/")
            module = at[:-3].replace("/", "::")
            where = crate if module in ("lib", "main") else f"{crate}::{module}"
            name = None
            for line in open(os.path.join(folder, f), encoding="utf-8"):
                m = re.match(r"\s*(?:pub )?(?:const )?(?:unsafe )?(?:extern \"C\" )?fn (\w+)", line)
                if m:
                    name = f"{where}::{m.group(1)}"
                    found[name] = ([], [])
                m = re.match(r"\s+(requires|ensures) (\w+) \{", line)
                if m and name:
                    found[name][m.group(1) == "ensures"].append(m.group(2))
    return {k: (a if len(a) > 1 else [], b if len(b) > 1 else []) for k, (a, b) in found.items()}


def parts(text):
    """The parts of `(a, b, ..)`, or None."""
    text = text.strip()
    if not text.startswith("("):
        return None
    depth, at, found = 0, 1, []
    for i, ch in enumerate(text):
        if ch in "([{":
            depth += 1
        elif ch in ")]}":
            depth -= 1
            if depth == 0:
                if text[i + 1 :].strip():
                    return None
                if text[at:i].strip():
                    found.append(text[at:i].strip())
                return found if len(found) > 1 else None
        elif ch == "," and depth == 1:
            found.append(text[at:i].strip())
            at = i + 1
    return None


def by_name(text, names):
    """A tuple of clauses as a record of them by name; what stands before the last `in` stays."""
    depth, cut = 0, 0
    for m in re.finditer(r"[(\[{]|[)\]}]|(?<![\w'-])in(?![\w'-])", text):
        if m.group(0) in "([{":
            depth += 1
        elif m.group(0) in ")]}":
            depth -= 1
        elif depth == 0:
            cut = m.end()
    found = parts(text[cut:])
    while found and len(found) < len(names):
        more = parts(found[-1])
        if not more:
            return None
        found = found[:-1] + more
    if not found or len(found) != len(names):
        return None
    return text[:cut] + " record { " + "; ".join(f"{n} = {v}" for n, v in zip(names, found)) + " }"


class Function:
    def __init__(self, names):
        self.needs, self.callees, self.params = {}, {}, names.get("params") or {}
        for old, new in names["needs"]:
            self.needs.setdefault(plain(old), new)
        self.steps = {}
        for place in names["places"]:
            step = place[2] if len(place) > 2 else None
            if step and step[0]:
                self.steps.setdefault(plain(step[0]), step[1])
                if place[3]:
                    self.callees[step[1]] = place[3]
        self.loops = {}
        for loop in names["loops"]:
            (old, new), variables = loop[0], loop[1]
            self.loops[old] = (new, variables)
        self.changed = names.get("changed") or []

    def clauses_of(self, goal):
        """The names of a need's clauses, where there are several."""
        goal = re.sub(r"^Need-", "", goal)
        if re.match(r"returns(-\d+)?$", goal):
            return self.clauses.get(self.path, ([], []))[1]
        m = re.match(r"(.*)-requires(-\d+)?$", goal)
        if not m:
            return []
        for callee in dict.fromkeys(self.callees.values()):
            if plain(callee.rsplit("::", 1)[-1]) == plain(m.group(1)):
                return self.clauses.get(callee, ([], []))[0]
        return []

    def need(self, name):
        name = re.sub(r"^Need-", "", name)
        for cut in (name, re.sub(r"^(overflow|nonzero)-", "", name), re.sub(r"^overflow_", "", name)):
            if plain(cut) in self.needs:
                return self.needs[plain(cut)]
        return None


FIXED = {"args", "requires", "ranges", "type_inv", "utf8"}


class Answer:
    """One answer's body, its places' names taken away."""

    def __init__(self, function, body, said):
        self.f, self.said = function, said
        self.places = {"c"}
        self.body = body

    def turn(self):
        text = self.body
        # a `let` that names a place goes; its name stands for `c`
        place = re.compile(r"let (" + NAME + r") = (" + NAME + r")((?:\.before)*) in\s*")
        at = 0
        while True:
            m = place.search(text, at)
            if not m:
                break
            if m.group(2) in self.places:
                self.places.add(m.group(1))
                text = text[: m.start()] + text[m.end() :]
                at = m.start()
            else:
                at = m.end()
        names = "|".join(re.escape(n) for n in sorted(self.places, key=len, reverse=True))
        path = re.compile(r"(?<![\w'.\-₀-₉])(" + names + r")((?:\.before)*)\.(" + NAME + r")")
        text = path.sub(self.step, text)
        # a test on a bool says the bool
        text = re.sub(r"\(not-(?:false|true) _ (c\.[^\s()]+)\)", r"\1", text)
        text = re.sub(r"(?<![\w'-])not-(?:false|true) _ (c\.[^\s()]+)", r"\1", text)
        text = text.replace("type-inv", "type_inv")
        return self.named(text)

    def step(self, m):
        step = m.group(3)
        if step in FIXED:
            return "c." + step
        new = self.f.steps.get(plain(step))
        if not new:
            self.said(f"no step {step}")
            return "c." + step
        return "c." + new

    def named(self, text):
        """Clauses by name and not by place."""
        own, given = self.f.clauses.get(self.f.path, ([], []))
        aliases = {}
        for m in re.finditer(r"let (" + NAME + r") = (c\.requires|c\.(" + NAME + r")\.(?:ensures|requires)) in", text):
            names = own if m.group(2) == "c.requires" else self.f.clauses.get(self.f.callees.get(m.group(3)), ([], []))[1]
            if names:
                aliases[m.group(1)] = names

        def pick(m):
            if m.group(1) == "c.requires":
                names = own
            elif m.group(1).startswith("c."):
                names = self.f.clauses.get(self.f.callees.get(m.group(1)[2:].rsplit(".", 1)[0]), ([], []))[1]
            else:
                names = aliases.get(m.group(1))
            if not names:
                return m.group(0)
            # several clauses were pairs, each beside the rest
            digits, i = m.group(2).split(".")[1:], 0
            while i < len(names) - 1 and digits[:1] == ["1"]:
                digits, i = digits[1:], i + 1
            if i < len(names) - 1:
                if digits[:1] != ["0"]:
                    self.said(f"clauses from {names[i]} on: {m.group(0)}")
                    return m.group(0)
                digits = digits[1:]
            return ".".join([m.group(1), names[i], *digits])

        words = "|".join([r"c\.requires", r"c\." + NAME + r"\.ensures"] + [re.escape(a) for a in aliases])
        text = re.sub(r"(?<![\w'.\-₀-₉])(" + words + r")((?:\.\d+)+)(?![\w])", pick, text)
        # what a callee left in an argument, by the parameter's name
        calls = dict(re.findall(r"let (" + NAME + r") = c\.(" + NAME + r") in", text))

        def left(m):
            step = m.group(1)[2:] if m.group(1).startswith("c.") else calls.get(m.group(1))
            params = self.f.params.get(self.f.callees.get(step), [])
            i = m.group(2).count(".1")
            return f"{m.group(1)}.new.{params[i]}" if i < len(params) else m.group(0)

        return re.sub(r"(?<![\w'.\-₀-₉])((?:c\.)?" + NAME + r")\.new((?:\.1)*)\.0(?![\w])", left, text)


def declarations(text):
    """The file's head, and its declarations as (name, [lines])."""
    lines = text.split("\n")
    head, found, comments = [], [], []
    i = 0
    while i < len(lines) and (lines[i].startswith("--") or lines[i].startswith("use ") or not lines[i].strip()):
        head.append(lines[i])
        i += 1
    block = []
    for line in lines[i:] + [""]:
        if line.strip():
            block.append(line)
        elif block:
            found.append(block)
            block = []
    return head, found


def uses(head, f_module, home):
    kept, std, rest = [], {}, []
    for line in head:
        if not line.startswith("use "):
            continue
        m = re.match(r"use (\S+?)\.\{([^}]*)\}\s*$", line)
        if re.search(r"\.(Statement|Tie)(\.| as )", line) or line.rstrip().endswith(" as tie"):
            continue
        if m and not (m.group(1).startswith("Rattle.") and not m.group(1).startswith(("Rattle.std.", "Rattle.core."))):
            for n in m.group(2).split(","):
                n = n.strip()
                if n == "needs":
                    n = "rules"
                module = m.group(1) if m.group(1).startswith("Rattle.") else COMMON if n in exported() else home.get(n) or facade(m.group(1))
                std.setdefault(module, []).append(n)
        else:
            kept.append(line)
    for module in sorted(std):
        names = list(dict.fromkeys(std[module]))
        rest.append(f"use {module}.{{{', '.join(names)}}}")
    return rest + kept


def unbound(body, taken):
    """The body with other names for what it binds itself under a name of `taken`."""
    for m in list(re.finditer(r"λ \(?(" + NAME + r")(?: : [^)]*\))?\. |\((" + NAME + r") : [^)]*\) →", body))[::-1]:
        name = m.group(1) or m.group(2)
        if name not in taken:
            continue
        depth, end = 0, len(body)
        for i in range(m.end(), len(body)):
            if body[i] in "([{":
                depth += 1
            elif body[i] in ")]}":
                depth -= 1
                if depth < 0:
                    end = i
                    break
        scope = re.sub(r"(?<![\w'.\-₀-₉])" + re.escape(name) + r"(?![\w'\-₀-₉])", name + name, body[m.start() : end])
        body = body[: m.start()] + scope + body[end:]
    return body


def variables(function, loop, params, body):
    new, vs = function.loops[loop]
    flags = list(zip(vs, function.changed_of[loop]))
    names = [("l.initial." if c else "l.") + v for v, c in flags] + ["l." + v for v, c in flags if c]
    if len(names) != len(params):
        return None
    table = {p: n for p, n in zip(params, names) if p != "_"}
    body = unbound(body, set(table))
    words = "|".join(re.escape(p) for p in sorted(table, key=len, reverse=True))
    body = re.sub(r"(?<![\w'.\-₀-₉])(" + words + r")(?![\w'\-₀-₉])", lambda m: table[m.group(1)], body)
    # a signed number is the number, not its bits
    return re.sub(r"\(to_z w\d+ (l\.[\w.]+)\)|(?<![\w'-])to_z w\d+ (l\.[\w.]+)", lambda m: m.group(1) or m.group(2), body)


def turn(root, crate, path, names, home, named):
    folder = os.path.dirname(path)
    where = os.path.relpath(folder, os.path.join(root, "crates", crate, "proofs"))
    said = []
    text = open(path, encoding="utf-8").read()
    if "tie.close" not in text:
        print(f"{crate} {where}: a walk by hand, left")
        return
    f = Function(names)
    f.clauses, f.path = named, f"{crate}::{where.replace('/', '::')}"
    # which variables of each loop change: names.json lists them for the loops in order
    f.changed_of, flags = {}, list(f.changed)
    for old, (new, vs) in f.loops.items():
        own = flags.pop(0) if flags and isinstance(flags[0], list) else flags[: len(vs)]
        f.changed_of[old] = own
        if flags and not isinstance(flags[0], list):
            flags = flags[len(vs) :]
    head, blocks = declarations(text)
    module = "Rattle." + crate + ".proofs." + where.replace("/", ".")
    comments = [l for l in head if l.startswith("--")]
    inv, ans, helpers = [], [], []
    for block in blocks:
        first = next((l for l in block if not l.startswith("--")), "")
        notes = [l for l in block if l.startswith("--")]
        m = re.match(r"(?:abbrev )?(?:pub )?(" + NAME + r") : tie\.(" + NAME + r")(.*)$", first)
        if not m:
            if any("tie.close" in l for l in block) or re.match(r"pub .*-?spec : ", first):
                continue
            helpers.append("\n".join(block))
            continue
        name, goal = m.group(1), m.group(2)
        body = "\n".join(l for l in block if not l.startswith("--"))
        definition = body.split("\n", 1)[1]
        unfolding = ""
        if definition.startswith("unfolding"):
            unfolding, definition = definition.split("\n", 1)
            unfolding += "\n"
        d = re.match(re.escape(name) + r"((?:[^=]|(?<=[≤≥])=)*?) =(?:\s)(.*)$", definition, re.S)
        if not d:
            said.append(f"not read: {name}")
            continue
        params, value = d.group(1).split(), d.group(2)
        kind = re.match(r"(invariant|decreases)-(.*)$", goal)
        if kind:
            loop = kind.group(2)
            if loop not in f.loops:
                alike = [l for l in f.loops if plain(l) == plain(loop)]
                if not alike:
                    said.append(f"no loop {loop}")
                    continue
                loop = alike[0]
            turned = variables(f, loop, params, value)
            if turned is None:
                said.append(f"{goal}: {len(params)} parameters of {f.loops[loop]} {f.changed_of[loop]}")
                turned = value
            label = f"{kind.group(1)}-{f.loops[loop][0]}"
            turned = ("\n    " if turned.startswith(" ") else " ") + turned.strip()
            inv.append("\n".join(notes + [f"abbrev pub {label} : goal.{label}", f"{label} l ={turned}"]))
            continue
        new = f.need(goal)
        if not new:
            if not TRIVIAL.match(value):
                said.append(f"no need {goal}")
            continue
        if TRIVIAL.match(value):
            continue
        turned = Answer(f, value, said.append).turn()
        wanted = f.clauses_of(goal)
        if wanted:
            record = by_name(turned, wanted)
            if record:
                turned = record if turned.startswith(" ") else record.strip()
            elif parts(turned):
                said.append(f"{goal}: clauses {wanted}")
        extra = [p for p in params if p not in ("c", "κs")]
        if extra:
            said.append(f"{goal}: parameters {params}")
        turned = ("\n    " if turned.startswith(" ") else "") + turned.strip()
        ans.append("\n".join(notes + [f"pub {new} : goal.{new}"]) + f"\n{unfolding}{new} c = {turned}".replace("= \n", "=\n"))
    use = uses(head, module, home)
    if inv:
        with open(os.path.join(folder, "Invariants.antt"), "w", encoding="utf-8") as out:
            out.write("\n".join(comments + use + [f"use {module}.Given as goal"]) + "\n\n" + "\n\n".join(inv) + "\n")
    if ans or helpers:
        with open(os.path.join(folder, "Answers.antt"), "w", encoding="utf-8") as out:
            out.write("\n".join(([] if inv else comments) + use + [f"use {module}.Goals as goal"]) + "\n\n" + "\n\n".join(helpers + ans) + "\n")
    os.remove(path)
    if not inv and not ans and not helpers:
        os.rmdir(folder)
    for s in dict.fromkeys(said):
        print(f"{crate} {where}: {s}")


def main():
    root, listed = ".", sys.argv[1]
    home, named = homes(root), clauses(root)
    for crate in sys.argv[2:]:
        at = next(p for p in (f"{listed}/crates/{crate}/names.json", f"{listed}/{crate}/names.json") if os.path.exists(p))
        names = json.load(open(at, encoding="utf-8"))
        for folder, dirs, files in os.walk(os.path.join(root, "crates", crate, "proofs")):
            if "Proof.antt" not in files:
                continue
            where = os.path.relpath(folder, os.path.join(root, "crates", crate, "proofs")).replace("/", ".")
            key = f"Rattle-{crate}-proofs.{where}.Lts"
            if key not in names:
                print(f"{crate} {where}: no names")
                continue
            turn(root, crate, os.path.join(folder, "Proof.antt"), names[key], home, named)


main()
