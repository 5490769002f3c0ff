"""What the tools that keep proofs in step share: the repository's root, the places and needs of a function, a first answer to a need.

`rt dev NAME --generated FOLDER` writes what is to be proved of a crate. A function's Lts.antt there has a record for each place of the
code (the entry `Start`, then one behind each call, test and loop), whose field `before` is the place above it, and for each need the place
`c` at which it is asked."""
import atexit
import os
import re
import shutil
import subprocess
import sys
import tempfile

# What the tools keep between two runs: saved proofs, templates.
WORK = os.environ.get("PROOF_WORK", os.path.join(tempfile.gettempdir(), "proof_work"))


def to_root():
    """Goes to the folder that has crates.txt, this one or one above it."""
    folder = os.getcwd()
    while not os.path.exists(os.path.join(folder, "crates.txt")):
        if folder == os.path.dirname(folder):
            sys.exit("no crates.txt in this folder or above it")
        folder = os.path.dirname(folder)
    os.chdir(folder)


def read(path):
    with open(path, encoding="utf-8") as file:
        return file.read()


def write(path, text):
    os.makedirs(os.path.dirname(path) or ".", exist_ok=True)
    with open(path, "w", encoding="utf-8") as file:
        file.write(text)


class Code:
    """The places of one function, from its Lts.antt."""

    def __init__(self, path):
        self.parent, self.thing, self.need, self.order = {}, {}, {}, []
        record = last = None
        for line in read(path).splitlines():
            if m := re.match(r"\s+pub record (\S+) ", line):
                record = m.group(1)
            elif (m := re.match(r"\s+pub before : (\S+)", line)) and record:
                self.parent[record] = m.group(1)
            elif (m := re.match(r"\s+pub (\S+) : (\S+·own) before", line)) and record:
                self.thing[record] = m.group(1)
            elif m := re.match(r"\s+abbrev pub Need-(\S+) :", line):
                self.order.append(m.group(1))
                last = None
            elif m := re.match(r"\s+Need-(\S+) =", line):
                last = m.group(1)
            if last and last not in self.need and (m := re.search(r"\(c : ([^)\s]+)\)", line)):
                self.need[last] = m.group(1)

    def name(self, place):
        """What a place is called from below it: the call, test or loop that it stands behind; `Start` for the entry."""
        return self.thing.get(place, place)

    def up(self, place, steps):
        for _ in range(steps):
            place = self.parent.get(place)
        return place

    def above(self, place):
        """The place and all above it."""
        while place is not None:
            yield place
            place = self.parent.get(place)

    def steps(self, place, wanted, nth):
        """How far above the nth place of a name is, and which it is."""
        for k, at in enumerate(self.above(place)):
            if self.name(at) == wanted:
                if nth == 0:
                    return k, at
                nth -= 1
        return None, None

    def which(self, place, target):
        """How many places of the target's name stand between the two."""
        nth, wanted = 0, self.name(target)
        while place != target:
            nth += self.name(place) == wanted
            place = self.parent[place]
        return nth


def generated(name):
    """The folder with what is to be proved of a crate, a folder for each function; gone when the tool ends."""
    out = tempfile.mkdtemp()
    atexit.register(shutil.rmtree, out, ignore_errors=True)
    run = subprocess.run(["rt", "dev", name, "--generated", out], capture_output=True, text=True)
    root = os.path.join(out, f"Rattle·{name}·proofs", "proofs")
    if not os.path.isdir(root):
        sys.exit(f"{name}: nothing was generated\n" + "\n".join((run.stdout + run.stderr).splitlines()[-12:]))
    return root


def proofs(name):
    """The functions of a crate that have a proof file, as folders below its proofs/."""
    top = os.path.join("crates", name, "proofs")
    return sorted(os.path.relpath(folder, top) for folder, _, files in os.walk(top) if "Proof.antt" in files)


def proof_file(name, function):
    return os.path.join("crates", name, "proofs", function, "Proof.antt")


def guess(need):
    """The tactic that usually answers a need of this name; a hole for the others."""
    if re.search(r"(-requires(-\d+)?|enum-[a-z0-9-]+|same-length(-\d+)?)$", need):
        return "search needs"
    if re.match(r"(add|sub|mul|cast|div|rem)-|.*-less$|.*(slice|array)-(read|write)-", need):
        return "omega arith"
    return f"?{need}"
