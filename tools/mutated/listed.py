"""The list of mutations, tools/mutations.txt: read, and held to the sources."""
import collections
import hashlib
import json
import os

TOP = os.path.dirname(os.path.dirname(os.path.dirname(os.path.abspath(__file__))))
LIST = os.path.join(TOP, "tools", "mutations.txt")
NAMES = ["id", "section", "crate", "what", "survives"]


class Bad(Exception):
    """An error of the list."""


class Mutation:
    def __init__(self):
        self.id = self.section = self.crate = self.what = self.survives = ""
        self.edits = []

    def kind(self):
        """A wrong program, a wrong definition, or both together; a proof that is made to fit does not count."""
        parts = {self.place(file).split("/")[2] for file, _, _ in self.edits} - {"proofs"}
        return {"src": "program", "specs": "definition"}[parts.pop()] if len(parts) == 1 else "pair"

    def place(self, file):
        """A file of the list, from the top of the repository."""
        return file if file.startswith("crates/") else f"crates/{self.crate}/{file}"

    def mark(self):
        """What tells this mutation from an earlier one of the same name."""
        return hashlib.sha256(json.dumps([self.crate, self.edits]).encode()).hexdigest()[:12]


def parted(text):
    """The lines of the list as (name, value)."""
    for number, line in enumerate(text.splitlines(), 1):
        name, colon, value = line.partition(":")
        if line.startswith("|"):
            yield "|", line[1:]
        elif line.startswith("#"):
            continue
        elif not line.strip():
            yield "", ""
        elif colon and name in NAMES + ["file", "old", "new"]:
            yield name, value[1:]
        else:
            raise Bad(f"line {number} of the list is no line of an entry: {line}")
    yield "", ""


def read_list(path):
    """The mutations, in the order of the list."""
    with open(path, encoding="utf-8") as held:
        text = held.read()
    entries, now, file, last = [], Mutation(), "", 0
    for name, value in parted(text):
        if name == "" and now.id:
            entries.append(now)
            now, file = Mutation(), ""
        elif name in NAMES:
            setattr(now, name, value)
        elif name == "file":
            file = value
        elif name == "old":
            now.edits.append([file, value, None])
            last = 1
        elif name == "new":
            now.edits[-1][2] = value
            last = 2
        elif name == "|":
            now.edits[-1][last] += "\n" + value
    return entries


def faults_of(entries):
    """What is wrong with the list itself."""
    seen = collections.Counter(m.id for m in entries)
    for m in entries:
        if seen[m.id] > 1:
            yield f"{m.id}: the id is there twice"
        if not (m.section and m.crate and m.what and m.edits):
            yield f"{m.id}: no section, crate, words or edit"
        if any(not file or not old or new is None for file, old, new in m.edits):
            yield f"{m.id}: an edit without its file, its old text or its new one"


def edited(m, top):
    """The files that a mutation changes below a folder, each with its new text; an old text has to be there exactly once."""
    texts = {}
    for file, old, new in m.edits:
        part = m.place(file)
        if part not in texts:
            path = os.path.join(top, part)
            if not os.path.isfile(path):
                raise Bad(f"there is no file {file}")
            with open(path, encoding="utf-8") as held:
                texts[part] = held.read()
        if texts[part].count(old) != 1:
            raise Bad(f"{texts[part].count(old)} times in {file}: {old}")
        texts[part] = texts[part].replace(old, new)
    return texts


def stale(entries):
    """The entries whose old texts are not in the sources exactly once, without asking any prover."""
    for m in entries:
        try:
            edited(m, TOP)
        except Bad as fault:
            yield f"{m.id}: {fault}"


def crate_lines():
    """The crates of crates.txt in its order, each with the words after its name and what it stands on."""
    found = {}
    with open(os.path.join(TOP, "crates.txt"), encoding="utf-8") as text:
        for line in text:
            words, colon, below = line.split("#")[0].partition(":")
            if colon:
                name, *more = words.split()
                found[name] = more, below.split()
    return found


def crates_above(name):
    """The crates that stand on one, in the order of crates.txt."""
    found = [name]
    for crate, (_, below) in crate_lines().items():
        if set(below) & set(found):
            found.append(crate)
    return found[1:]
