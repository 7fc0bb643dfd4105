"""What was found: the file of results, and the table of docs/STRENGTH.md."""
import os
import re

from judge import Outcome
from listed import TOP

RESULTS = os.path.join(TOP, "target", "strength.tsv")
BEGIN, END = "<!-- tools/strength writes from here -->", "<!-- to here -->"

# the prover's words, by what a reader learns from them
PHRASES = [
    (r"no verdict", "no verdict: the prover could not tell"),
    (r"no proof of its contract", "no proof of its contract is found"),
    (r"give a proof of that as the last argument", "the equations of the proof leave a goal open"),
    (r"`?rw`?: no occurrence", "an equation of the proof has nothing to rewrite"),
    (r"`?simp`?: no equation|list the missing equation", "no equation of the proof applies"),
    (r"`?omega`?: ", "the arithmetic does not follow"),
    (r"`?grind`?: ", "what is to be shown does not follow"),
    (r"`?search`?: no proof", "no proof is found"),
    (r"does not hold", "the equation does not hold"),
    (r"needs a homogeneous path", "what the proof uses as an equation is none"),
    (r"expected type|the two (?:types|sides|indices|values)|lands at index", "what is shown is not what is stated"),
]


def phrase(words):
    """The prover's words, shortened to what a reader learns, without the names that it makes up."""
    both = re.match(r"expected type `([^`]{1,40})`, but this has type `([^`]{1,40})`", words)
    if both and not re.search(r"·|\w\.\w|\w\.⊥", both.group()):
        return f"`{both.group(1)}` is stated, `{both.group(2)}` is shown"
    for pattern, short in PHRASES:
        if re.search(pattern, words):
            return short
    return "the proof is refused"


def told(outcome):
    """An outcome in words."""
    if outcome is None:
        return "not run"
    if outcome.by == "prover":
        name = f", `{outcome.name}`" if outcome.name else ""
        where = f"`{outcome.file}`" if outcome.file else f"crate `{outcome.crate}`"
        return f"prover: {where}{name}: {phrase(outcome.words)}"
    return {"runs": f"runs: {outcome.words}", "nothing": "nothing", "list": f"ERROR OF THE LIST: {outcome.words}"}[outcome.by]


def passes(m, outcome):
    """Is a mutation caught, or does it survive as its entry says?"""
    return outcome is not None and (outcome.by in ("prover", "runs") or outcome.by == "nothing" and m.survives != "")


# ---- the file of results

def kept(m, outcome, seconds, path=RESULTS):
    """A result goes to the end of the file at once, so that a measurement that is stopped loses nothing."""
    cells = [m.id, m.mark(), outcome.by, outcome.crate, outcome.file, outcome.name, " ".join(outcome.words.split())[:500], f"{seconds:.0f}"]
    with open(path, "a", encoding="utf-8") as out:
        out.write("\t".join(cells) + "\n")


def known(entries, path=RESULTS):
    """The results that the file has for entries as they stand, the last one of each; errors of the list are tried again."""
    marks, found = {m.id: m.mark() for m in entries}, {}
    if os.path.exists(path):
        with open(path, encoding="utf-8") as held:
            for line in held:
                name, mark, by, *rest = line.rstrip("\n").split("\t")
                if marks.get(name) == mark and by != "list":
                    found[name] = Outcome(by, *rest[:4])
    return found


# ---- the table

def counts(results, name, key):
    """How many were caught where, by crate, kind or section."""
    yield f"| {name} | mutations | prover, own crate | prover, a crate above | runs | nothing | not run |"
    yield "|---|---|---|---|---|---|---|"
    for value in list(dict.fromkeys(key(m) for m, _ in results)) + ["all"]:
        own = [(m, o) for m, o in results if value in (key(m), "all")]
        ran = [(m, o) for m, o in own if o]
        here = sum(o.by == "prover" and o.crate == m.crate for m, o in ran)
        above = sum(o.by == "prover" and o.crate != m.crate for m, o in ran)
        runs, none = (sum(o.by == by for _, o in ran) for by in ("runs", "nothing"))
        yield f"| {value} | {len(own)} | {here} | {above} | {runs} | {none} | {len(own) - len(ran)} |"


def rows(results):
    """A row for each mutation."""
    yield "| id | section | kind | what is wrong | where | caught by |"
    yield "|---|---|---|---|---|---|"
    for m, outcome in results:
        where = ", ".join(dict.fromkeys("`" + m.place(file).replace("crates/", "", 1) + "`" for file, _, _ in m.edits))
        cells = [m.id, m.section, m.kind(), m.what, where, told(outcome)]
        yield "| " + " | ".join(cell.replace("|", "\\|").replace("\n", " ") for cell in cells) + " |"


def survivors(results):
    """What nothing catches, with the reason that its entry has."""
    left = [m for m, outcome in results if outcome and outcome.by == "nothing"]
    return [f"- `{m.id}`: {m.what}. {m.survives[:1].upper()}{m.survives[1:] or 'No reason is known.'}" for m in left] or ["None."]


def table(results):
    """All that docs/STRENGTH.md holds between its two marker lines."""
    parts = [[f"### Caught by nothing"], survivors(results)]
    for name, key in (("crate", lambda m: m.crate), ("kind", lambda m: m.kind()), ("section", lambda m: m.section)):
        parts += [[f"### Counts by {name}"], list(counts(results, name, key))]
    parts += [["### Every mutation"], list(rows(results))]
    return "\n\n".join("\n".join(part) for part in parts)


def written(path, results):
    """The table, put between the marker lines of a file."""
    with open(path, encoding="utf-8") as held:
        text = held.read()
    before, begin, rest = text.partition(BEGIN)
    _, end, after = rest.partition(END)
    if not (begin and end):
        return f"{path} has no lines '{BEGIN}' and '{END}'"
    with open(path, "w", encoding="utf-8") as out:
        out.write(f"{before}{begin}\n\n{table(results)}\n\n{end}{after}")
    return None
