"""Who catches a mutation: the prover, crate by crate, then the runs."""
import collections
import os
import re

from listed import Bad, crate_lines, crates_above
from rooms import command, copied

FILES = "2000"  # generated for a comparison

# by: `prover`, `runs`, `nothing` or `list`; the crate that refuses, the file and the lemma or function there, and what was said
Outcome = collections.namedtuple("Outcome", "by crate file name words")

ERROR = re.compile(r"^(\S+?):(\d+):\d+: (?:error(?:\[[\w-]+\])?: (?=.)|(?=`[^`]+` is not admitted))(.*)$", re.M)
FOLLOWS = re.compile(r"\d+ declarations? that depends? on |was not admitted \(it has holes")
UNFIT = re.compile(r"has no `|has no field|is not in scope|can be named from here|expected type `[^`]*\.Lts\.|checked against `seplogic")
PROGRAM, ARCHIVE = "crates/run/out/run", "crates/slot_c/out/libslot_c.a"
COPY = "target/staticlib/libslot.a"  # where C and Rust look for the archive
NAMED = re.compile(r"`([\w·«»'-]+)`: (.*)", re.S)


# ---- the prover

def refusal(said, crate, room):
    """Where the prover first refuses a crate, other than by what an earlier refusal brings."""
    if not re.search(r"^logic=not-proved", said, re.M):
        first = ERROR.search(said)
        raise Bad("it does not compile: " + (first.group(3) if first else said.strip()[-200:]))
    places = [(below_crates(file, crate, room), line, words) for file, line, words in ERROR.findall(said) if not FOLLOWS.search(words)]
    for file, line, words in places:
        if "/specs/" in file:
            raise Bad(f"no definition any more: {file}:{line}: {words}")
    sound = [place for place in places if not UNFIT.search(place[2])]
    if places and not sound:
        raise Bad("only a proof no longer fits the shape: {}:{}: {}".format(*places[0]))
    if sound:
        file, _, words = sound[0]
        name, rest = NAMED.match(words).groups() if NAMED.match(words) else ("", words)
        return Outcome("prover", crate, file, name, rest)
    missing = re.search(r"^(?:fn|struct|enum|impl|trait) (\S+): (?:not proved|no proof)", said, re.M)
    if not missing:
        raise Bad("refused, but at no place of its own: " + said.strip()[-200:])
    path = missing.group(1)
    return Outcome("prover", crate, declared(room, path), path.split("::")[-1], "no proof of its contract is found")


def below_crates(file, crate, room):
    """A file that the prover names in the crate's folder, as it is called from crates/ on."""
    return os.path.relpath(os.path.join(os.path.realpath(room.at(crate)), file), os.path.realpath(os.path.join(room.path, "crates")))


def declared(room, path):
    """The file in which a function is declared, by its path `crate::module::Type::name`."""
    crate, *inner, name = path.split("::")
    folder = os.path.join(room.path, "crates", crate, "src")
    for file in sorted(os.listdir(folder), key=lambda file: file[:-3] not in inner):
        with open(os.path.join(folder, file), encoding="utf-8") as text:
            if re.search(rf"\bfn {name}\(", text.read()):
                return f"{crate}/src/{file}"
    return path


def asked(room, words, crate):
    """The answer to a command of the prover for a crate: an outcome, or none where it accepts."""
    status, said = command(room.at(crate), words)
    if status == 0:
        return ran(room, crate) if os.path.exists(os.path.join(room.at(crate), "src", "main.rt")) else None
    if status == 3 or "rattle: no verdict" in said:
        return Outcome("prover", crate, "", "", "no verdict: the prover could not tell")
    return refusal(said, crate, room)


def ran(room, crate):
    """What a proved program's own run says: an outcome, or none where it writes what its file `stdout` has."""
    said = command(room.at(crate), ["rt", "run", "--jobs", "1"])[1]
    if f"rt: running out/{crate}" not in said:
        raise Bad("the program is not built: " + said.strip()[-200:])
    compared = 'set -o pipefail; [ ! -f stdin ] || exec <stdin; "out/$0" | cmp -s - stdout'
    same = command(room.at(crate), ["bash", "-c", compared, crate])[0] == 0
    return None if same else Outcome("runs", crate, "", "", f"the run of `{crate}`")


def questions(room, m):
    """What the prover is asked, in order: the words of the command, and a crate."""
    for crate in [m.crate] + crates_above(m.crate):
        room.asked.add(crate)
        yield ["rt", "lib" if "staticlib" in crate_lines()[crate][0] else "check", "--jobs", "1"], crate


# ---- the runs

def built(room):
    """The comparison, built in the room over the archive: the one made for this mutation, or else the one that is there."""
    made, copy = (os.path.join(room.path, part) for part in (ARCHIVE, COPY))
    if "slot_c" in room.asked or not os.path.exists(copy):
        if not os.path.exists(made):
            room.asked.add("slot_c")
            command(room.at("slot_c"), ["rt", "lib", "--jobs", "1"])
        copied(made, copy)
    words = "cargo build --release --offline --quiet --manifest-path bench/Cargo.toml --target-dir target/cargo -p compare"
    status, said = command(room.path, words.split())
    if status:
        raise Bad("the comparison is not built: " + said[-200:])
    return "target/cargo/release/compare"


def runs_of(room, crates):
    """The runs that see the crates, in order: a name, and the words of a command."""
    compare = built(room)
    if "run" in crates:
        yield "stored runs", [compare, "--stored", "bench/runs", PROGRAM]
        yield f"{FILES} files", [compare, "--count", FILES, PROGRAM]
        yield "`tests/run`", ["tests/run"]
    if "slot_c" in crates:
        yield f"{FILES} files through the library", [compare, "--library", "--count", FILES]
        yield "`tests/slot`", ["tests/slot"]


def objections(room, crates, already):
    """The runs that object; the later ones only where none has."""
    found = list(already)
    if set(crates) & {"run", "slot_c"}:
        for name, words in runs_of(room, crates):
            early = name in ("stored runs", f"{FILES} files")
            if (early or not found) and command(room.path, words)[0] != 0:
                found.append(name)
    return found


def judged(room, m):
    """Who catches a mutation, if anyone does."""
    room.edit(m)
    already = []
    for words, crate in questions(room, m):
        said = asked(room, words, crate)
        if said and said.by == "prover":
            return said
        if said:
            already.append(said.words)
    found = objections(room, [m.crate] + crates_above(m.crate), already)
    return Outcome("runs", "", "", "", ", ".join(found)) if found else Outcome("nothing", "", "", "", "")
