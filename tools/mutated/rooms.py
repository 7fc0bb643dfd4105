"""Rooms: copies of the repository in which one mutation at a time is made. What rt keeps in crates/*/out/ goes along: proofs and
libraries as hard links where these can be made, since rt replaces such a file and never writes into it; all else is copied."""
import os
import queue
import shutil
import signal
import subprocess
import sys

from listed import TOP, crate_lines, edited

COPIED = ["crates.txt", "HANDLES", "bench", "examples", "include", "tests", "tools", "target/staticlib"]
LONGEST = 1800  # seconds for one command
RUNNING = set()  # the commands that are under way
ENDED = []  # the signal that has ended the measurement


def command(folder, words):
    """Runs a command in a group of its own; its status and all that it said."""
    if ENDED:
        return 3, ""
    run = subprocess.Popen(words, cwd=folder, text=True, errors="replace", start_new_session=True,
                           stdin=subprocess.DEVNULL, stdout=subprocess.PIPE, stderr=subprocess.STDOUT)
    RUNNING.add(run)
    try:
        return (run.communicate(timeout=LONGEST)[0], run.returncode)[::-1]
    except subprocess.TimeoutExpired:
        os.killpg(run.pid, signal.SIGKILL)
        return 3, run.communicate()[0]
    finally:
        RUNNING.discard(run)


def stopped(number, frame):
    """An interrupted measurement begins no command more and leaves none behind."""
    ENDED.append(number)
    for run in list(RUNNING):
        os.killpg(run.pid, signal.SIGKILL)
    sys.exit(f"strength: ended by signal {number}")


def linked(source, target):
    """A copy of a file, or a second name for it where rt keeps a proof or a library."""
    try:
        if source.endswith(".oantt") or "/out/rlib/" in source:
            return os.link(source, target)
    except OSError:
        pass  # another disk, say
    return shutil.copy2(source, target)


def copied(source, target):
    """A file or folder as another is, if that is there at all."""
    if os.path.isdir(target):
        shutil.rmtree(target)
    if os.path.isdir(source):
        shutil.copytree(source, target, symlinks=True, copy_function=linked)
    elif os.path.exists(source):
        os.makedirs(os.path.dirname(target), exist_ok=True)
        shutil.copy2(source, target)
    elif os.path.exists(target):
        os.remove(target)


class Room:
    """A copy of a base: the repository, or a room in which it is proved."""

    def __init__(self, base, path):
        self.base, self.path = base, path
        self.changed, self.asked = set(), set()
        for part in COPIED + [f"crates/{crate}" for crate in crate_lines()]:
            self.brought(part)

    def at(self, crate):
        """The folder of a crate."""
        return os.path.join(self.path, "crates", crate)

    def brought(self, part):
        """A part as the base has it."""
        copied(os.path.join(self.base, part), os.path.join(self.path, part))

    def edit(self, m):
        for part, text in edited(m, self.path).items():
            self.changed.add(part)
            with open(os.path.join(self.path, part), "w", encoding="utf-8") as out:
                out.write(text)

    def restore(self):
        """All as it was: the files edited, and what was proved and made anew."""
        for part in self.changed | {f"crates/{crate}/out" for crate in self.asked} | {"target/staticlib"}:
            self.brought(part)
        self.changed, self.asked = set(), set()


def make_rooms(folder, chosen, jobs):
    """The base, where the crates to be mutated are proved, lowest first, and rooms beside it."""
    base = Room(TOP, os.path.join(folder, "base"))
    mutated = {m.crate for m in chosen}
    for crate in [crate for crate in crate_lines() if crate in mutated]:
        status, said = command(base.at(crate), ["rt", "check"])
        if status:
            sys.exit(said + "strength: the repository as it stands is not proved")
    free = queue.Queue()
    for number in range(jobs):
        free.put(Room(base.path, os.path.join(folder, f"room-{number}")))
    return free
