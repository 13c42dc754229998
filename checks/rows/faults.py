#!/usr/bin/env python3
"""Rows in which each call of the disk fails in turn, and the same steps are taken again behind it.

    checks/rows/faults.py            compares the rows and wanted rows of its own in the drivers' files
    checks/rows/faults.py --write    puts them there, in place of those that stand under its headings, or at the end

Each list of steps is played once for every number of a call up to how many its steps ask without a fault: that call
fails, and then the steps are taken again. Each is played over a store that remembers nothing and over one that
remembers. What is wanted is worked out by the modules beside this one from the specification's tables, and the script
compares by them that what comes behind a fault is what a store with a fresh memory answers over the same disk.
"""
import copy
import os
import sys

sys.dont_write_bytecode = True
HERE = os.path.dirname(os.path.abspath(__file__))
TOP = os.path.dirname(os.path.dirname(HERE))
sys.path.insert(0, HERE)
import run_rows  # noqa: E402
import step_rows  # noqa: E402
from play import Player, told  # noqa: E402
from store import Memory, Store  # noqa: E402

DIGITS = "file /f.txt 26 1 0123456789"
SMALL = "dir /d 10 1 | file /d/a 11 1 aa | dir /d/b 12 1 | file /d/b/c 13 1 cc | file /g 14 1 gg"
REMEMBERS = "set memory 16 16"

# A heading, what stands there, and the steps; `@` and a number is that of a reply among them.
LISTS = [
    ("a file", DIGITS, "GET /f.txt | poll @0 2"),
    ("several ranges of a file", DIGITS, "GET /f.txt range:bytes=0-1,4-5 | poll @0 6"),
    ("a page", "set autoindex yes | dir /a 2 0 | file /b&.txt 3 0 1536*x", "GET / | poll @0 5"),
    ("names that fold, and a name that changes",
     "folds | dir /Docs 27 1 | file /Docs/A.txt 26 1 x | batch rename:/Docs/A.txt:/Docs/B.txt",
     "GET /docs/a.TXT | poll @0 2 | turn | GET /docs/a.TXT | GET /DOCS/b.txt | poll @2 2"),
    ("a page by the rules for clients of macOS, and a name that comes",
     "macos | set autoindex yes | dir /d 27 1 | file /d/._a 26 1 a | batch file:/d/._b:b",
     "GET /d/ | poll @0 3 | GET /d/._b | turn | GET /d/._b | poll @2 2"),
    ("methods that write, and their refusals", "dir /c2 30 1",
     "PUT /n.txt =hi | PUT /n.txt =hi | GET /n.txt | poll @2 2 | PUT /x/y =hi | MKCOL /c | MKCOL /c | DELETE /c | DELETE /c"
     " | COPY /n.txt destination:/m.txt | COPY /n.txt destination:/m.txt overwrite:F | MOVE /m.txt destination:/n.txt"
     " | GET /m.txt | COPY /n.txt | MOVE /c2 destination:/c2/d"),
    ("PUT in a small tree", SMALL, "PUT /d/n =hi | PUT /d/a =new | GET /d/a | poll @2"),
    ("MKCOL in a small tree", SMALL, "MKCOL /d/n | GET /d/n/"),
    ("DELETE of a small tree", SMALL, "DELETE /d | GET /d/a | GET /d/b/c"),
    ("COPY of a small tree", SMALL, "COPY /d destination:/e | GET /e/a | GET /e/b/c | GET /d/b/c"),
    ("COPY of a small tree over a file", SMALL, "COPY /d destination:/g | GET /g/b/c | GET /g"),
    ("MOVE of a small tree", SMALL, "MOVE /d destination:/e | GET /e/b/c | GET /d/b/c"),
    ("MOVE of a small tree over a file", SMALL, "MOVE /d destination:/g | GET /g/b/c | GET /d/a"),
]

HEADING = "# Each call fails in turn, and then the same steps again: "
PAGE_HEADING = "# No name reads as markup on a page."
PAGE = """set autoindex yes | file /<b>"&'.txt 3 0 x | GET / | poll 0 4"""
RUN_HEADING = "# A read that fails behind the first piece breaks the body. A body that ends inside asks the disk nothing."
RUNS = [
    "words folder,serve,--bufsize,4 | disk-fails 5 | in GET /f.txt HTTP/1.1%0D%0AHost: h%0D%0A%0D%0A",
    "in PUT /n.txt HTTP/1.1%0D%0ATransfer-Encoding: chunked%0D%0A%0D%0A5%0D%0Ahi",
]


def numbered(steps, first):
    """The steps with the numbers of their replies, the first of which is `first`."""
    words = [f"{first + int(word[1:])}" if word.startswith("@") else word for word in steps.split(" ")]
    return " ".join(words)


def replies_of(steps):
    return sum(part.strip().split(" ")[0].isupper() for part in steps.split("|"))


class Played:
    """A row that is played by the model, over a store of its own."""

    def __init__(self, parts):
        scene = step_rows.Scene(parts.split("|"))
        self.scene, self.disk = scene, scene.disk
        self.store = Store(self.disk, Memory(*scene.room), scene.folds, scene.macos)
        self.player = Player(self.store, scene.settings)
        self.answers = [self.player.step(step) for step in scene.steps]


def anew(played, steps):
    """What a store with a fresh memory answers to the steps, over a copy of a disk on which nothing fails any more."""
    disk = copy.deepcopy(played.disk)
    scene = step_rows.Scene(numbered(steps, 0).split("|"))
    disk.fails = set()
    store = Store(disk, Memory(*played.scene.room), played.scene.folds, played.scene.macos)
    player = Player(store, played.scene.settings)
    return [player.step(step) for step in scene.steps]


def said(answered):
    """An answer as it is told, without the number of its reply."""
    return told((*answered[:2], 0)) if answered[0] == "reply" else told(answered)


def need_fresh(setup, steps, number):
    """Behind the fault the steps are answered as over a fresh memory."""
    front = Played(f"{setup} | fail {number} | {numbered(steps, 0)}")
    both = Played(f"{setup} | fail {number} | {numbered(steps, 0)} | {numbered(steps, replies_of(steps))}")
    behind = both.answers[len(front.answers):]
    if list(map(said, behind)) != list(map(said, anew(front, steps))):
        raise AssertionError(f"call {number} fails, and then it isn't as over a fresh memory: {setup} | {steps}")


def rows_of(heading, setup, steps):
    lines = []
    for memory in ("", REMEMBERS):
        whole = f"{memory} | {setup}" if memory else setup
        lines.append(f"{HEADING}{heading}{', over a store that remembers' if memory else ''}.")
        for number in range(1, Played(f"{whole} | {numbered(steps, 0)}").disk.asked + 1):
            need_fresh(whole, steps, number)
            lines.append(f"{whole} | fail {number} | {numbered(steps, 0)} | {numbered(steps, replies_of(steps))}")
    return lines


def lines_of(driver, name):
    with open(os.path.join(TOP, "crates", driver, name), newline="\n", encoding="utf-8") as file:
        return file.read().split("\n")[:-1]


def write(driver, name, lines):
    with open(os.path.join(TOP, "crates", driver, name), "w", newline="\n", encoding="utf-8") as file:
        file.write("\n".join(lines) + "\n")


def place_of(stood):
    """Where the lines of this script stand among those of a driver: from its first heading to the next that isn't its."""
    own = (HEADING, PAGE_HEADING, RUN_HEADING)
    start = next((at for at, line in enumerate(stood) if line.startswith(own)), len(stood))
    behind = range(start, len(stood))
    return start, next((at for at in behind if stood[at].startswith("#") and not stood[at].startswith(own)), len(stood))


def handled(driver, rows, wanted, writes):
    """Compares or writes this script's lines of a driver, and tells whether they are so."""
    stood, answers = lines_of(driver, "stdin"), lines_of(driver, "stdout")
    start, end = place_of(stood)
    same = stood[start:end] == rows and answers[start:end] == wanted
    if writes:
        write(driver, "stdin", stood[:start] + rows + stood[end:])
        write(driver, "stdout", answers[:start] + wanted + answers[end:])
    print(f"{driver}: {len(rows)} lines {'written' if writes else 'as wanted' if same else 'DIFFER'}")
    return same or writes


def main():
    writes = sys.argv[1:] == ["--write"]
    steps = [PAGE_HEADING, PAGE] + [line for it in LISTS for line in rows_of(*it)]
    runs = [RUN_HEADING, *RUNS]
    same = handled("step_rows", steps, [step_rows.wanted(row) for row in steps], writes)
    return 0 if handled("run_rows", runs, [run_rows.wanted(row) for row in runs], writes) and same else 1


if __name__ == "__main__":
    sys.exit(main())
