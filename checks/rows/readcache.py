#!/usr/bin/env python3
"""A store that holds contents by their entity tags, and lists of steps for the driver readcache_rows.

    checks/rows/readcache.py            compares the rows of its own in the driver's file
    checks/rows/readcache.py --write    puts them there, in place of those under its headings, or at the end

`Cache` is written from the rules that docs/CACHES.md states: which contents are held and in which order, what an opening
asks, and what a read gives. It calls no code of the program.
"""
import os
import random
import sys

sys.dont_write_bytecode = True
HERE = os.path.dirname(os.path.abspath(__file__))
sys.path.insert(0, HERE)
from disk import DiskError  # noqa: E402
from model import FsError, Stood  # noqa: E402


class Held:
    """An open file of a store. One that was opened for reading alone has a place of its own, and perhaps a content."""

    def __init__(self, inside, is_read):
        self.inside, self.is_read = inside, is_read
        self.content, self.place, self.at = None, 0, 0


class Cache:
    """A store over another one. An entry is a tag and its bytes; the entry that was used last comes first."""

    def __init__(self, store, size, room, most):
        self.store, self.size, self.room, self.most = store, size, room, most
        self.entries = []

    def __getattr__(self, name):
        """All that isn't said here is the store's inside."""
        return getattr(self.store, name)

    def sum(self):
        return sum(len(data) for _, data in self.entries)

    # ---- openings

    def open(self, path, how):
        is_read = all(getattr(how, name) == (name == "read") for name in how.NAMES)
        held = Held(self.store.open(path, how), is_read)
        if is_read:
            self.hold(held)
        return held

    def known(self, held):
        """What is known of an open file, or None where that is refused."""
        try:
            return self.file_meta(held)
        except FsError:
            return None

    def hold(self, held):
        stood = self.known(held)
        if stood is None or not stood.is_file or stood.tag is None or stood.length > self.most:
            return
        entry = next((e for e in self.entries if e[0] == stood.tag), None)
        if entry is not None:
            self.entries.remove(entry)
            self.entries.insert(0, entry)
            held.content = entry
            return
        data = self.whole(held, stood.length)
        after = self.known(held)
        if len(data) == stood.length and after is not None and after.tag == stood.tag:
            held.content = (stood.tag, data)
            self.put(held.content)

    def whole(self, held, length):
        """The bytes that come until the length is reached, no byte stands there, or a read is refused."""
        data = b""
        while len(data) < length:
            try:
                more = self.disk.read(held.inside, length - len(data))
            except DiskError:
                break
            if not more:
                break
            data += more
        held.at = len(data)
        return data

    def put(self, entry):
        """The last ones go until count and sum fit."""
        while len(self.entries) >= self.size or self.sum() + len(entry[1]) > self.room:
            self.entries.pop()
        self.entries.insert(0, entry)

    # ---- calls of an open file

    def file_meta(self, held):
        return self.store.file_meta(held.inside)

    def seek(self, held, place):
        if not held.is_read:
            return self.store.seek(held.inside, place)
        held.place = place
        return True

    def write(self, held, data):
        self.store.write(held.inside, data)

    def read(self, held, room):
        if not held.is_read:
            return self.disk.read(held.inside, room)
        if held.content is not None:
            stood = Stood(self.disk.file_meta(held.inside))
            if stood.is_file and stood.tag == held.content[0]:
                return self.given(held, held.content[1][held.place:held.place + room])
            held.content = None
        if held.at != held.place:
            self.disk.seek(held.inside, held.place)
            held.at = held.place
        data = self.disk.read(held.inside, room)
        held.at += len(data)
        return self.given(held, data)

    @staticmethod
    def given(held, data):
        held.place += len(data)
        return data


class Files:
    """The calls of open files as a body makes them, whose refusals are the disk's."""

    def __init__(self, store):
        self.store = store

    def seek(self, held, place):
        if isinstance(held, Held) and held.is_read:
            held.place = place
        else:
            self.store.disk.seek(held.inside if isinstance(held, Held) else held, place)

    def read(self, held, room):
        return self.store.read(held, room) if isinstance(held, Held) else self.store.disk.read(held, room)


# ---- lists of steps

FAILING = "# Each call of the disk fails in turn."
RANDOM = "# Random lists, over both stores."
SHORT = "# Random lists over a disk that fails and reads short."

TREE = "file /f.txt 26 1 0123456789 | file /g.txt 27 1 abcdefgh | file /h.txt 28 1 xyz"
LISTS = (
    "take /f.txt | take /f.txt | take /g.txt | take /f.txt | kept",
    "GET /f.txt | poll | poll | GET /f.txt | poll | poll | kept",
    "batch cut:/f.txt:6 | open /f.txt | read 4 | turn | read 4 | seek 1 | read 4 | read 4 | kept",
    "short 4 4 | open /f.txt | read 4 | take /g.txt | read 4 | seek 1 | read 4 | kept",
    "GET /f.txt range:bytes=2-4,6-7 | poll | poll | poll | poll | poll | kept",
    "open /f.txt read write | read 4 | write ab | seek 0 | read 9 | take /f.txt | kept",
)
NAMES = ("/f.txt", "/g.txt", "/h.txt", "/n.txt", "/d")


def failing_rows():
    """Each list with each of its calls failing in turn, by as many calls as it asks without a fault and one more."""
    from readcache_rows import wanted
    for steps in LISTS:
        row = f"held 2 18 16 | {TREE} | {steps}"
        asked = int(wanted(row).rpartition("asked ")[2])
        for call in range(1, asked + 2):
            yield f"held 2 18 16 | {TREE} | fail {call} | {steps}"


def text_of(draw, most):
    return "".join(draw.choice("abcxyz012") for _ in range(draw.randint(0, most)))


def change_of(draw):
    """A change from outside."""
    kind, path = draw.choice(("cut", "cut", "cut", "remove", "rename", "file")), draw.choice(NAMES)
    third = {"cut": f":{draw.randint(0, 12)}", "remove": "", "rename": f":{draw.choice(NAMES)}",
             "file": f":{text_of(draw, 12)}"}[kind]
    return f"{kind}:{path}{third}"


def store_of(draw):
    room = draw.randint(0, 30)
    return f"{draw.randint(1, 4)} {room} {draw.randint(0, room)}"


def scene_of(draw):
    """What stands there, and the turns to come."""
    parts = ["dir /d 30 1"]
    for number, path in enumerate(NAMES[:3], 26):
        if draw.random() < 0.9:
            parts.append(f"file {path} {number} {draw.randint(-1, 9)} {text_of(draw, 12)}")
    for _ in range(6):
        parts.append(" ".join(["batch"] + [change_of(draw) for _ in range(draw.randint(1, 3))]))
    return parts


def range_of(draw):
    first = draw.randint(0, 12)
    return draw.choice(("", "", f" range:bytes={first}-{first + draw.randint(0, 5)}", f" range:bytes=-{first}",
                        f" range:bytes=0-1,{first}-"))


def step_of(draw):
    path, other = draw.choice(NAMES), draw.choice(NAMES)
    return draw.choice((
        f"open {path}", f"open {path}", f"GET {path}{range_of(draw)}", f"GET {path}", f"HEAD {path}", f"take {path}",
        f"take {path}", f"whole {path} {draw.randint(0, 3)}", "turn", "turn", "clear", "close", "meta",
        f"open {path} write create truncate", f"open {path} read write", f"open {path} append",
        f"write {text_of(draw, 9)}", f"write {text_of(draw, 9)}", f"look {path}", f"rm {path}", f"mv {path} {other}",
        f"cp {path} {other}"))


def used(draw):
    """Calls of what is open, a few in a row."""
    calls = ["poll", f"read {draw.randint(1, 14)}", f"read {draw.randint(1, 5)}", f"seek {draw.randint(0, 14)}", "turn"]
    return [draw.choice(calls) for _ in range(draw.randint(0, 4))]


def steps_of(draw):
    steps = []
    for _ in range(draw.randint(4, 14)):
        steps += [step_of(draw)] + used(draw)
    return steps


def random_rows(count):
    draw = random.Random(19)
    for _ in range(count):
        yield " | ".join([f"both {store_of(draw)}"] + scene_of(draw) + steps_of(draw))


def short_rows(count):
    """Over a disk that fails now and then, with reads that are short."""
    draw = random.Random(91)
    for _ in range(count):
        fails = " ".join(str(draw.randint(1, 60)) for _ in range(draw.randint(0, 4)))
        shorts = " ".join(str(draw.randint(1, 6)) for _ in range(draw.randint(1, 12)))
        parts = [f"held {store_of(draw)}"] + scene_of(draw) + [f"short {shorts}"] + ([f"fail {fails}"] if fails else [])
        steps = [step for part in steps_of(draw) for step in ((part, "kept") if draw.random() < 0.3 else (part,))]
        yield " | ".join(parts + steps)


def own_rows():
    return [FAILING, *failing_rows(), RANDOM, *random_rows(300), SHORT, *short_rows(150)]


def main():
    top = os.path.dirname(os.path.dirname(HERE))
    name = os.path.join(top, "crates", "readcache_rows", "stdin")
    with open(name, encoding="utf-8") as file:
        rows = file.read().split("\n")[:-1]
    front = rows[:rows.index(FAILING)] if FAILING in rows else rows
    if sys.argv[1:] == ["--write"]:
        with open(name, "w", encoding="utf-8") as file:
            file.write("\n".join(front + own_rows()) + "\n")
        return 0
    if rows[len(front):] != own_rows():
        print("readcache_rows: its rows aren't those of readcache.py")
        return 1
    return 0


if __name__ == "__main__":
    sys.exit(main())
