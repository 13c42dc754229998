"""The wanted rows of `host_rows`: a disk of the machine answers as a disk in memory does, but for its faults.

What the machine alone decides is beyond the model: symbolic links, options that it doesn't take together, places that
it doesn't take, and a disk whose folder isn't there.
"""
from calls import DISK_TEXTS, told_or_refused
from disk import PUTTING, SECOND, Disk, DiskError, Options
from model import path_of
from store import Store
from texts import Beyond, number, print_wanted, word

REASONS = "symbolic links, a folder that isn't there, and places and options that the machine refuses"
LONGEST, LAST_PLACE, FOREVER = 8192, 2**63 - 1, 10**9
LETTERS = {"r": "read", "w": "write", "a": "append", "t": "truncate", "c": "create", "n": "create_new"}
# The machine's clock shows a moment behind this one.
YEAR_2020 = 1_577_836_800 * SECOND
LOOKS = ("keep", "same", "number", "since", "when")
KINDS = {"dir": "folder", "file": "file"}


def names_of(text):
    names = []
    for name in text.split("/"):
        count, star, copied = name.partition("*")
        names.append(copied * number(count) if star else name)
    return tuple(name for name in names if name)


class Machine:
    """Folders and files below the folder that the program runs in, and which of them were made for their owner."""

    def __init__(self):
        self.disk, self.linked, self.alone = Disk(), set(), set()
        self.disk.latest = YEAR_2020

    def folder(self, path):
        for end in range(1, len(path) + 1):
            if path[:end] not in self.disk.tree:
                self.disk.make(path[:end])

    def file(self, path, data):
        self.disk.tree.pop(path, None)
        self.disk.make(path, data)


class Below:
    """A disk below a folder, and the look that was kept. A path whose text is too long for the machine is a fault."""

    def __init__(self, machine, root):
        self.machine, self.root, self.faults, self.kept = machine, root, 0, None
        if root in machine.linked or root not in machine.disk.tree:
            raise Beyond

    def at(self, path):
        if len("/".join(path)) > LONGEST:
            raise DiskError("Failed")
        if any(link[:len(self.root)] == self.root for link in self.machine.linked):
            raise Beyond
        return path

    def on(self, call, *paths):
        """Makes a call on the part of the machine's tree that lies below the folder."""
        disk, size = self.machine.disk, len(self.root)
        whole, own = disk.tree, {p[size:]: f for p, f in disk.tree.items() if p[:size] == self.root}
        disk.tree = own
        try:
            return call(disk, *[self.at(path) for path in paths])
        finally:
            rest = {p: f for p, f in whole.items() if p[:size] != self.root}
            disk.tree = {**rest, **{self.root + p: f for p, f in own.items()}}


def meta_text(meta):
    return KINDS[meta.kind] + (f" of {meta.length}" if meta.kind == "file" else "")


def read(disk, path, place):
    handle = disk.open(path, Options("read"))
    if place > LAST_PLACE:
        raise Beyond
    handle.place = place
    meta, data = disk.file_meta(handle), disk.read(handle, 4)
    return f"{meta_text(meta)}: {data.decode()}"


def write(disk, path, letters, place, text):
    how = Options(*[name for letter, name in LETTERS.items() if letter in letters])
    # The machine asks for one way of access, and empties or makes only what is written.
    if not (how.read or how.write or how.append) or how.append and how.truncate or not how.write and (
            how.create or how.create_new):
        raise Beyond
    handle = disk.open(path, how)
    handle.place = place
    return f"wrote {disk.write(handle, text.encode()) if text else 0}"


def listed(disk, path):
    names = disk.list(path)
    return ", ".join(disk.list_next(names) or "end" for _ in range(2))


def met(disk, path, how):
    return disk.file_meta(disk.open(path, Options("read"))) if how in ("open", "again") else disk.meta(path)


def looked(below, kind, how, path):
    """A look at a number and a time, compared with the one that was kept."""
    meta = below.on(lambda disk, at: met(disk, at, how), path)
    if kind == "keep":
        below.kept = meta
        return "kept"
    if kind == "when":
        return f"{meta.time // SECOND} and {meta.time % SECOND}"
    number_text = "same number" if meta.number == below.kept.number else "another number"
    time_text = "same time" if meta.time == below.kept.time else "another time"
    return {"same": f"{number_text}, {time_text}", "number": number_text,
            "since": "not earlier" if below.kept.time <= meta.time else "earlier"}[kind]


def call(below, words):
    if words[0] in LOOKS:
        return looked(below, words[0], words[1], below.at(names_of(words[2])))
    kind, path, third = words[0], names_of(word(words, 1)), word(words, 2)
    below.at(path)
    if kind in ("look", "link"):
        return below.on(lambda disk, at: meta_text(disk.meta(at)), path)
    if kind == "read":
        return below.on(lambda disk, at: read(disk, at, number(third) or 0), path)
    if kind == "list":
        return below.on(listed, path)
    if kind == "turn":
        return "turned"
    if kind == "write":
        if below.root + path not in below.machine.disk.tree and "p" not in third:
            below.machine.alone.add(below.root + path)
        return below.on(lambda disk, at: write(disk, at, third, number(word(words, 3)) or 0, word(words, 4)), path)
    calls = {"make": Disk.create_dir, "share": Disk.create_dir, "clear": Disk.remove_dir, "remove": Disk.remove_file, "rename": Disk.rename,
             "copy": Disk.copy}
    if kind == "make":
        below.machine.alone.add(below.root + path)
    below.on(calls[kind], *([path, names_of(third)] if kind in ("rename", "copy") else [path]))
    return "done"


def on_disk(machine, root, parts):
    below, line = Below(machine, names_of(root)), ""
    for part in parts.split("|")[1:]:
        try:
            line += call(below, part.strip().split(" ")) + " | "
        except DiskError as error:
            below.faults += error.name == "Failed"
            line += DISK_TEXTS[error.name] + " | "
    return f"{line}failed {below.faults}"


def call_of_store(store, kind, text):
    if kind == "put":
        store.open(path_of(text), PUTTING)
    elif kind == "make":
        store.create_dir(path_of(text))
    else:
        store.create_defaults()
    return "done"


def by_stores(machine, root, text):
    """What local stores answer, each to one call. What they make is its owner's alone, unless it is to be public."""
    how, *parts = [part.strip() for part in text.split("|")]
    below, answers = Below(machine, names_of(root)), []
    for kind, _, path in [part.partition(" ") for part in parts]:
        before = set(machine.disk.tree)
        call = lambda disk, _: call_of_store(Store(disk, folds="f" in how), kind, path)
        answers.append(told_or_refused(below.on, call, ()))
        machine.alone |= set() if "p" in how else set(machine.disk.tree) - before
    return ", ".join(answers)


def taken(machine, path):
    """What two reads of eight bytes give."""
    file = machine.disk.tree[names_of(path)]
    if file.is_dir:
        return "failed failed "
    return "".join(f"={file.data[at:at + 8].decode()} " for at in (0, 8))


def answer(machine, row):
    kind, path, text = (row.split(" ", 2) + ["", ""])[:3]
    if kind == "folder":
        machine.folder(names_of(path))
    elif kind == "file":
        machine.file(names_of(path), text.encode())
    elif kind == "date":
        secs, nanos = text.split(" ")
        machine.disk.tree[names_of(path)].time = number(secs) * SECOND + number(nanos)
    elif kind == "symlink":
        machine.linked.add(names_of(path))
    elif kind == "put":
        machine.file(names_of(path), text.encode())
        return f"took {len(text)}"
    else:
        calls = {"disk": lambda: on_disk(machine, path, text), "take": lambda: taken(machine, path),
                 "stuck": lambda: "failed", "store": lambda: by_stores(machine, path, text),
                 "alone": lambda: ", ".join("alone" if names_of(it) in machine.alone else "open" for it in row.split(" ")[1:]),
                 "clock": lambda: "late true, goes on true"}
        return calls[kind]() if kind in calls else row
    return "made"


def wanted_all(rows):
    machine, lines = Machine(), []
    for row in rows:
        try:
            lines.append(answer(machine, row))
        except Beyond:
            lines.append(None)
    return lines


if __name__ == "__main__":
    print_wanted(wanted_all)
