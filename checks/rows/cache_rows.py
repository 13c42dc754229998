"""The wanted rows of `cache_rows`: events of the caches' core by several callers, and calls of a memory."""
from disk import READING, SECOND, Disk, DiskError
from store import Dots, Memory, Paths, fold
from texts import Unread, number, print_wanted

MILLI = 10**6


def number_of(cell):
    value = number(cell, 0, 2**32 - 1)
    if value is None:
        raise Unread
    return value


def moment_of(cell):
    return number_of(cell) * MILLI


def names_of(cell):
    names = tuple(name for name in cell.split("/") if name)
    if any(name in (".", "..") or "\0" in name for name in names):
        raise Unread
    return names


def path_text(path):
    return "none" if path is None else "/" + "/".join(path)


def tree_of(root, cells):
    """A tree: a directory's time by its path, None for a file."""
    tree = {(): number_of(root)}
    for cell in cells.split(",") if cells else []:
        path, at, secs = cell.partition("@")
        path = names_of(path)
        if path in tree or path[:-1] not in tree or tree[path[:-1]] is None:
            raise Unread
        tree[path] = number_of(secs) if at else None
    return tree


# ---- the core

class Caller:
    """Where a caller is, and what it holds."""

    def __init__(self):
        self.place, self.held = "idle", {}

    def to(self, place, **held):
        self.place = place
        self.held.update(held)
        return "-"

    def idle(self, told):
        self.place, self.held = "idle", {}
        return told


def absent(holds):
    return "absent" if holds else "unknown"


class Core:
    """The caches' core: a tree, the two lists of entries, and each caller's place."""

    # At which places an event of a caller is awaited.
    AWAITED = {"ask": ("idle",), "begin": ("idle",), "find": ("idle",), "insert": ("idle",), "peek": ("asked",),
               "check": ("peeked",), "conclude": ("equal",), "dropdir": ("other",), "before": ("begun",),
               "next": ("listing",), "after": ("listed",), "seal": ("closed",), "get": ("sought",),
               "probe": ("got",), "drop": ("gone",)}

    def __init__(self, callers, paths, dots):
        self.tree, self.paths, self.dots = {(): 0}, Paths(paths), Dots(dots)
        self.callers = [Caller() for _ in range(callers)]

    def step(self, word):
        cells = (word.split(":") + ["", "", ""])[:4]
        name = cells[0]
        if name == "change":
            self.tree = tree_of(cells[1], cells[2])
            return "-"
        if name == "purge":
            (self.dots if cells[1] == "dots" else self.paths).purge(moment_of(cells[2]))
            return "-"
        if name not in self.AWAITED:
            raise Unread
        at, told = number_of(cells[1]), self.read(name, cells[2], cells[3])
        if at >= len(self.callers) or self.callers[at].place not in self.AWAITED[name]:
            return "misplaced"
        return getattr(self, name)(self.callers[at], *told)

    def read(self, name, third, fourth):
        """What an event is about."""
        if name == "ask":
            return names_of(third), fourth
        if name in ("begin", "find"):
            return (names_of(third),)
        if name == "insert":
            return names_of(third), moment_of(fourth)
        if name == "seal":
            return number_of(third), moment_of(fourth)
        return (third == "refused",) if name in ("check", "before", "next", "after", "probe") else ()

    def time(self, path, refused):
        """The time of a directory, None where the look is refused or finds none."""
        return None if refused else self.tree.get(path)

    def ask(self, caller, path, name):
        return caller.to("asked", path=path, name=name)

    def peek(self, caller):
        entry = self.dots.peek(caller.held["path"])
        return caller.idle("unknown") if entry is None else caller.to("peeked", time=entry[3], number=entry[4])

    def check(self, caller, refused):
        time = self.time(caller.held["path"], refused)
        return caller.to("equal" if time is not None and time == caller.held["time"] else "other")

    def conclude(self, caller):
        held = caller.held
        return caller.idle(absent(self.dots.conclude(held["path"], held["name"], held["number"])))

    def dropdir(self, caller):
        self.dots.drop(caller.held["path"])
        return caller.idle("unknown")

    def begin(self, caller, path):
        return caller.to("begun", path=path, sound=True, names=[], last=None)

    def before(self, caller, refused):
        time = self.time(caller.held["path"], refused)
        return caller.to("listing", before=time, sound=time is not None)

    def next(self, caller, refused):
        held = caller.held
        if self.time(held["path"], refused) is None:
            return caller.to("listed", sound=False)
        members = sorted((p[-1] for p in self.tree if p and p[:-1] == held["path"]), key=str.encode)
        name = next((m for m in members if held["last"] is None or m.encode() > held["last"].encode()), None)
        if name is None:
            return caller.to("listed")
        if name.startswith("._"):
            held["names"].append(name)
        return caller.to("listing", last=name)

    def after(self, caller, refused):
        time = self.time(caller.held["path"], refused)
        return caller.to("closed", sound=caller.held["sound"] and time is not None and time == caller.held["before"])

    def seal(self, caller, room, now):
        held = caller.held
        if held["sound"]:
            self.dots.seal(held["path"], held["before"], held["names"], now, room)
        return caller.idle("-")

    def find(self, caller, path):
        return caller.to("sought", key=fold(path))

    def get(self, caller):
        """A look-up brings the entry to the front."""
        entry = next((e for e in self.paths.entries if e[0] == caller.held["key"]), None)
        if entry is None:
            return caller.idle("none")
        self.paths.entries.remove(entry)
        self.paths.entries.insert(0, entry)
        return caller.to("got", path=entry[1])

    def probe(self, caller, refused):
        if refused or caller.held["path"] not in self.tree:
            return caller.to("gone")
        return caller.idle(path_text(caller.held["path"]))

    def drop(self, caller):
        self.paths.entries = [e for e in self.paths.entries if e[0] != caller.held["key"]]
        return caller.idle("none")

    def insert(self, caller, path, now):
        self.paths.insert(path, now)
        return "-"


# ---- calls

class Listing:
    """A listing that is gathered: the directory's time before it, the names, and whether it is sound."""

    def __init__(self, calls, path):
        self.calls, self.path, self.names, self.sound, self.ended = calls, path, [], True, False
        self.before = calls.time(path)

    def finish(self, now):
        if self.ended:
            return
        after, self.ended = self.calls.time(self.path), True
        if self.sound and after is not None and after == self.before:
            self.calls.memory.seal(self.path, after, sorted(set(self.names), key=str.encode), now)


class Calls:
    """Calls of a memory over a disk that has the directory `/d` alone."""

    def __init__(self, paths, dots):
        self.disk, self.memory, self.listing = Disk(), Memory(paths, dots), None
        self.disk.add(("d",), 2, SECOND)

    def time(self, path):
        try:
            meta = self.disk.meta(path)
        except DiskError:
            return None
        return meta.time if meta.kind == "dir" else None

    def found(self, name, path):
        call = self.disk.meta if name == "get" else lambda place: self.disk.open(place, READING)
        hit = None if name.startswith("forget") else self.memory.get(path, call)
        return path_text(None if hit is None else hit[0])

    def call(self, word):
        name, second, third = (word.split(":") + ["", ""])[:3]
        if name in ("get", "open", "forget", "forget-open"):
            return self.found(name, names_of(second))
        if name == "negative":
            return absent(self.memory.negative(names_of(second), third, self.disk))
        counts = {"paths": self.memory.paths.entries, "dots": self.memory.dots.entries}
        if name in counts:
            return str(len(counts[name]))
        if name == "asked":
            return str(self.disk.asked)
        self.change(name, second, third)
        return "-"

    def change(self, name, second, third):
        if name == "insert":
            self.memory.insert(names_of(second), moment_of(third))
        elif name == "purge":
            self.memory.purge(moment_of(second))
        elif name == "list":
            self.listing = Listing(self, names_of(second))
        elif name not in ("add", "many", "fault", "finish") or self.listing is None:
            raise Unread
        elif name == "add":
            self.listing.names += [second] if second.startswith("._") else []
        elif name == "many":
            self.listing.names += [f"._{n + 1:06}" for n in range(number_of(second))]
        elif name == "fault":
            self.listing.sound = False
        else:
            self.listing.finish(moment_of(second))


def wanted(row):
    first, *words = row.split(" ")
    try:
        cells = first.removeprefix("calls:").split(":") + ["", "", ""]
        if first.startswith("calls:"):
            world = Calls(*sizes_of(cells[:2]))
            return " ".join(world.call(word) for word in words)
        world = Core(number_of(cells[0]), *sizes_of(cells[1:3]))
        return " ".join(world.step(word) for word in words)
    except Unread:
        return "no answer"


def sizes_of(cells):
    """Two capacities, each at least one."""
    sizes = [number_of(cell) for cell in cells]
    if 0 in sizes:
        raise Unread
    return sizes


def wanted_all(rows):
    return [wanted(row) for row in rows]


if __name__ == "__main__":
    print_wanted(wanted_all)
