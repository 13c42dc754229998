"""The disk in memory: its tree, its calls and its script (Tree, World, and the table of refusals of a told disk).

Each call has a number, from 1. A call that fails leaves the world whole.
"""
SECOND = 10**9
TICK = 1000
# The times that a disk can tell, as whole nanoseconds.
LAST_TIME = (2**63 - 1) * SECOND + SECOND - 1
YEAR_10000 = 253_402_300_800 * SECOND
GREATEST = 2**64 - 1


class DiskError(Exception):
    """A refusal by its name: NotFound, Exists, NotDir, IsDir, NotEmpty or Failed."""

    def __init__(self, name):
        super().__init__(name)
        self.name = name


class File:
    """A file or a directory, whatever paths it has."""

    def __init__(self, is_dir, number, time, data=b""):
        self.is_dir, self.number, self.time, self.data = is_dir, number, time, data

    def meta(self):
        return Meta("dir" if self.is_dir else "file", self.number, 0 if self.is_dir else len(self.data), self.time)


class Meta:
    def __init__(self, kind, number, length, time):
        self.kind, self.number, self.length, self.time = kind, number, length, time


class Options:
    NAMES = ("read", "write", "append", "truncate", "create", "create_new")

    def __init__(self, *names):
        for name in self.NAMES:
            setattr(self, name, name in names)


READING = Options("read")
PUTTING = Options("write", "create", "truncate")


class Handle:
    def __init__(self, file, how):
        self.file, self.how, self.place = file, how, 0


class Disk:
    """A disk whose calls of the numbers in `fails` fail, and whose next reads give no more than the lengths in
    `shorts`."""

    def __init__(self):
        self.tree = {(): File(True, 1, 0)}
        self.greatest, self.latest = 1, SECOND
        self.scripts, self.fails, self.shorts = [], set(), []
        self.asked = self.faults = self.listings = 0

    # ---- how it is set up

    def can_add(self, path, number, time):
        held = {file.number for file in self.tree.values()}
        return (path not in self.tree and self.is_dir(path[:-1]) and number not in held and number < 2**63
                and time < YEAR_10000)

    def add(self, path, number, time, data=None):
        if self.can_add(path, number, time):
            self.tree[path] = File(data is None, number, time, data or b"")
            self.greatest = max(self.greatest, number)
            self.latest = max(self.latest, time + SECOND)

    # ---- what stands

    def is_dir(self, path):
        return path in self.tree and self.tree[path].is_dir

    def members(self, path):
        """The names in a directory, in the order of their bytes."""
        return sorted((p[-1] for p in self.tree if len(p) == len(path) + 1 and p[:-1] == path), key=str.encode)

    def place(self, path):
        """What stands at a path, or None, or the refusal of every call on it."""
        for end in range(len(path)):
            if not self.is_dir(path[:end]):
                raise DiskError("NotDir" if path[:end] in self.tree else "NotFound")
        return self.tree.get(path)

    def stands(self, path):
        file = self.place(path)
        if file is None:
            raise DiskError("NotFound")
        return file

    # ---- numbers and times

    def needs(self, ticks, numbers=0):
        """Whether so many ticks and numbers are left; where they aren't, a call changes nothing and fails."""
        return self.latest + ticks * TICK <= LAST_TIME and self.greatest + numbers <= GREATEST

    def need(self, ticks, numbers=0):
        if not self.needs(ticks, numbers):
            self.faults += 1
            raise DiskError("Failed")

    def tick(self):
        self.latest += TICK
        return self.latest

    def next_number(self):
        self.greatest += 1
        return self.greatest

    def make(self, path, data=None):
        """Makes a row: its tick comes first, then that of its directory."""
        self.tree[path] = File(data is None, self.next_number(), self.tick(), data or b"")
        self.tree[path[:-1]].time = self.tick()

    def fill(self, file, data):
        """Gives a file these bytes. Bytes that stay equal are no change."""
        if file.data != data:
            file.data, file.time = data, self.tick()

    def take(self, path):
        """Takes away what stands at a path, with all below it."""
        for gone in [p for p in self.tree if p[:len(path)] == path]:
            del self.tree[gone]
        self.tree[path[:-1]].time = self.tick()

    def move(self, start, end):
        moved = {end + p[len(start):]: f for p, f in self.tree.items() if p[:len(start)] == start}
        for gone in [p for p in self.tree if p[:len(start)] == start]:
            del self.tree[gone]
        self.tree.pop(end, None)
        self.tree.update(moved)
        self.tree[start[:-1]].time = self.tick()
        if end[:-1] != start[:-1]:
            self.tree[end[:-1]].time = self.tick()

    # ---- a turn of the outside

    def turn(self):
        for change in self.scripts.pop(0) if self.scripts else []:
            self.change(*change)

    def change(self, kind, path, third=None):
        """A change of a batch. One that the tree doesn't allow is skipped."""
        file = self.tree.get(path)
        if kind in ("dir", "file") and file is None and path and self.is_dir(path[:-1]) and self.needs(2, 1):
            self.make(path, None if kind == "dir" else third)
        elif kind == "cut" and file is not None and not file.is_dir:
            data = file.data[:third] + bytes(max(0, third - len(file.data)))
            if data != file.data and self.needs(1):
                self.fill(file, data)
        elif kind == "remove" and file is not None and path and self.needs(1):
            self.take(path)
        elif kind == "rename":
            try:
                if self.may_rename(path, third) and self.needs(1 if path[:-1] == third[:-1] else 2):
                    self.move(path, third)
            except DiskError:
                pass

    # ---- calls

    def ask(self):
        self.asked += 1
        if self.asked in self.fails:
            self.faults += 1
            raise DiskError("Failed")

    def meta(self, path):
        self.ask()
        return self.stands(path).meta()

    def open(self, path, how):
        self.ask()
        file = self.place(path)
        if file is not None and how.create_new:
            raise DiskError("Exists")
        if file is None and not (how.create or how.create_new):
            raise DiskError("NotFound")
        if file is not None and file.is_dir and (how.write or how.append):
            raise DiskError("IsDir")
        if file is None:
            self.need(2, 1)
            self.make(path, b"")
        elif how.truncate and how.write and file.data:
            self.need(1)
            self.fill(file, b"")
        return Handle(self.tree[path], how)

    def file_meta(self, handle):
        self.ask()
        return handle.file.meta()

    def seek(self, handle, place):
        self.ask()
        handle.place = place

    def read(self, handle, room):
        self.ask()
        if handle.file.is_dir or not handle.how.read:
            raise DiskError("IsDir")
        most = self.shorts.pop(0) if self.shorts else room
        data = handle.file.data[handle.place:handle.place + min(room, most)]
        handle.place += len(data)
        return data

    def write(self, handle, data):
        self.ask()
        if handle.file.is_dir or not (handle.how.write or handle.how.append):
            raise DiskError("IsDir")
        old = handle.file.data
        place = len(old) if handle.how.append else handle.place
        new = old[:place] + bytes(max(0, place - len(old))) + data + old[place + len(data):]
        if new != old:
            self.need(1)
            self.fill(handle.file, new)
        handle.place = place + len(data)
        return len(data)

    def list(self, path):
        self.listings += 1
        self.ask()
        if not self.stands(path).is_dir:
            raise DiskError("NotDir")
        return iter(self.members(path))

    def list_next(self, names):
        self.ask()
        return next(names, None)

    def create_dir(self, path):
        self.ask()
        if self.place(path) is not None:
            raise DiskError("Exists")
        self.need(2, 1)
        self.make(path)

    def remove_dir(self, path):
        self.ask()
        if not self.stands(path).is_dir:
            raise DiskError("NotDir")
        if not path or self.members(path):
            raise DiskError("NotEmpty")
        self.need(1)
        self.take(path)

    def remove_file(self, path):
        self.ask()
        if self.stands(path).is_dir:
            raise DiskError("IsDir")
        self.need(1)
        self.take(path)

    def may_rename(self, start, end):
        """Whether a renaming changes something, or its refusal."""
        file = self.stands(start)
        there = self.place(end)
        if not start or not end or (len(end) > len(start) and end[:len(start)] == start):
            raise DiskError("NotEmpty")
        if start == end:
            return False
        if there is not None and file.is_dir and not there.is_dir:
            raise DiskError("NotDir")
        if there is not None and there.is_dir and not file.is_dir:
            raise DiskError("IsDir")
        if there is not None and there.is_dir and self.members(end):
            raise DiskError("NotEmpty")
        return True

    def rename(self, start, end):
        self.ask()
        if self.may_rename(start, end):
            self.need(1 if start[:-1] == end[:-1] else 2)
            self.move(start, end)

    def copy(self, start, end):
        self.ask()
        file, there = self.stands(start), self.place(end)
        if file.is_dir or there is not None and there.is_dir:
            raise DiskError("IsDir")
        if start == end:
            return
        if there is None:
            self.need(2, 1)
            self.make(end, file.data)
        elif there.data != file.data:
            self.need(1)
            self.fill(there, file.data)
