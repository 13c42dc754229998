"""The store over a disk: names that fold, the rules for clients of macOS, and what is remembered of either.

Each call says which calls of the disk it makes, in their order, since rows count them and let each fail in turn.
"""
from disk import READING, SECOND, DiskError
from model import FROM_DISK, Empty, FsError, Path, Stood

BATCH = 256
PATHS_LAST, DOTS_LAST = 900, 60
VIRTUAL = (".metadata_never_index", ".ql_disablethumbnails")
HIDDEN = ".localized"


def fold(path):
    return tuple(name.casefold() for name in path)


class Paths:
    """The path cache: entries (folded path, actual path, whole seconds), the most recently used first."""

    def __init__(self, size):
        self.size, self.entries = size, []

    def insert(self, path, now):
        self.entries = [e for e in self.entries if e[0] != fold(path)]
        self.entries = ([(fold(path), path, now // SECOND)] + self.entries)[:self.size]

    def get(self, path, call):
        """The path of an entry, and what a call of the disk there gives. An entry where it is refused is taken out."""
        entry = next((e for e in self.entries if e[0] == fold(path)), None)
        if entry is None:
            return None
        self.entries.remove(entry)
        try:
            seen = call(entry[1])
        except DiskError:
            return None
        self.entries.insert(0, entry)
        return entry[1], seen

    def purge(self, now):
        while self.entries and self.entries[-1][2] + PATHS_LAST <= now // SECOND:
            self.entries.pop()


class Dots:
    """The cache of names that begin with `._`: entries (directory, name or None, moment, time, number)."""

    def __init__(self, size):
        self.size, self.entries, self.next = size, [], 1

    def peek(self, path):
        return next((e for e in self.entries if e[:2] == (path, None)), None)

    def put(self, entry):
        """A full cache drops its last entry: a directory's goes before those of its names."""
        self.entries = ([entry] + [e for e in self.entries if e[:2] != entry[:2]])[:self.size]

    def drop(self, path):
        self.entries = [e for e in self.entries if e[:2] != (path, None)]

    def seal(self, path, time, names, now, room=None):
        """Puts a directory and its names, of which only so many find room. Without room for all the directory goes."""
        number, self.next = self.next, self.next + 1
        for put, name in enumerate([None] + list(names)):
            if put == room:
                return self.drop(path)
            self.put((path, name, now, time, number))
        return None

    def conclude(self, path, name, number):
        """Whether the directory stands with a number, and the name doesn't."""
        entry = self.peek(path)
        return (entry is not None and entry[4] == number
                and not any(e[:2] == (path, name) and e[4] == number for e in self.entries))

    def negative(self, path, name, disk):
        """Whether the directory is known not to have the name. It asks the directory's time where it is known."""
        entry = self.peek(path)
        if entry is None:
            return False
        try:
            meta = disk.meta(path)
        except DiskError:
            meta = None
        if meta is None or meta.kind != "dir" or meta.time != entry[3]:
            self.drop(path)
            return False
        return self.conclude(path, name, entry[4])

    def purge(self, now):
        while self.entries and now >= self.entries[-1][2] and (now - self.entries[-1][2]) // SECOND > DOTS_LAST:
            self.entries.pop()


class Memory:
    """What is remembered. Without room nothing is."""

    def __init__(self, paths=0, dots=0):
        self.paths, self.dots = Paths(paths) if paths else None, Dots(dots) if dots else None

    def get(self, path, call):
        return self.paths.get(path, call) if self.paths else None

    def insert(self, path, now):
        if self.paths:
            self.paths.insert(path, now)

    def negative(self, path, name, disk):
        return self.dots.negative(path, name, disk) if self.dots else False

    def seal(self, path, time, names, now):
        if self.dots:
            self.dots.seal(path, time, names, now)

    def purge(self, now):
        if self.paths:
            self.paths.purge(now)
        if self.dots:
            self.dots.purge(now)


class Ground:
    """A store's disk, with what the last search that found nothing sought: a directory, and a folding that no name in it
    has. That holds until the disk is lent or changed, or a file is used, or the store's moment is set."""
    KEEPING = ("meta", "link_meta", "list", "list_next", "end_list")

    def __init__(self, disk):
        self.disk, self.missing = disk, None

    def lend(self):
        self.missing = None
        return self.disk

    def __getattr__(self, name):
        found = getattr(self.disk, name)
        if not callable(found) or name in self.KEEPING:
            return found
        return lambda *what: getattr(self.lend(), name)(*what)


class Listing:
    """An open listing of a store: batches of names with their metadata, unless none is to be read."""

    def __init__(self, store, path, follows, reads):
        self.store, self.path, self.reads = store, store.resolve(path), reads
        self.refusal, self.refusals = None, {}
        self.batch, self.ended = [], False
        self.seals = store.macos and follows
        self.dots, self.before = [], self.time() if self.seals else None
        self.sound = True
        self.names = store.asks(store.disk.list, self.path)

    def time(self):
        try:
            meta = self.store.disk.meta(self.path)
        except DiskError:
            return None
        return meta.time if meta.kind == "dir" else None

    def next(self):
        """The next entry, with None for refused metadata; `fault` once for a fault; None at the end."""
        if not self.batch and not self.ended:
            self.fill()
        if self.batch:
            return self.batch.pop(0)
        if self.seals:
            self.finish()
        return None

    def fill(self):
        """Reads a batch. A fault ends the listing."""
        while len(self.batch) < BATCH:
            try:
                name = self.store.disk.list_next(self.names)
            except DiskError as error:
                self.refusal, self.sound, self.ended = FROM_DISK[error.name], False, True
                self.batch.append("fault")
                return
            if name is None:
                self.ended = True
                return
            if name.startswith("._"):
                self.dots.append(name)
            self.batch.append((name, self.entry(name)))

    def entry(self, name):
        try:
            return Stood(self.store.disk.meta(self.path + (name,))) if self.reads else None
        except DiskError as error:
            self.refusal = self.refusals[name] = FROM_DISK[error.name]
            return None

    def finish(self):
        """Seals the names of a listing without a fault between equal times."""
        after, self.seals = self.time(), False
        if self.sound and after is not None and after == self.before:
            self.store.memory.seal(self.path, after, self.dots, self.store.now)


class Store:
    """A store of the disk's root, or of one file alone, at whatever path it is asked."""

    def __init__(self, disk, memory=None, folds=False, macos=False, alone=None):
        self.disk, self.memory, self.folds, self.macos = Ground(disk), memory or Memory(), folds, macos
        self.alone, self.moment = alone, 0

    @property
    def now(self):
        return self.moment

    @now.setter
    def now(self, moment):
        """A moment that is set begins a step."""
        self.disk.lend()
        self.moment = moment

    def asks(self, call, *what):
        """Makes a call of the disk. Its refusal becomes the store's."""
        try:
            return call(*what)
        except DiskError as error:
            raise FsError(FROM_DISK[error.name]) from None

    # ---- where a path leads

    def compared(self, names):
        return fold(names) if self.folds else names

    def stands(self, path):
        """Whether the disk finds a path. A failing call is the store's refusal."""
        try:
            return self.disk.meta(path)
        except DiskError as error:
            if error.name == "Failed":
                raise FsError("GeneralFailure") from None
            return None

    def is_known(self):
        """Whether a path is found without the disk."""
        return not self.folds or self.alone is not None

    def resolve(self, path):
        return self.found(path)[0]

    def found(self, path):
        """Where a path is found, and its metadata where the call by which it was found told it."""
        names = path.names
        if self.is_known():
            return (names if self.alone is None else self.alone), None
        hit = self.memory.get(names, self.disk.meta)
        return self.found_on_disk(names) if hit is None else hit

    def found_on_disk(self, names):
        meta = self.stands(names)
        if meta is not None or not names:
            return names, meta
        parent = self.sought(names[:-1])
        return (self.walked(names) if parent is None else self.member_of(parent, names)), None

    def sought(self, parent):
        """The parent of a path, where it is remembered or stands as it is asked."""
        if not parent:
            return parent
        hit = self.memory.get(parent, self.disk.meta)
        if hit is None and self.stands(parent) is not None:
            self.memory.insert(parent, self.now)
            return parent
        return None if hit is None else hit[0]

    def member_of(self, parent, names):
        """A path through the member of its parent that folds like its last name."""
        alike = self.alike(parent, names[-1])
        if alike is None:
            return parent + names[-1:]
        self.memory.insert(parent + (alike,), self.now)
        return parent + (alike,)

    def alike(self, directory, name):
        """The name in a directory that folds like this one, by a listing of it, unless it is known to have none."""
        sought = directory, name.casefold()
        if self.disk.missing == sought:
            return None
        folded = self.listed(*sought)
        if folded is None:
            self.disk.missing = sought
        return folded

    def listed(self, directory, folding):
        try:
            names, folded = self.disk.list(directory), None
            while folded is None and (other := self.disk.list_next(names)) is not None:
                folded = other if other.casefold() == folding else None
            return folded
        except DiskError as error:
            if error.name == "Failed":
                raise FsError("GeneralFailure") from None
            return None

    def walked(self, names):
        """A path from the root on: each name as it stands, or else the one that folds alike. The directory before the
        last name is remembered when it is come to."""
        path = ()
        for at, name in enumerate(names):
            if at == len(names) - 1:
                self.memory.insert(path, self.now)
            alike = name if self.stands(path + (name,)) is not None else self.alike(path, name)
            if alike is None:
                return path + names[at:]
            path += (alike,)
        self.memory.insert(path, self.now)
        return path

    # ---- the rules for clients of macOS

    def is_virtual(self, path):
        return self.macos and len(path.names) == 1 and not path.slash and path.names[0] in VIRTUAL

    def is_forbidden(self, path):
        return self.is_virtual(path) or self.macos and bool(path.names) and path.names[-1] == HIDDEN

    def is_notfound(self, path):
        if not self.macos or not path:
            return False
        return path[-1] == HIDDEN or path[-1].startswith("._") and self.memory.negative(path[:-1], path[-1], self.disk)

    def need_allowed(self, *paths):
        if any(self.is_forbidden(path) for path in paths):
            raise FsError("Forbidden")

    # ---- calls

    def metadata(self, path):
        """What stands at a path. Where names fold, the look by which it is found is this one, unless the rules for
        macOS are asked between."""
        return self.looked(path, *((None, None) if self.is_virtual(path) else self.found(path)))

    def symlink_metadata(self, path):
        return self.looked(path, *((None, None) if self.is_virtual(path) else (self.resolve(path), None)))

    def looked(self, path, place, seen):
        if place is None:
            return Stood(Empty)
        if self.is_notfound(place):
            raise FsError("NotFound")
        judged = self.macos and place and (place[-1].startswith("._") or place[-1] == HIDDEN)
        stood = Stood(self.asks(self.disk.meta, place) if seen is None or judged else seen)
        if self.has_slash(path) and not stood.is_dir:
            raise FsError("Forbidden")
        return stood

    def has_slash(self, path):
        """Whether a path has a final slash that counts."""
        return path.slash and self.alone is None

    def open(self, path, how):
        if self.is_forbidden(path) or self.has_slash(path):
            raise FsError("Forbidden")
        if how is not READING or self.is_known():
            return self.asks(self.disk.open, self.resolve(path), how)
        hit = self.memory.get(path.names, lambda place: self.disk.open(place, how))
        return self.asks(self.disk.open, self.found_on_disk(path.names)[0], how) if hit is None else hit[1]

    def file_meta(self, handle):
        return Stood(self.asks(self.disk.file_meta, handle))

    def seek(self, handle, place):
        """Whether a seek was made."""
        try:
            self.disk.seek(handle, place)
        except DiskError:
            return False
        return True

    def write(self, handle, data):
        self.asks(self.disk.write, handle, data)

    def read_dir(self, path, follows=True, reads=True):
        return Listing(self, path, follows, reads)

    def create_dir(self, path):
        self.need_allowed(path)
        self.asks(self.disk.create_dir, self.resolve(path))

    def remove_dir(self, path):
        self.asks(self.disk.remove_dir, self.resolve(path))

    def remove_file(self, path):
        self.need_allowed(path)
        if self.has_slash(path):
            raise FsError("Forbidden")
        self.asks(self.disk.remove_file, self.resolve(path))

    def copy(self, start, end):
        self.need_allowed(start, end)
        self.asks(self.disk.copy, self.resolve(start), self.resolve(end))

    def rename(self, start, end):
        """Where a directory was to take a file's place, the file is removed, and the move is made again whatever the
        removal answers. Whether it is one is looked at behind the refusal. A look that the disk fails is the answer; so
        is a removal, where the second move is refused as the first."""
        self.need_allowed(start, end)
        start, end = self.resolve(start), self.resolve(end)
        try:
            self.disk.rename(start, end)
        except DiskError as error:
            if error.name != "NotDir" or not self.is_dir(start):
                raise FsError(FROM_DISK[error.name]) from None
            self.move_over(start, end)

    def move_over(self, start, end):
        failed = False
        try:
            self.disk.remove_file(end)
        except DiskError as error:
            failed = error.name == "Failed"
        try:
            self.disk.rename(start, end)
        except DiskError as error:
            kept = failed and error.name == "NotDir"
            raise FsError("GeneralFailure" if kept else FROM_DISK[error.name]) from None

    def is_dir(self, place):
        """What is no directory is none; a failure of the disk is told."""
        try:
            return self.disk.meta(place).kind == "dir"
        except DiskError as error:
            if error.name == "Failed":
                raise FsError("GeneralFailure") from None
            return False

    def create_defaults(self):
        """Makes the two directories of a store where nothing stands."""
        for name in ("calendars", "addressbooks"):
            place = self.resolve(Path((name,), True))
            try:
                self.disk.meta(place)
            except DiskError as error:
                if error.name != "NotFound":
                    raise FsError(FROM_DISK[error.name]) from None
                self.asks(self.disk.create_dir, place)
