"""The wanted rows of `upload_rows`: uploads over the local store and a disk in memory.

An upload's pieces go to a hidden file beside its target, which takes the target's place when all is there. What each
call asks the store for, in its order, is told here once more; the store and its disk are those of the other drivers.
"""
from calls import FS_TEXTS, members_read
from disk import READING, SECOND, Disk, Options
from model import FsError, Fields, Path, Refused, Request, STATUSES, done, found, need_met, need_parent, path_of, refuse_if
from store import Memory, Store
from texts import decoded, number, print_wanted, word

MOST_BYTES = 64
FRONT = ".upload-"
MAKING = Options("write", "create_new")
SETS = ("dir", "file", "fail")
READS = ("open", "read", "close")
AGED = ("before", "meanwhile")


class Busy(Exception):
    pass


class Hidden(Exception):
    pass


class Broken(Exception):
    pass


def is_hidden(name):
    rest = name[len(FRONT):]
    return name.startswith(FRONT) and len(rest) == 16 and all(c in "0123456789abcdef" for c in rest)


def judge_put(store, path, fields):
    """The table of PUT up to its precondition."""
    refuse_if(path.slash, 405)
    need_parent(store, path)
    stood = found(store.metadata, path)
    refuse_if(stood is not None and stood.is_dir, 405)
    need_met(Request("PUT", path.link(), fields), stood)
    return done(stood)


class Upload:
    def __init__(self, store, path, fields, token):
        if path.names and path.names[-1].startswith(FRONT):
            raise Hidden()
        judge_put(store, path, fields)
        name = f"{FRONT}{token:016x}"
        self.target, self.hidden, self.broken = path, Path(path.names[:-1] + (name,), False), False
        try:
            self.handle = store.open(self.hidden, MAKING)
        except FsError as error:
            if error.name == "Exists":
                raise Busy(name) from None
            raise

    def piece(self, store, data):
        if self.broken:
            raise Broken()
        try:
            store.write(self.handle, data)
        except FsError:
            self.broken = True
            raise

    def try_to_remove(self, store):
        try:
            store.remove_file(self.hidden)
        except FsError:
            pass

    def commit(self, store, fields):
        try:
            if self.broken:
                raise Broken()
            answer = judge_put(store, self.target, fields)
            store.rename(self.hidden, self.target)
        except (Broken, Refused, FsError):
            self.try_to_remove(store)
            raise
        return answer.status

    def abort(self, store):
        store.remove_file(self.hidden)


def sweep(store, path):
    """The members are read as before a DELETE: nothing is passed over."""
    listing, names = store.read_dir(path, follows=False), []
    while (got := listing.next()) is not None:
        if got == "fault" or got[1] is None:
            raise FsError(listing.refusal or "GeneralFailure")
        names.append(got)
    files = sorted((name for name, stood in names if is_hidden(name) and not stood.is_dir), key=str.encode)
    for name in files:
        store.remove_file(path.member(name, False))
    return len(files)


def left_before(store, path, limit):
    """The files with hidden names that were changed before a time, among the members whose metadata was read."""
    return [path.member(name, False) for name, stood in members_read(store, path)
            if is_hidden(name) and stood.is_file and stood.time is not None and stood.time < limit]


def take_each(store, paths):
    """A name that is gone is passed over. Any other refusal ends it."""
    count = 0
    for path in paths:
        try:
            store.remove_file(path)
            count += 1
        except FsError as error:
            if error.name != "NotFound":
                raise
    return count


def sweep_by_age(store, words):
    """Where another client takes a file meanwhile, it does so once the names are chosen."""
    path, seconds = path_of(word(words, 1) or "/"), int(word(words, 2) or "0")
    nanos = number(word(words, 3) or "0") if words[0] == "before" else 0
    paths = left_before(store, path, seconds * SECOND + nanos)
    if words[0] == "meanwhile":
        try:
            store.remove_file(path_of(words[3]))
        except FsError:
            pass
    return take_each(store, paths)


def get(store, path):
    handle = store.open(path, READING)
    return "has " + store.asks(store.disk.read, handle, MOST_BYTES).decode()


def names(store, path):
    members = members_read(store, path)
    return f"names {len(members)}" + "".join(f" {name}" for name, _ in members)


def fields_of(words):
    pairs = [text.partition(":") for text in words]
    return Fields((name, decoded(value)) for name, _, value in pairs)


def call(store, words):
    path = path_of(word(words, 1) or "/")
    if words[0] == "sweep":
        return f"swept {sweep(store, path)}"
    if words[0] in AGED:
        return f"swept {sweep_by_age(store, words)}"
    if words[0] in ("rm", "mkdir"):
        (store.remove_file if words[0] == "rm" else store.create_dir)(path)
        return "done"
    return {"get": get, "names": names}[words[0]](store, path)


class Row:
    def __init__(self):
        self.store, self.slots, self.reader = Store(Disk(), Memory(1, 1)), {}, None

    def set(self, words):
        disk = self.store.disk
        if words[0] == "fail":
            disk.fails.update(number(w) for w in words[1:])
        else:
            data = word(words, 4).encode() if words[0] == "file" else None
            path = tuple(decoded(name).decode() for name in words[1].split("/") if name)
            disk.add(path, number(words[2]), int(words[3]) * SECOND, data)

    def of_slot(self, slot, words):
        upload = self.slots.get(slot)
        if words[0] == "begin":
            if upload:
                return "one is under way"
            fields = fields_of(words[3:])
            self.slots[slot] = Upload(self.store, path_of(words[1]), fields, int(words[2], 16))
            return "ok"
        if upload is None:
            return "none is under way"
        if words[0] == "piece":
            if not word(words, 1):
                return "no bytes"
            upload.piece(self.store, words[1].encode())
            return "ok"
        del self.slots[slot]
        if words[0] == "commit":
            return str(upload.commit(self.store, fields_of(words[1:])))
        upload.abort(self.store)
        return "ok"

    def of_reader(self, words):
        """A file that stays open to the calls that follow."""
        if words[0] == "open":
            if self.reader:
                return "one is open"
            self.reader = self.store.open(path_of(words[1]), READING)
            return "ok"
        if self.reader is None:
            return "none is open"
        if words[0] == "close":
            self.reader = None
            return "closed"
        count = number(word(words, 1) or "0")
        if not 0 < count <= MOST_BYTES:
            return "no bytes"
        return "gives " + self.store.asks(self.store.disk.read, self.reader, count).decode()

    def answer(self, words):
        if words[0] not in ("1", "2"):
            try:
                return self.of_reader(words) if words[0] in READS else call(self.store, words)
            except FsError as error:
                if words[0] == "sweep" or words[0] in AGED:
                    return f"refused {STATUSES[error.name]}"
                return FS_TEXTS[error.name]
        try:
            return self.of_slot(words[0], words[1:])
        except Busy as busy:
            return f"busy {busy}"
        except Hidden:
            return "hidden"
        except Broken:
            return "broken"
        except Refused as refused:
            return f"refused {refused.status}"
        except FsError as error:
            return f"refused {STATUSES[error.name]}"

    def end(self):
        for slot in sorted(self.slots):
            self.slots[slot].try_to_remove(self.store)
        return f"asked {self.store.disk.asked}"


def wanted(text):
    if text.startswith("#"):
        return text
    row, line = Row(), ""
    parts = [part.strip().split(" ") for part in text.split("|")]
    for words in parts:
        if words[0] in SETS:
            row.set(words)
    for words in parts:
        if words[0] not in SETS:
            line += row.answer(words) + " | "
    return line + row.end()


def wanted_all(rows):
    return [wanted(row) for row in rows]


if __name__ == "__main__":
    print_wanted(wanted_all)
