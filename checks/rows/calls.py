"""Calls of a disk and of a store, as rows ask them one after the other, and what each answers."""
from disk import READING, SECOND, Disk, DiskError, Options
from model import FROM_DISK, FsError, ParseError, Stood, path_of
from store import Store
from texts import Unread, bytes_of, digits, spelt, truth, word

# The texts of refusals. No clause fixes them: they are those of the types.
DISK_TEXTS = {"NotFound": "nothing stands there", "Exists": "something stands there", "NotDir": "not a directory",
              "IsDir": "a directory", "NotEmpty": "a directory with members", "Failed": "the disk failed"}
FS_TEXTS = {"NotImplemented": "not implemented", "GeneralFailure": "the disk failed", "Exists": "it stands already",
            "NotFound": "nothing stands there", "Forbidden": "forbidden"}
PATH_TEXTS = {"InvalidPath": "not a path", "PrefixMismatch": "not below the prefix",
              "ForbiddenPath": "above the root", "NotText": "not UTF-8"}
MOST = 10_000


def told_or_refused(call, *what):
    """What a call tells, or the text of its refusal."""
    try:
        return call(*what)
    except DiskError as error:
        return DISK_TEXTS[error.name]
    except FsError as error:
        return FS_TEXTS[error.name]
    except ParseError as error:
        return PATH_TEXTS[error.name]


def time_text(time):
    return f"{time // SECOND}.{time % SECOND}"


def file_meta_text(meta):
    return f"{meta.kind} {meta.number} {meta.length} {time_text(meta.time)}"


def turn(disk):
    disk.turn()
    return "turned"


def call_of_file(disk, handle, text):
    """A call on an open file: `meta`, `seek:PLACE`, `read:ROOM` or `turn`."""
    kind, _, second = text.partition(":")
    if kind == "meta":
        return file_meta_text(disk.file_meta(handle))
    if kind == "seek":
        disk.seek(handle, digits(second))
        return "sought"
    if kind == "read" and min(digits(second), MOST):
        return "read " + spelt(disk.read(handle, min(digits(second), MOST)))
    if kind == "turn":
        return turn(disk)
    raise Unread


def names_listed(disk, path):
    """All that a listing answers, asked on behind a fault."""
    names, answers = disk.list(path), []
    while not answers or answers[-1] != "end":
        answers.append(told_or_refused(lambda: disk.list_next(names) or "end"))
    return " | ".join(answers)


def call_of_disk(disk, path, words):
    if words[0] == "meta":
        return file_meta_text(disk.meta(path))
    if words[0] == "open":
        handle = disk.open(path, READING)
        return " | ".join([told_or_refused(call_of_file, disk, handle, text) for text in words[2:]] + ["closed"])
    if words[0] == "list":
        return names_listed(disk, path)
    if words[0] == "turn":
        return turn(disk)
    raise Unread


def counts(disk):
    return f"asked {disk.asked}, failed {disk.faults}"


def on_disk(parts, set_disk, names_of):
    """The answers of a disk to the calls of these parts."""
    disk, line = Disk(), ""
    for part in parts:
        words = part.strip().split(" ")
        if not set_disk(disk, words):
            line += told_or_refused(call_of_disk, disk, names_of(word(words, 1)), words) + " | "
    return line + counts(disk)


# ---- calls of a store

def length_text(stood):
    return f"{stood.kind} {stood.length}"


def times(store, path):
    """Only the time of the last change is known on this disk."""
    stood = store.metadata(path)
    unknown = FS_TEXTS["NotImplemented"]
    return ", ".join([unknown if stood.time is None else time_text(stood.time)] + [unknown] * 3)


def tag(store, path, asked):
    stood = store.metadata(path)
    if not stood.is_file:
        raise FsError("NotImplemented")
    text = "none" if stood.tag is None else stood.tag.decode()
    return f"{text} {truth(stood.tag == asked.encode())} false"


def home(store, path, place):
    store.metadata(path)
    names = path_of(place).names
    within = names[0] if len(names) > 1 else ""
    return f"calendar {truth(within == 'calendars')}, address book {truth(within == 'addressbooks')}"


def entry(store, path):
    stood = store.metadata(path)
    if not path.names:
        raise Unread
    return f"{path.names[-1]} {stood.length} {truth(stood.is_dir)} {truth(stood.is_file)} {truth(stood.kind == 'link')}"


OPTIONS = {"write": "write", "append": "append", "truncate": "truncate", "create": "create", "new": "create_new"}


def opened(store, path, words):
    names = [OPTIONS[w] for w in words if w in OPTIONS] + ([] if "unread" in words else ["read"])
    store.open(path, Options(*names))
    return "opened"


def read(store, path, place):
    """Four bytes from a place on, and the length. All three calls are made; a refused read is told last."""
    handle, disk = store.open(path, READING), store.disk
    made = []
    for call, *what in ((disk.seek, handle, place), (disk.read, handle, 4), (disk.file_meta, handle)):
        try:
            made.append(call(*what))
        except DiskError as error:
            made.append(FsError(FROM_DISK[error.name]))
    sought, data, meta = made
    for answered in (sought, meta, data):
        if isinstance(answered, FsError):
            raise answered
    return f"at {place} of {meta.length}: {spelt(data)}"


def give(store, path, count):
    handle = store.open(path, READING)
    data = store.asks(store.disk.read, handle, max(1, min(count, MOST)))
    return spelt(data) + " here"


def write(store, path, data):
    """A slice and a buffer. A writing of nothing asks nothing."""
    handle, answers = store.open(path, READING), []
    for _ in range(2):
        try:
            if data:
                store.write(handle, data)
            answers.append("done")
        except FsError as error:
            answers.append(FS_TEXTS[error.name])
    return ", ".join(answers)


def listed(store, path, kind):
    """The entries of a listing to its end, then each with its metadata: read before, or asked then for `none`."""
    listing, line, names = store.read_dir(path, reads=kind != "none"), "", []
    while (got := listing.next()) is not None:
        if got == "fault":
            line += FS_TEXTS[listing.refusal] + ", "
        else:
            names.append(got)
    line += "end"
    for name, stood in names:
        if kind == "none":
            text = told_or_refused(lambda at: length_text(Stood(store.disk.lend().meta(at))), listing.path + (name,))
        else:
            text = FS_TEXTS[listing.refusals[name]] if stood is None else length_text(stood)
        line += f", {name} {text}"
    return line


def members_read(store, path):
    """The members of a directory whose metadata was read: each with its name."""
    listing, found = store.read_dir(path), []
    while (got := listing.next()) is not None:
        if got != "fault" and got[1] is not None:
            found.append(got)
    return found


def members(store, path):
    found = members_read(store, path)
    line = str(len(found))
    for name, stood in found:
        line += f", {name} {length_text(stood)} {'none' if stood.time is None else time_text(stood.time)}"
    return line


def rest(store, path):
    answers = [told_or_refused(lambda: call(*what) or "done") for call, *what in (
        (store.create_dir, path), (store.remove_dir, path), (store.remove_file, path), (store.rename, path, path),
        (store.copy, path, path))]
    return ", ".join(answers) + f", void false, folds {truth(store.folds)}"


def call_of_store(store, words):
    path, third = path_of(word(words, 1)), word(words, 2)
    if words[0] in ("look", "link"):
        return length_text(store.metadata(path) if words[0] == "look" else store.symlink_metadata(path))
    calls = {"times": (times,), "tag": (tag, third), "home": (home, third), "entry": (entry,),
             "open": (opened, words[2:]), "read": (read, digits(third)), "give": (give, digits(third)),
             "write": (write, bytes_of(third)), "list": (listed, third), "members": (members,), "rest": (rest,)}
    if words[0] not in calls:
        raise Unread
    call, *more = calls[words[0]]
    return call(store, path, *more)


def on_store(parts, set_disk):
    store, line = Store(Disk()), ""
    for part in parts:
        words = part.strip().split(" ")
        if not set_disk(store.disk.lend(), words):
            line += told_or_refused(call_of_store, store, words) + " | "
    return line + counts(store.disk)
