"""The wanted rows of `local_rows`: calls of the local store over a disk in memory, with what it remembers."""
from calls import DISK_TEXTS, FS_TEXTS, members_read, told_or_refused
from disk import PUTTING, READING, SECOND, Disk, DiskError
from model import Fields, FsError, Refused, Request, Settings, STATUSES, carry, delete, path_of
from store import Memory, Store
from texts import decoded, number, print_wanted, truth, word

MOST_BYTES = 64
WAYS = {"plain": (False, False), "fold": (True, False), "macos": (False, True), "both": (True, True)}
SETS = ("dir", "file", "fail", "sealed", "room")


def names_of(text):
    return tuple(decoded(name).decode() for name in text.split("/") if name)


def moment_of(text):
    secs, _, nanos = text.partition(".")
    return min(number(secs), 1_000_000) * SECOND + min(number(nanos or "0"), SECOND - 1)


def looked(look, path):
    stood = look(path)
    tag = "untagged" if stood.tag is None else stood.tag.decode()
    return f"{'dir' if stood.is_dir else 'file'} {stood.length} {tag}"


def where(store, path):
    return "/" + "/".join(store.resolve(path))


def read(store, path):
    handle = store.open(path, READING)
    return "read " + store.asks(store.disk.read, handle, MOST_BYTES).decode()


def write(store, path, text):
    handle = store.open(path, PUTTING)
    if text:
        store.write(handle, text.encode())
    return "done"


def members(store, path):
    found = members_read(store, path)
    return f"members {len(found)}" + "".join(f", {name} {stood.kind}" for name, stood in found)


def on(listing, most):
    """So many answers of a listing at most: names, and a fault once."""
    line = ""
    while most:
        got, most = listing.next(), most - 1
        if got is None:
            return line + " end"
        line += " " + (FS_TEXTS[listing.refusal] if got == "fault" else got[0])
    return line


def front(store, path, count):
    return "names" + on(store.read_dir(path), count) + " left"


def outside(disk, kind, start, end):
    """What others do on the disk."""
    call = {"mv": disk.rename, "cp": disk.copy}[kind]
    call(names_of(start), names_of(end))
    return "done"


def listed_while(store, path, words):
    listing = store.read_dir(path)
    line = "names" + on(listing, number(words[2]))
    try:
        line += " " + outside(store.disk, *words[3:6])
    except DiskError as error:
        line += " " + DISK_TEXTS[error.name]
    return line + on(listing, 10_000)


def change(store, kind, path, to):
    calls = {"mkdir": (store.create_dir, path), "rmdir": (store.remove_dir, path), "rm": (store.remove_file, path),
             "mv": (store.rename, path, to), "cp": (store.copy, path, to)}
    call, *what = calls[kind]
    call(*what)
    return "done"


def method(store, words):
    """The status of a COPY, a MOVE or a DELETE."""
    settings = Settings()
    settings.prefix = "" if words[2] == "-" else words[2]
    pairs = [text.partition(":") for text in words[3:]]
    fields = Fields((name, decoded(value)) for name, _, value in pairs)
    request, path = Request(words[0].upper(), words[1], fields), path_of(words[1], settings.prefix)
    try:
        return str((delete if words[0] == "delete" else carry)(store, settings, request, path).status)
    except Refused as refused:
        return f"refused {refused.status}"
    except FsError as error:
        return f"refused {STATUSES[error.name]}"


def call_at(store, words):
    path, third = path_of(word(words, 1) or "/"), word(words, 2) or "/"
    if words[0] in ("look", "link"):
        return looked(store.metadata if words[0] == "look" else store.symlink_metadata, path)
    if words[0] == "rules":
        return f"empty {truth(store.is_virtual(path))}, forbidden {truth(store.is_forbidden(path))}"
    if words[0] == "while":
        return listed_while(store, path, words)
    if words[0] == "write":
        return write(store, path, third)
    if words[0] == "front":
        return front(store, path, number(third))
    calls = {"where": where, "read": read, "list": members}
    return calls[words[0]](store, path) if words[0] in calls else change(store, words[0], path, path_of(third))


def call(store, words):
    if words[0] == "asked":
        return f"asked {store.disk.asked}"
    if words[0] == "defaults":
        store.create_defaults()
        return "done"
    if words[0] == "kept":
        return f"kept {len(store.memory.paths.entries)} and {len(store.memory.dots.entries)}"
    if words[0] == "now":
        store.now = moment_of(words[1])
        return "done"
    if words[0] == "purge":
        store.memory.purge(moment_of(words[1]))
        return "done"
    if words[0] == "out":
        return outside(store.disk, *words[1:4])
    return method(store, words) if words[0] in ("copy", "move", "delete") else call_at(store, words)


def set_part(store, words):
    if words[0] in ("dir", "file"):
        data = word(words, 4).encode() if words[0] == "file" else None
        store.disk.add(names_of(words[1]), number(words[2]), int(words[3]) * SECOND, data)
    elif words[0] == "fail":
        store.disk.fails.update(number(w) for w in words[1:])
    elif words[0] == "sealed":
        seal(store, names_of(words[1]), words[2:])


def seal(store, path, names):
    """What a listing of these names teaches: it asks the directory's time before and after."""
    times = []
    for _ in range(2):
        try:
            meta = store.disk.lend().meta(path)
            times.append(meta.time if meta.kind == "dir" else None)
        except DiskError:
            times.append(None)
    if times[0] is not None and times[0] == times[1]:
        dots = sorted({name for name in names if name.startswith("._")}, key=str.encode)
        store.memory.seal(path, times[0], dots, 0)


def store_of(parts):
    room = next((part.split(" ")[1:3] for part in parts if part.startswith("room ")), ("16", "16"))
    memory, words = Memory(int(room[0]), int(room[1])), parts[0].split(" ")
    if words[0] == "alone":
        return Store(Disk(), memory, alone=names_of(words[1]))
    return Store(Disk(), memory, *WAYS[words[0]])


def wanted(row):
    if row.startswith("#"):
        return row
    parts = [part.strip() for part in row.split("|")]
    store = store_of(parts)
    words = [part.split(" ") for part in parts[1:]]
    for part in words:
        if part[0] in SETS:
            set_part(store, part)
    line = "".join(told_or_refused(call, store, part) + " | " for part in words if part[0] not in SETS)
    return f"{line}asked {store.disk.asked}"


def wanted_all(rows):
    return [wanted(row) for row in rows]


if __name__ == "__main__":
    print_wanted(wanted_all)
