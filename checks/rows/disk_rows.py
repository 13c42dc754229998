"""The wanted rows of `disk_rows`: calls of disks in memory, and what stands there afterwards."""
from calls import told_or_refused
from disk import SECOND, YEAR_10000, Disk, Options
from step_rows import names_of
from texts import Beyond, decoded, number, print_wanted, spelt, word

REASONS = "the time of a directory that is removed while it is open is told nowhere, and want of memory is free"
LETTERS = {"r": "read", "w": "write", "a": "append", "t": "truncate", "c": "create", "n": "create_new"}
MOST = 1000


def time_of(text):
    secs, _, nanos = text.partition(".")
    nanos = number(nanos, 0, 2**32 - 1) or 0
    return int(secs) * SECOND + nanos if nanos < SECOND else YEAR_10000


def meta_text(meta):
    return f"{meta.kind} {meta.number} {meta.length} {meta.time // SECOND}.{meta.time % SECOND}"


def call_of_path(disk, kind, path, to):
    if kind in ("meta", "link"):
        return meta_text(disk.meta(path))
    calls = {"mkdir": (disk.create_dir, path), "rmdir": (disk.remove_dir, path), "rm": (disk.remove_file, path),
             "mv": (disk.rename, path, to), "cp": (disk.copy, path, to)}
    call, *what = calls[kind]
    call(*what)
    return "ok"


def call_of_file(disk, handle, text):
    kind, _, second = text.partition(":")
    if kind == "meta":
        if handle.file.is_dir and handle.file not in disk.tree.values():
            raise Beyond
        return meta_text(disk.file_meta(handle))
    if kind == "seek":
        disk.seek(handle, number(second))
        return "ok"
    if kind == "read":
        return "read " + spelt(disk.read(handle, min(number(second), MOST)), b"%| ")
    if kind == "write":
        return f"wrote {disk.write(handle, decoded(second))}"
    words = text.split(",")
    return call_of_path(disk, words[0], names_of(word(words, 1)), names_of(word(words, 2)))


def call(disk, words):
    path, third = names_of(word(words, 1)), word(words, 2)
    if words[0] != "open":
        return call_of_path(disk, words[0], path, names_of(third))
    handle = disk.open(path, Options(*[name for letter, name in LETTERS.items() if letter in third]))
    return " | ".join([told_or_refused(call_of_file, disk, handle, text) for text in words[3:]] + ["closed"])


def in_order(disk, path=()):
    """The paths that stand: a directory before its members."""
    yield path
    if disk.is_dir(path):
        for name in disk.members(path):
            yield from in_order(disk, path + (name,))


def tree_text(disk):
    """What stands there."""
    line = ""
    for path in in_order(disk):
        file = disk.tree[path]
        text = "/" + "/".join(spelt(name.encode(), b"%| ") for name in path)
        line += f"{text} {meta_text(file.meta())}"
        line += " | " if file.is_dir else f" ={spelt(file.data[:64], b'%| ')} | "
    return line


def wanted(row):
    if row.split(" ")[0] not in ("mem", "sure"):
        return row
    disk, line = Disk(), ""
    try:
        for part in row.split("|")[1:]:
            words = part.strip().split(" ")
            if words[0] in ("dir", "file"):
                data = decoded(word(words, 4)) if words[0] == "file" else None
                disk.add(names_of(words[1]), number(words[2]), time_of(words[3]), data)
            elif words[0] == "fail":
                disk.fails.update(int(w) for w in words[1:])
            else:
                line += told_or_refused(call, disk, words) + " | "
        return f"{line}{tree_text(disk)}asked {disk.asked}, failed {disk.faults}"
    except (Beyond, OverflowError):
        return None


def wanted_all(rows):
    return [wanted(row) for row in rows]


if __name__ == "__main__":
    print_wanted(wanted_all)
