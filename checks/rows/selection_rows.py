"""The wanted rows of selections of `report_rows`: calendar and address book requests to a local store. Only requests are
answered."""
from calls import FS_TEXTS
from disk import SECOND, Disk
from element_rows import root
from model import FsError, path_of
from reports import Bad, FreeBusy, selected
from store import Store
from texts import number, unescaped, word

WAYS = {"fold": (True, False), "macos": (False, True), "both": (True, True)}
SIGNS = {"\n": "\\n", "\r": "\\r", "\t": "\\t", " ": "\\_", "\\": "\\\\"}


def names_of(text):
    return path_of(text).names


def change(disk, words):
    """The disk that a row leaves."""
    kind = words[0]
    if kind == "new":
        return Disk()
    if kind == "dir":
        disk.add(names_of(words[1]), number(words[2]), SECOND)
    elif kind in ("file", "raw", "long"):
        text = unescaped(word(words, 3))
        if kind == "long":
            text = unescaped(word(words, 4)) * number(words[3]) + unescaped(word(words, 5))
        data = bytes(ord(c) for c in text if ord(c) < 256) if kind == "raw" else text.encode()
        disk.add(names_of(words[1]), number(words[2]), SECOND, data)
    elif kind == "fail":
        disk.fails.add(disk.asked + number(words[1]))
    elif kind == "short":
        disk.shorts = [number(w) for w in words[1:]]
    elif kind in ("cut", "rename", "remove"):
        third = {"cut": number, "rename": names_of}.get(kind, lambda _: None)(word(words, 2) or "/")
        disk.scripts.append([(kind, names_of(words[1]), third)])
        disk.turn()
    return disk


def told(store, words):
    prefix = "" if words[2] == "-" else words[2]
    records, missing = selected(store, root(words[3:]), path_of(words[1], prefix), prefix, words[0] == "cards")
    line = "selected"
    for record in records:
        text = "".join(SIGNS.get(c, c) for c in record.text)
        line += f" {record.path.with_prefix()} {record.tag} {text}"
    return line + "".join(" missing " + link for link in missing)


def store_of(disk, ways):
    """The store over the disk that finds paths as a row says."""
    folds, macos = WAYS.get(word(ways, 1), (False, False))
    return Store(disk, None, folds, macos, names_of(ways[2]) if word(ways, 1) == "alone" else None)


def answer(disk, ways, words):
    before = disk.asked
    try:
        line = told(store_of(disk, ways), words)
    except FsError as error:
        line = FS_TEXTS[error.name]
    except Bad:
        line = "the request is no report"
    except FreeBusy:
        line = "free-busy times are not told"
    return f"{line} ({disk.asked - before})"


class Model:
    """What is wanted row after row, with the disk and the ways that the rows before left."""

    def __init__(self):
        self.disk, self.ways = Disk(), []

    def wanted(self, row):
        """The answer to a row, or None where it has none."""
        words = row.split(" ")
        if words[0] in ("calendar", "cards"):
            return answer(self.disk, self.ways, words)
        if words[0] == "ways":
            self.ways = words
        else:
            self.disk = change(self.disk, words)
        return None
