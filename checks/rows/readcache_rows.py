"""The wanted rows of `readcache_rows`: steps over a store that holds contents, and over the store inside alone."""
from calls import FS_TEXTS
from disk import READING, Disk, DiskError, Options
from local_rows import looked
from model import FROM_DISK, STATUSES, Fields, FsError, Refused, Request, Settings, get, path_of
from readcache import Cache, Files
from step_rows import set_disk
from store import Store
from texts import bytes_of, digits, print_wanted, spelt, truth, word

MOST_BYTES = 64
SETS = ("dir", "file", "fail", "short", "batch")
AFRESH = ("open", "GET", "HEAD", "whole", "close")
PATHS = ("take", "look", "rm", "mkdir", "rmdir", "mv", "cp")


def piece(data):
    return "=" + spelt(data)


class Player:
    """Makes the steps of a row. What is open is nothing, a file of the store, or the body of an answer."""

    def __init__(self, store, cache=None):
        self.store, self.cache = store, cache
        self.files, self.opened, self.kind = Files(store), None, ""

    # ---- what is opened, and whole answers

    def open(self, words):
        how = Options(*words[2:]) if {"write", "append"} & set(words[2:]) else Options("read", *words[2:])
        self.opened, self.kind = self.store.open(path_of(words[1]), how), "file"
        return "open"

    def answered(self, words):
        """The status of a GET or HEAD, and its body."""
        pairs = [text.partition(":") for text in words[2:] if ":" in text]
        fields = Fields((name, value.encode()) for name, _, value in pairs)
        method = "HEAD" if words[0] == "HEAD" else "GET"
        try:
            reply = get(self.store, Settings(), Request(method, words[1], fields), path_of(words[1]))
        except Refused as refused:
            return refused.status, None
        except FsError as error:
            return STATUSES[error.name], None
        return reply.status, reply.body

    def get(self, words):
        status, body = self.answered(words)
        self.opened, self.kind = body, "" if body is None else "body"
        return str(status)

    def whole(self, words):
        count = 0
        for _ in range(digits(words[2])):
            body = self.answered(words[:2])[1]
            while body is not None and isinstance(data := body.poll(self.files), bytes):
                count += len(data)
        return f"bytes {count}"

    # ---- calls of what is open

    def of_file(self, words):
        kind, third, held = words[0], word(words, 1), self.opened
        if kind == "read":
            return piece(self.store.asks(self.files.read, held, min(max(digits(third), 1), MOST_BYTES)))
        if kind == "seek":
            self.store.asks(self.files.seek, held, digits(third))
            return f"at {digits(third)}"
        if kind == "meta":
            return looked(self.store.file_meta, held)
        if kind == "write" and bytes_of(third):
            self.store.write(held, bytes_of(third))
        return "done" if kind in ("write", "flush") else "no call of a file"

    def polled(self):
        data = self.opened.poll(self.files)
        return "end" if data is None else data if data == "broken" else piece(data)

    # ---- calls at paths

    def at_path(self, words):
        store, path, to = self.store, path_of(word(words, 1)), path_of(word(words, 2) or "/")
        if words[0] == "take":
            return piece(store.asks(self.files.read, store.open(path, READING), MOST_BYTES))
        if words[0] == "look":
            return looked(store.metadata, path)
        calls = {"rm": (store.remove_file, path), "mkdir": (store.create_dir, path), "rmdir": (store.remove_dir, path),
                 "mv": (store.rename, path, to), "cp": (store.copy, path, to)}
        call, *what = calls[words[0]]
        call(*what)
        return "done"

    def step(self, words):
        kind = words[0]
        if kind in AFRESH:
            self.opened, self.kind = None, ""
            return "closed" if kind == "close" else {"open": self.open, "whole": self.whole}.get(kind, self.get)(words)
        if kind in PATHS:
            return self.at_path(words)
        if kind == "clear":
            if self.cache:
                self.cache.entries = []
            return "cleared"
        if kind == "kept" and self.cache:
            return kept(self.cache)
        if kind == "turn":
            self.store.disk.turn()
            return "turned"
        if not self.kind:
            return "nothing is open"
        return self.polled() if self.kind == "body" else self.of_file(words)

    def play(self, steps):
        line = ""
        for words in steps:
            try:
                line += self.step(words)
            except FsError as error:
                line += FS_TEXTS[error.name]
            line += " | "
        return line


def kept(cache):
    return f"held {cache.sum()} in {len(cache.entries)}"


def disk_of(parts):
    disk = Disk()
    for words in parts:
        if words[0] in SETS:
            set_disk(disk, words)
    return disk


def wanted(row):
    if row.startswith("#"):
        return row
    parts = [part.strip().split(" ") for part in row.split("|")]
    steps = [words for words in parts[1:] if words[0] not in SETS]
    plain = Store(disk_of(parts[1:]))
    if parts[0][0] == "plain":
        return f"{Player(plain).play(steps)}asked {plain.disk.asked}"
    size, room, most = (digits(text) for text in parts[0][1:4])
    if size == 0 or most > room:
        return "no answer"
    cache = Cache(Store(disk_of(parts[1:])), size, room, most)
    line = Player(cache, cache).play(steps)
    end = f"{line}{kept(cache)}, asked {cache.disk.asked}"
    if parts[0][0] == "held":
        return end
    same = Player(plain).play(steps) == line
    return f"{end} and asked {plain.disk.asked}, same {truth(same)}"


def wanted_all(rows):
    return [wanted(row) for row in rows]


if __name__ == "__main__":
    print_wanted(wanted_all)
