#!/usr/bin/env python3
"""Random lists of requests that write, and what each is to be answered, for the driver step_rows.

The model knows only a map of paths to bytes, or to None for a directory. It is told by the definitions in prose: where
names fold a name is found as it is asked, or else by one that folds alike; under the rules for macOS two files of the
root are empty for all who look, and what is named `.localized` isn't there, and no file of these names is made or goes;
but what is found by another spelling of `.localized`, which no look shows, gives way to what is moved or copied there.

    writing.py input    the rows
    writing.py output   what the driver is to write
"""
import random
import sys

VIRTUAL = (".metadata_never_index",), (".ql_disablethumbnails",)
NAMES = ["a", "A", "b", "sub", "Sub", "c.txt", "C.TXT", ".localized", ".Localized", "._x"]
MISSING, FORBIDDEN = 404, 403


class Refused(Exception):
    def __init__(self, status, closes=False):
        self.status, self.closes = status, closes


# what stands at the beginning where the rules for macOS hold: no request makes what no look shows
HIDDEN = {
    ("sub",): None,
    ("sub", ".localized"): b"h1",
    (".localized",): b"h2",
    ("b",): None,
    ("b", ".localized"): None,
}


class Model:
    def __init__(self, folds, macos):
        self.folds, self.macos, self.tree = folds, macos, {(): None, **(HIDDEN if macos else {})}

    # ---- where a path is found

    def key(self, name):
        return name.lower() if self.folds else name

    def found(self, names, tree=None):
        tree, at = self.tree if tree is None else tree, ()
        for i, name in enumerate(names):
            alike = [p for p in tree if p[:-1] == at and p and self.key(p[-1]) == self.key(name)]
            if at + (name,) in tree:
                at += (name,)
            elif alike:
                at = alike[0]
            else:
                return at + tuple(names[i:])
        return at

    def look(self, at, tree=None):
        """What stands there, or why nothing is found."""
        tree = self.tree if tree is None else tree
        for i in range(len(at)):
            if at[:i] not in tree:
                raise Refused(MISSING)
            if tree[at[:i]] is not None:
                raise Refused(FORBIDDEN)
        if at not in tree:
            raise Refused(MISSING)
        return tree[at]

    def is_virtual(self, names, slash):
        return self.macos and not slash and tuple(names) in VIRTUAL

    def is_forbidden(self, names, slash):
        return self.is_virtual(names, slash) or (self.macos and names[-1:] == [".localized"])

    def stands(self, names, slash):
        """The bytes of a file, None for a directory, or a status."""
        if self.is_virtual(names, slash):
            return b""
        at = self.found(names)
        if self.macos and at[-1:] == (".localized",):
            return MISSING
        try:
            there = self.look(at)
        except Refused as e:
            return e.status
        return FORBIDDEN if slash and there is not None else there

    def has_parent(self, names):
        return self.stands(names[:-1], True) is None

    # ---- what a disk allows

    def makes(self, at, there):
        for i in range(len(at)):
            self.look(at[:i])
        if at and at[:-1] in self.tree and self.tree[at[:-1]] is not None:
            raise Refused(FORBIDDEN)
        if at in self.tree:
            raise Refused(405)
        self.tree[at] = there

    def removes(self, at):
        """All at and below a place, members before their directory, up to a file that stays."""
        rows = [p for p in self.tree if p[: len(at)] == at]
        for p in sorted(rows, key=lambda p: [(n.encode(), 0) for n in p] + [(b"\xff" * 9, 1)]):
            if self.macos and self.tree[p] is not None and p[-1] == ".localized":
                raise Refused(FORBIDDEN)
            del self.tree[p]

    # ---- the methods

    def put(self, names, slash, body):
        if slash:
            raise Refused(405)
        if not self.has_parent(names):
            raise Refused(409)
        there = self.stands(names, slash)
        if there == FORBIDDEN:
            raise Refused(403)
        if there is None:
            raise Refused(405)
        if self.is_forbidden(names, slash):
            raise Refused(403)
        at = self.found(names)
        if at in self.tree and self.tree[at] is None:
            raise Refused(403)
        self.tree[at] = body
        return 201 if there == MISSING else 204

    def mkcol(self, names, slash):
        there = self.stands(names, slash)
        if there is None or isinstance(there, bytes):
            raise Refused(405)
        if there != MISSING:
            raise Refused(there)
        if not self.has_parent(names):
            raise Refused(409)
        if self.is_forbidden(names, slash):
            raise Refused(403)
        self.makes(self.found(names), None)
        return 201

    def mkcalendar(self, names, slash):
        there = self.stands(names, slash)
        if there is None or isinstance(there, bytes):
            raise Refused(405, True)
        if self.is_forbidden(names, slash):
            raise Refused(403)
        self.makes(self.found(names), None)
        return 201

    def delete(self, names, slash):
        if not names:
            raise Refused(403)
        there = self.stands(names, slash)
        if isinstance(there, int):
            raise Refused(there)
        if there is not None and self.is_forbidden(names, slash):
            raise Refused(403)
        self.removes(self.found(names))
        return 204

    def overlaps(self, a, b):
        a, b = [self.key(n) for n in a], [self.key(n) for n in b]
        return a[: len(b)] == b or b[: len(a)] == a

    def carry(self, moves, names, slash, to, to_slash, replaces, alone):
        source = self.stands(names, slash)
        if isinstance(source, int):
            raise Refused(source)
        if self.overlaps(names, to):
            raise Refused(403)
        if not self.has_parent(to):
            raise Refused(409)
        there = self.stands(to, to_slash)
        if there == FORBIDDEN:
            raise Refused(403)
        stood = not isinstance(there, int)
        if stood and not replaces:
            raise Refused(412)
        at = self.found(names)
        if stood:
            if there is not None and self.is_forbidden(to, to_slash):
                raise Refused(403)
            self.removes(self.found(to))
        (self.move if moves else self.copy)(names, slash, at, to, to_slash, source, alone)
        return 204 if stood else 201

    def move(self, names, slash, at, to, to_slash, source, alone):
        if self.is_forbidden(names, slash) or self.is_forbidden(to, to_slash):
            raise Refused(403)
        new = self.found(to)
        if new in self.tree:
            self.gives_way(new, source is None)
        below = {p: b for p, b in self.tree.items() if p[: len(at)] == at}
        for p in below:
            del self.tree[p]
        for p, b in below.items():
            self.tree[new + p[len(at):]] = b

    def gives_way(self, at, dir):
        """What no look shows: a file gives way to what is moved there, an empty directory to a directory."""
        if self.tree[at] is None:
            if not dir:
                raise Refused(FORBIDDEN)
            if any(p[:-1] == at for p in self.tree if p):
                raise Refused(405)
        del self.tree[at]

    def copy(self, names, slash, at, to, to_slash, source, alone):
        if source is not None and self.is_forbidden(names, slash):
            raise Refused(403)
        new = self.found(to)
        if new in self.tree:
            if source is None or self.tree[new] is None:
                raise Refused(405 if source is None else FORBIDDEN)
            del self.tree[new]
        rows = [p for p in self.tree if p == at or (not alone and p[: len(at)] == at)]
        for p in sorted(rows, key=lambda p: [n.encode() for n in p]):
            rest, there = list(p[len(at):]), self.tree[p]
            dir = there is None
            if self.is_forbidden(list(to) + rest, dir if rest else to_slash) or (
                not dir and self.is_forbidden(list(names) + rest, dir if rest else slash)
            ):
                raise Refused(403)
            self.tree[new + tuple(rest)] = there


def url(names, slash):
    return "/" + "/".join(names) + ("/" if slash and names else "")


def path_of(pick, deep):
    return [pick.choice(NAMES) for _ in range(pick.randint(1, deep))]


def request(pick, number, hidden):
    """A request: its method, and what the model is asked. Where `hidden` says so a destination may be what no look shows."""
    method = pick.choice(["PUT", "PUT", "PUT", "MKCOL", "MKCOL", "MKCALENDAR", "DELETE", "DELETE", "COPY", "MOVE", "MOVE"])
    names, slash = path_of(pick, 3), pick.random() < 0.1
    if pick.random() < 0.03:
        names = list(pick.choice(VIRTUAL))
    if method == "PUT":
        body = b"v%d" % number
        return f"PUT {url(names, slash)} ={body.decode()}", lambda m: m.put(names, slash, body)
    if method == "MKCOL":
        return f"MKCOL {url(names, slash)}", lambda m: m.mkcol(names, slash)
    if method == "MKCALENDAR":
        return f"MKCALENDAR {url(names, slash)}", lambda m: m.mkcalendar(names, slash)
    if method == "DELETE":
        return f"DELETE {url(names, slash)}", lambda m: m.delete(names, slash)
    to, to_slash = path_of(pick, 3), pick.random() < 0.1
    if hidden and pick.random() < 0.3:
        to = list(pick.choice(list(HIDDEN)))
        to[-1] = pick.choice([str.upper, str.title, str.swapcase])(to[-1])
    replaces, alone = pick.random() < 0.7, method == "COPY" and pick.random() < 0.2
    words = f"{method} {url(names, slash)} destination:{url(to, to_slash)}"
    words += "" if replaces else " overwrite:F"
    words += " depth:0" if alone else ""
    return words, lambda m: m.carry(method == "MOVE", names, slash, to, to_slash, replaces, alone)


def answered(step, number, model):
    try:
        status, closes = step(model), False
    except Refused as e:
        status, closes = e.status, e.closes
    fields = "" if status == 204 else " connection=close; content-length=0" if closes else " content-length=0"
    return f"{status} {number}{fields}"


def standing():
    """The parts that set what stands at the beginning."""
    for number, (path, there) in enumerate(HIDDEN.items(), 900):
        yield f"dir {url(path, False)} {number} 1" if there is None else f"file {url(path, False)} {number} 1 {there.decode()}"


def row(seed, folds, macos, memory, steps):
    pick, model = random.Random(seed), Model(folds, macos)
    asks, answers = [], []
    for number in range(steps):
        words, step = request(pick, number, folds and macos)
        asks.append(words)
        answers.append(answered(step, number, model))
    sets = ["uncounted"] + [f"set memory {memory} {memory}"] * (memory > 0) + ["folds"] * folds + ["macos"] * macos
    sets += standing() if macos else []
    return " | ".join(sets + asks), " | ".join(answers + ["failed 0"])


def rows(steps=300):
    for seed, (folds, macos) in enumerate([(f, m) for f in (False, True) for m in (False, True)]):
        for memory in (0, 4):
            yield row(seed * 10 + memory, folds, macos, memory, steps)


TITLE = (
    "# Lists of three hundred requests that write: plain, under the rules for macOS, where names fold, and with both, "
    "each without a memory and with one."
)

if __name__ == "__main__":
    part = ["input", "output"].index(sys.argv[1])
    print(TITLE)
    for it in rows():
        print(it[part])
