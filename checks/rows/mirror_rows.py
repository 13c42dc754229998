"""What a fetch asks, keeps and ends with, by the rules of a mirror alone; and rows for `mirror_rows`.

    checks/rows/mirror_rows.py       writes the rows anew (crates/mirror_rows/stdin)

A page is asked for each directory in the order of finding, the root first; then each file in order of paths. A file of
which some bytes and a tag are kept is asked for its rest, one that is whole with a tag only whether it changed.
"""
import os
import random
import re
from urllib.parse import unquote_to_bytes

PAGE_MOST = 16_777_216
LINK_MOST = 65_000
PIECE = 4_096
# the bytes of a page without rows, and of a row without its link, as the driver makes them
FRONT_AND_END = 687
ROW = 101
KEPT = re.compile(rb"[A-Za-z0-9\-._~/]")


class Failed(Exception):
    """A call of the peer failed."""


class Ended(Exception):
    """Why a fetch ended: what went wrong, the path if there is one, and numbers."""

    def told(self):
        """As a row tells it: of too many bytes how many they are."""
        what, path, *numbers = self.args
        return " of ".join([" ".join(map(str, [what, *([shown(path)] if path is not None else []), *numbers[:1]])),
                            *map(str, numbers[1:])])


def escaped(text, more=b""):
    """A text as a row spells it: `%` and what stands outside printable ASCII are `%XX`."""
    return "".join(chr(b) if 32 <= b < 127 and b not in b"%" + more else f"%{b:02X}" for b in text)


def shown(text):
    return escaped(text, b" ,") if len(text) < 200 else f"#{len(text)}"


def link_of(path):
    return b"".join(bytes([b]) if KEPT.match(bytes([b])) else b"%%%02X" % b for b in path)


class Peer:
    """Replies in order, then 404. Calls of the numbers in `fails` fail."""

    def __init__(self, replies, fails):
        self.replies, self.fails, self.calls, self.left, self.asked = list(replies), fails, 0, b"", []

    def called(self):
        self.calls += 1
        if self.calls in self.fails:
            raise Failed

    def note(self, path, fields):
        told = b"long" if len(path) >= 200 else path
        self.asked.append("[" + escaped(told, b" ") + "".join(f" {n}={escaped(v, b' ')}" for n, v in fields) + "]")

    def get(self, path, fields):
        self.note(path, fields)
        self.called()
        status, headers, body = self.replies.pop(0) if self.replies else (404, [], b"")
        self.left = body
        return status, headers, body

    def piece(self):
        self.called()
        piece, self.left = self.left[:PIECE], self.left[PIECE:]
        return piece

    def read(self, due, into):
        """Adds up to `due` bytes of the body to a list of one text."""
        got = 0
        while got < due:
            piece = self.piece()
            if not piece:
                return
            into[0] += piece[:due - got]
            got += len(piece[:due - got])


def value_of(headers, name):
    return next((value for n, value in headers if n == name), None)


def strong(value):
    if value is None or not re.fullmatch(rb'"[\x21\x23-\x7e\x80-\xff]*"', value):
        return b""
    return value


def number(value):
    return int(value) if value is not None and re.fullmatch(rb"[0-9]{1,19}", value) else None


def is_link(link):
    return re.fullmatch(rb"(?:[A-Za-z0-9\-._~/]|%[0-9A-Fa-f]{2})*", link) is not None


def text_of(link):
    parts = link.split("+", 2)
    return (parts[0] + "n" * int(parts[1] or 0) + parts[2] if len(parts) == 3 else link).encode()


def rows_of(body):
    """The paths of a page's rows, or None where the body is no page."""
    if not isinstance(body, Page):
        return None
    paths = []
    for link in body.links:
        path = unquote_to_bytes(link)
        try:
            path.decode()
        except UnicodeDecodeError:
            return None
        if not is_link(link):
            return None
        paths.append(path)
    return paths


class Page(bytes):
    """A page with rows of these links. Of its bytes the number alone counts here."""

    def __new__(cls, links):
        rows = sum(len(link) + ROW for link in links)
        page = super().__new__(cls, b"p" * (FRONT_AND_END + rows))
        page.links = links
        return page


def found(dir_path, path):
    """Name and kind of what a row names, or None."""
    if not path.startswith(dir_path):
        return None
    rest = path[len(dir_path):]
    name, is_dir = (rest[:-1], True) if rest.endswith(b"/") else (rest, False)
    plain = name and b"/" not in name and b"\0" not in name and name not in (b".", b"..")
    return (name, is_dir) if plain else None


def shown_path(names, is_dir):
    return b"".join(b"/" + name for name in names) + (b"/" if is_dir else b"")


class Fetch:
    def __init__(self, copy, most, peer):
        self.copy, self.most, self.peer, self.made, self.ended = copy, most, peer, 0, None

    def may_ask(self, path):
        if self.made == self.most:
            raise Ended("budget", None, self.made)
        if len(link_of(path)) > LINK_MOST:
            raise Ended("too long", path)

    def page(self, names):
        path = shown_path(names, True)
        self.may_ask(path)
        status, _, body = self.peer.get(path, [])
        if status != 200:
            raise Ended("refused", path, status)
        text = [b""]
        self.peer.read(PAGE_MOST + 1, text)
        if len(text[0]) > PAGE_MOST:
            raise Ended("too long", path)
        rows = rows_of(body)
        members = None if rows is None else [found(path, row) for row in rows]
        if members is None or None in members:
            raise Ended("no page", path)
        self.made += 1
        return members

    def pages(self):
        due, dirs, files = [()], [], set()
        while due:
            here = due.pop(0)
            for name, is_dir in dict.fromkeys(self.page(here)):
                path = here + (name,)
                if is_dir:
                    due.append(path)
                    dirs.append(path)
                else:
                    files.add(path)
        return sorted(dirs), sorted(files)

    def fields(self, kept):
        if kept is None or not kept[0]:
            return "whole", []
        tag, length, data = kept
        if len(data) == length:
            return "same", [("if-none-match", tag)]
        if not data:
            return "whole", []
        return "rest", [("range", b"bytes=%d-" % len(data)), ("if-range", tag)]

    def file(self, path):
        text = shown_path(path, False)
        self.may_ask(text)
        kept = self.copy[1].get(path)
        awaits, fields = self.fields(kept)
        status, headers, _ = self.peer.get(text, fields)
        announced = number(value_of(headers, "content-length"))
        if status == 200:
            if announced is None:
                raise Ended("bad reply", text)
            kept = [strong(value_of(headers, "etag")), announced, b""]
            due = announced
        elif status == 206 and awaits == "rest":
            have, length = len(kept[2]), kept[1]
            due = length - have
            span = b"bytes %d-%d/%d" % (have, length - 1, length)
            if value_of(headers, "etag") != kept[0] or value_of(headers, "content-range") != span or announced != due:
                raise Ended("bad reply", text)
        elif status == 304 and awaits == "same":
            self.made += 1
            return
        else:
            raise Ended("refused", text, status)
        before, data = len(kept[2]), [kept[2]]
        self.copy[1][path] = kept
        try:
            self.peer.read(due, data)
        finally:
            kept[2] = data[0]
        if len(kept[2]) - before < due:
            raise Ended("short", text, len(kept[2]) - before, due)
        self.made += 1

    def run(self):
        try:
            dirs, files = self.pages()
            self.copy[0] = dirs
            self.copy[1] = {path: kept for path, kept in self.copy[1].items() if path in set(files)}
            for path in files:
                self.file(path)
        except Failed:
            return "peer"
        except Ended as ended:
            self.ended = ended.args
            return ended.told()
        return "ok"


def reply_of(text):
    cells = text.split("|")
    fields = []
    for field in cells[1].split("&"):
        if "=" in field:
            name, value = field.split("=", 1)
            fields.append((unquote_to_bytes(name).decode(), unquote_to_bytes(value)))
    body = cells[2]
    if body.startswith("@"):
        body = Page([text_of(link) for link in body[1:].split(",") if link])
    elif body.startswith("*"):
        body = b"x" * int(body[1:])
    else:
        body = unquote_to_bytes(body)
    return int(cells[0]), fields, body


def told(copy):
    dirs = "".join(" " + "".join("/" + shown(name) for name in path) for path in copy[0])
    files = "".join(f" {''.join('/' + shown(name) for name in path)},{shown(tag)},{length},{shown(data)}"
                    for path, (tag, length, data) in sorted(copy[1].items()))
    return f" :{dirs} :{files}"


def wanted(row):
    if row.startswith("#"):
        return row
    if row.startswith("over "):
        from mirroring import over
        return over(row)
    words, copy, lines = row.split(" "), [[], {}], []
    for at in range(0, len(words), 3):
        replies = [reply_of(text) for text in words[at + 2].split(";") if text != "-"]
        peer = Peer(replies, {int(n) for n in words[at + 1].split(",") if n != "-"})
        ended = Fetch(copy, int(words[at]), peer).run()
        lines.append("".join(peer.asked) + " " + ended + told(copy))
    return " then ".join(lines)


def wanted_all(rows):
    return [wanted(row) for row in rows]


# ---- the rows

def page(*links):
    return "200||@" + ",".join(links)


def size_of(data):
    return int(data[1:]) if data.startswith("*") else len(unquote_to_bytes(data))


def file(data, tag="1", length=None, status=200, **more):
    fields = [("content-length", str(size_of(data) if length is None else length))]
    fields += [("etag", f"%22{tag}%22")] if tag else []
    fields += [(name.replace("_", "-"), value) for name, value in more.items()]
    return f"{status}|" + "&".join(f"{name}={value}" for name, value in fields) + f"|{data}"


def rest(have, data, length, tag="1", announced=None, span=None):
    span = f"bytes%20{have}-{length - 1}/{length}" if span is None else span
    return file(data, tag, len(data) if announced is None else announced, 206, content_range=span)


def row(replies, fails="-", most=99):
    return f"{most} {fails} {';'.join(replies) if replies else '-'}"


SAME = "304||"
F = page("/f.txt")


def rows():
    yield "# Folders that are empty, flat and deep; names that a link escapes; order of asking and of what is kept."
    yield row([page()])
    yield row([page("/f.txt", "/a/"), page("/a/x.txt"), file("hi"), file("F", "2")])
    yield row([page("/z/", "/a/"), page("/z/y/"), page("/a/b/"), page("/z/y/f"), page("/a/b/g"), file("g"), file("f")])
    yield row([page("/b", "/a", "/a-b", "/A"), file("1"), file("2"), file("3"), file("4")])
    yield row([page("/a/", "/a-b", "/a.b"), page("/a/x"), file("1"), file("22"), file("333")])
    yield row([page("/%C3%A9%20b.txt", "/%2541", "/a%2Bb~c"), file("1"), file("2"), file("3")])
    yield row([page("/d" + "/"), page("/d/e/"), page("/d/e/f/"), page("/d/e/f/g/"), page("/d/e/f/g/h"), file("deep")])
    yield row([page("/f", "/f", "/d/", "/d/", "/d"), page(), file("d"), file("f")])
    yield row([page("/" + "n" * 30 + "/"), page(), ])
    yield "# A page's row must be a member of its directory."
    for link in ("/", "", "/a/b", "/a//", "/.", "/..", "/../", "a", "//", "/a/b/", "/%2F", "/%00", "/a%2Fb", "/.hidden",
                 "/a%2F", "/%FF", "/a'b", "/a%2", "/.../", "/a%2F%2F"):
        yield row([page(link), file("x")])
    yield row([page("/d/"), page("/d/")])
    yield row([page("/d/"), page("/")])
    yield row([page("/d/"), page("/e/f")])
    yield row([page("/d/"), page("/dx")])
    yield row([page("/d/"), page("/d/d/"), page("/d/")])
    yield "# What isn't a page."
    for body in ("", "x", "<!DOCTYPE%20html>", "%FF", "*4096", "*5000"):
        yield row([f"200||{body}"])
    yield "# Statuses of pages, and of files."
    for status in (100, 201, 204, 206, 301, 302, 304, 403, 404, 405, 416, 500, 503):
        yield row([f"{status}||@"])
        yield row([F, file("x", status=status)])
    yield row([])
    yield row([page("/d/")])
    yield row([F])
    yield "# Lengths of files."
    yield row([F, file("")])
    yield row([F, "200|etag=%221%22|x"])
    for length in ("", "x", "-1", "%2B1", "1 ".strip() + "%20", "01", "0000000000000000001", "00000000000000000001",
                   "9999999999999999999", "99999999999999999999", "1,1", "1.0", "0x1"):
        yield row([F, f"200|content-length={length}|ab"])
    yield row([F, "200|content-length=1&content-length=2|ab"])
    yield row([F, file("abc", length=2)])
    yield row([F, file("*4095")])
    yield row([F, file("*4096", length=4096)])
    yield row([F, file("*4097", length=4097)])
    yield row([F, file("*10000", length=9999)])
    yield "# Bodies that end early."
    yield row([F, file("ab", length=3)])
    yield row([F, file("", length=1)])
    yield row([F, file("*5000", length=5001)])
    yield "# Tags that are none, and weak ones: nothing is resumed by them."
    for tag in ("%22%22", "%221", "1", "W/%221%22", "%22a%22b%22", "%22a b%22".replace(" ", "%20"), "%22%C3%A9%22", "*",
                "%221%22,%222%22", "%22%7F%22"):
        yield " ".join((row([F, f"200|content-length=3&etag={tag}|ab"]), row([F, file("abc", "2")])))
    yield "# A file of which some is kept goes on; one that is whole is asked whether it changed."
    begun, whole = row([F, file("ab", length=5)]), row([F, file("abcde")])
    for second in (rest(2, "cde", 5), file("new", "2"), file("", "2"), file("abcde"), SAME, "404||", "416||", "412||",
                   rest(2, "cd", 5, announced=3), rest(2, "cdef", 5, announced=3), rest(2, "cde", 5, "2"),
                   rest(2, "cde", 5, ""), rest(2, "cde", 5, span="bytes%202-4/6"), rest(2, "cde", 5, span="bytes%201-4/5"),
                   rest(2, "cde", 5, span="bytes%202-3/5"), rest(2, "cde", 5, span="bytes%202-4/*"), rest(2, "cde", 5, span=""),
                   rest(2, "cde", 5, announced=2), rest(2, "cde", 5, announced=5), rest(2, "cde", 5, announced=4),
                   rest(0, "abcde", 5), "206||cde", file("cde", status=206)):
        yield " ".join((begun, row([F, second])))
        yield " ".join((whole, row([F, second])))
    yield "# Files that no page names are dropped, once all pages are read."
    both = row([page("/a", "/b", "/c"), file("1"), file("22", "2"), file("3", "3")])
    yield " ".join((both, row([page("/a", "/c"), SAME, SAME])))
    yield " ".join((both, row([page("/b"), SAME])))
    yield " ".join((both, row([page()])))
    yield " ".join((both, row([page("/aa", "/b", "/d"), file("x"), SAME, file("y")])))
    yield " ".join((both, row([page("/a/"), page("/a/b")])))
    yield " ".join((both, row([page("/a/"), "404||"])))
    yield " ".join((both, row([page("/b", "/c"), "404||"])))
    yield " ".join((both, row([page("/b", "/c", "/d"), SAME, file("new", "9", length=7)])))
    yield " ".join((both, row([page("/b", "/c"), SAME, SAME], most=1)))
    yield " ".join((both, row([page("/b", "/c"), SAME, SAME], most=2)))
    yield " ".join((both, row([page("/b", "/c"), SAME, SAME], most=3)))
    yield "# The budget counts pages and files."
    tree = [page("/d/", "/f"), page("/d/g"), file("g"), file("f")]
    for most in range(6):
        yield row(tree, most=most)
    yield row([page()], most=18446744073709551615)
    yield "# Links of 65,000 bytes and of 65,001, of a file and of a directory; a page of 16,777,216 bytes and of one more."
    yield row([page("/+64999+"), file("x")])
    yield row([page("/+65000+"), file("x")])
    yield row([page("/+64998+/"), page()])
    yield row([page("/+64999+/"), page()])
    yield row([page("/a", "/+65000+"), file("x")])
    yield row([page("/+65000+")], most=1)
    yield row(["200||*16777216"])
    yield row(["200||*16777217"])
    yield "# A page that links a thousand names deep; directories in one another, a hundred deep."
    yield row([page("/" + "d/" * 1000)])
    yield row([page("/" + "d/" * depth) for depth in range(1, 101)] + [page("/" + "d/" * 100 + "f"), file("deep")], most=200)
    yield row([F, file("*100000", length=1)])
    yield "# Each call fails in turn, and a second fetch ends with the whole copy."
    tree = [page("/d/", "/f"), page("/d/g"), file("*5000", "5"), file("ab", "2")]
    for call in range(1, 14):
        yield row(tree, str(call)) + " " + second_of(tree, call)
    yield row(tree, "14") + " " + row([page("/d/", "/f"), page("/d/g"), SAME, SAME])
    for call in range(1, 9):
        yield " ".join((row(tree), row([page("/d/", "/f"), page("/d/g"), SAME, SAME], str(call))))
    yield "# Trees that change between requests, calls that fail, and a second fetch of what stands then."
    for seed in range(60):
        yield changing(seed)
    from mirroring import over_rows
    yield from over_rows()


def second_of(tree, call):
    """The replies of a peer whose tree stays, to a fetch behind one that broke off at this call."""
    first, copy = [reply_of(text) for text in tree], [[], {}]
    Fetch(copy, 99, Peer(first, {call})).run()
    files = []
    for path, text in (((b"d", b"g"), tree[2]), ((b"f",), tree[3])):
        status, fields, data = reply_of(text)
        kept = copy[1].get(path)
        if kept is None or not kept[2]:
            files.append(text)
        elif len(kept[2]) == len(data):
            files.append(SAME)
        else:
            have, tag = len(kept[2]), kept[0].decode().strip('"')
            spelt = f"*{len(data) - have}" if len(data) > 9 else data[have:].decode()
            files.append(rest(have, spelt, len(data), tag, announced=len(data) - have))
    return row(tree[:2] + files)


# ---- a server, whose tree may change between any two requests

NAMES = (b"a", b"b", b"c.txt", b"a-b", b".h", b"\xc3\xa9", b"d e", b"%41")


class Tree:
    """Files by their paths, each with its tag and its bytes; a path is a directory where something stands below it."""

    def __init__(self, chance):
        self.chance, self.files, self.dirs, self.tags, self.seen = chance, {}, {()}, 0, []
        for _ in range(chance.randrange(1, 9)):
            self.change()

    def put(self, path, data):
        if path in self.dirs or any(path[:n] in self.files for n in range(1, len(path))):
            return
        self.tags += 1
        self.dirs.update(path[:n] for n in range(len(path)))
        self.files[path] = (b'"%d"' % self.tags, data)
        self.seen.append((path, *self.files[path]))

    def change(self):
        chance = self.chance
        if self.files and chance.random() < 0.3:
            path = chance.choice(sorted(self.files))
            data = self.files.pop(path)[1]
            if chance.random() < 0.6:
                self.put(path, chance.choice((data + b"x", data[:-1], b"x" * len(data), b"new")))
        elif len(self.dirs) > 1 and chance.random() < 0.1:
            gone = chance.choice(sorted(self.dirs - {()}))
            self.files = {path: it for path, it in self.files.items() if path[:len(gone)] != gone}
            self.dirs = {path for path in self.dirs if path[:len(gone)] != gone}
        else:
            path = tuple(chance.choice(NAMES) for _ in range(chance.randrange(1, 4)))
            size = chance.choice((0, 1, 2, 5, 5, 4095, 4096, 4097, 9000))
            self.put(path, b"x" * size if size > 9 else bytes(chance.choice(b"abc") for _ in range(size)))

    def page(self, names):
        """The text of the reply to the request for a directory: directories first, each in order of bytes."""
        if names not in self.dirs:
            return "404||"
        shown_here = [path for path in list(self.dirs) + list(self.files)
                      if path and path[:-1] == names and not path[-1].startswith(b".")]
        kinds = sorted((path in self.files, shown_path(path, path in self.dirs)) for path in shown_here)
        return page(*(link_of(path).decode() for _, path in kinds))

    def file(self, names, fields):
        if names not in self.files:
            return "302||" if names in self.dirs else "404||"
        tag, data = self.files[names]
        asked = dict(fields)
        name = tag.decode().strip('"')
        if asked.get("if-none-match") == tag:
            return SAME
        have = int(asked["range"][6:-1]) if "range" in asked else 0
        if "range" in asked and asked["if-range"] == tag and have < len(data):
            return rest(have, spelt(data[have:]), len(data), name, announced=len(data) - have)
        return file(spelt(data), name)

    def shown(self):
        """What is reached by names that don't begin with a dot."""
        def is_shown(path):
            return path and not any(name.startswith(b".") for name in path)
        return ({path for path in self.dirs if is_shown(path)},
                {path: [tag, len(data), data] for path, (tag, data) in self.files.items() if is_shown(path)})


def spelt(data):
    """A long text is of `x` alone."""
    return f"*{len(data)}" if len(data) > 15 else data.decode()


class Served(Peer):
    """A peer over a tree that changes before a request with this chance; it notes what it replied."""

    def __init__(self, tree, chance, often, fails):
        super().__init__([], fails)
        self.tree, self.chance, self.often, self.given = tree, chance, often, []

    def get(self, path, fields):
        while self.chance.random() < self.often:
            self.tree.change()
        names = tuple(path.strip(b"/").split(b"/")) if path != b"/" else ()
        text = self.tree.page(names) if path.endswith(b"/") else self.tree.file(names, fields)
        self.replies = [reply_of(text)]
        reply = super().get(path, fields)
        self.given.append(text)
        return reply


def changing(seed):
    """A fetch of a tree that changes meanwhile, with calls that may fail, and one of the tree as it stands then. Each
    file that is kept is a front of what its path had, and the second fetch ends with the whole of what is shown."""
    chance = random.Random(seed)
    tree, copy, words = Tree(chance), [[], {}], []
    fails = {chance.randrange(1, 30) for _ in range(chance.choice((0, 0, 1, 2)))}
    most = chance.choice((99, 99, 99, chance.randrange(8)))
    for often, fails, most in ((0.4, fails, most), (0, set(), 99)):
        peer = Served(tree, chance, often, fails)
        ended = Fetch(copy, most, peer).run()
        words.append(row(peer.given, ",".join(map(str, sorted(fails))) or "-", most))
        for path, (tag, length, data) in copy[1].items():
            assert any(tag == t and length == len(d) and d.startswith(data) for p, t, d in tree.seen if p == path), path
    dirs, files = tree.shown()
    assert ended == "ok" and set(copy[0]) == dirs and copy[1] == files, (seed, ended)
    return " ".join(words)


def main():
    here = os.path.dirname(os.path.abspath(__file__))
    path = os.path.join(os.path.dirname(os.path.dirname(here)), "crates", "mirror_rows", "stdin")
    with open(path, "w", newline="\n", encoding="utf-8") as out:
        out.write("".join(line + "\n" for line in rows()))


if __name__ == "__main__":
    main()
