"""A mirror: the tree of a disk as a client of a server over it fetches it, and the lines that are written of its files.

    checks/rows/mirroring.py         writes its rows anew, which stand last in `run_rows`
"""
import os
import random
from urllib.parse import unquote_to_bytes

from disk import SECOND, Disk
from mirror_rows import Failed, Fetch, Page, Peer, link_of, told
from model import Fields, Request, Settings
from pages import read_page
from play import Player
from store import Memory, Store
from texts import quoted

MOST = 1_000_000


def page_of(body):
    """The body of an answer as a fetch reads it: a page with its links, or what is none."""
    text = b"".join(part for part in body.parts if isinstance(part, bytes))
    rows = read_page(text.decode())
    return b"" if rows is None else Page([quoted(row[0]).encode() for row in rows])


class Played(Peer):
    """A player that is asked as a server is: each request ends the answer before it, and stands behind a turn. It reads
    so many bytes at once, where a number is given."""

    def __init__(self, disk, buffer=None):
        super().__init__([], ())
        settings = Settings()
        settings.autoindex, settings.buffer = True, buffer
        self.player, self.number, self.last = Player(Store(disk, Memory(), False, False), settings), None, None

    def get(self, path, fields):
        self.note(path, fields)
        self.last = path
        if self.number is not None:
            self.player.step(("abandon", self.number))
        self.player.step(("turn",))
        request = Request("GET", link_of(path).decode(), Fields(fields))
        _, reply, self.number = self.player.step(("request", request, 0))
        return reply.status, reply.sorted(), page_of(reply.body)

    def piece(self):
        answered = self.player.step(("poll", self.number))
        if answered[0] == "broken":
            raise Failed
        return b"" if answered[0] == "end" else answered[1]


def mirrored(disk):
    """The status of a fetch, what is written of it, and what it came to, in words."""
    copy, peer = [[], {}], Played(disk)
    fetch = Fetch(copy, MOST, peer)
    ended = fetch.run()
    if ended == "peer":
        return 5, b"", f"a call of the disk failed in the body of {link_of(peer.last).decode()}"
    if ended != "ok":
        return 8, b"", in_words(fetch.ended)
    links = {path: link_of(b"".join(b"/" + name for name in path)) for path in copy[1]}
    lines = b"".join(b"%d %s\n" % (copy[1][path][1], links[path]) for path in sorted(copy[1]))
    return 0, lines, f"{len(links)} files, {sum(kept[1] for kept in copy[1].values())} bytes"


def in_words(why):
    """Why a fetch ended, and at which path."""
    what, path, *numbers = why
    return {"refused": "{} is answered {}", "no page": "{} is answered by no index page", "too long": "{} is too long, or its page",
            "bad reply": "{} is answered by what can't be of it", "short": "{} ends behind {} of {} bytes",
            "budget": "more than {1} requests are due"}[what].format(path and link_of(path).decode(), *numbers)


# ---- fetches from one disk, one after the other

def names_of(text):
    return tuple(unquote_to_bytes(name).decode() for name in text.split("/") if name)


def disk_of(tree, turns, fails):
    """A disk with the entries of a row `over`, its turns, and the numbers of its calls that fail."""
    disk = Disk()
    for at, entry in enumerate(tree.split(",")):
        name, _, text = entry.partition("=")
        disk.add(names_of(name), 0x20 + at, SECOND, None if name.endswith("/") else data_of(text))
    for turn in [] if turns == "-" else turns.split(";"):
        changes = [part.split(":") for part in turn.split(",") if part]
        disk.scripts.append([CHANGES[word](names_of(path), *more) for word, path, *more in changes])
    disk.fails = {int(call) for call in fails.split(",") if call != "-"}
    return disk


CHANGES = {"cut": lambda path, count: ("cut", path, int(count)), "remove": lambda path: ("remove", path),
           "file": lambda path, text: ("file", path, data_of(text))}


def data_of(text):
    return b"x" * int(text[1:]) if text.startswith("*") else unquote_to_bytes(text)


def over(row):
    """What is wanted for a row `over BUFFER TREE TURNS FAILS MOST [MOST]`."""
    _, buffer, tree, turns, fails, *most = row.split(" ")
    disk, copy, lines = disk_of(tree, turns, fails), [[], {}], []
    for count in most:
        peer = Played(disk, int(buffer) or None)
        ended = Fetch(copy, int(count), peer).run()
        lines.append("".join(peer.asked) + " " + ended + told(copy))
    return " then ".join(lines)


def calls_over(row):
    """How many calls of the disk a row makes where none fails."""
    _, buffer, tree, turns, _, *most = row.split(" ")
    disk, copy = disk_of(tree, turns, "-"), [[], {}]
    for count in most:
        Fetch(copy, int(count), Played(disk, int(buffer) or None)).run()
    return disk.asked


def each_call(buffer, tree, turns="-", most="99 99"):
    """The row with each of its calls failing in turn."""
    for call in range(1, calls_over(f"over {buffer} {tree} {turns} - {most}") + 2):
        yield f"over {buffer} {tree} {turns} {call} {most}"


def over_rows():
    yield ("# From a player over one disk: behind a read that broke a file goes on (206), or comes anew where it was changed"
           " meanwhile (200); one that is whole is asked whether it changed (304). Each call fails in turn.")
    yield from each_call(4, "f=abcdefghij")
    yield from each_call(4, "f=abcdefghij", ";;;cut:f:6")
    yield from each_call(4, "f=abcdefghij", ";;;cut:f:2")
    yield from each_call(4, "f=abcdefghij", ";;;remove:f,file:f:abcdefghij")
    yield from each_call(4, "f=abcdefghij", ";;remove:f")
    yield from each_call(4096, "f=*9000")
    yield from each_call(0, "d/,d/g=*20000,f=hi")
    yield "# What changes between two requests of a fetch."
    for turns in (";cut:f:6", ";remove:f", ";;;cut:f:6", ";;;file:h:new", ";;file:h:new", ";;remove:f;file:f:x"):
        yield f"over 4 f=abcdefghij {turns} - 99 99"
    yield "# The budget of the first fetch, and of the second, which asks of what is kept whether it changed."
    for first in range(6):
        for second in (0, 3, 99):
            yield f"over 0 a=aaa,b=bb,c=c - - {first} {second}"
    yield "over 2 a=aaa,b=bb,c=c - 8 3 3"


# ---- the rows

MIRROR = "words folder,mirror"
HEADING = "# A tree is fetched, and its files are listed in the order of their paths, names with a dot in front left out."
SMALL = ("dir d", "file d/g 20000*x", "file f hi")
NAMES = ("a", "b", "c.txt", "a-b", "A", ".h", "é", "d e", "%41", "+", "<b>", '"', "&amp;", "'", "~", "x" * 30, "\n", "☃")


def spelt(name):
    """A name as a row spells it."""
    return "".join(chr(b) if chr(b).isalnum() and b < 128 or chr(b) in "._-~" else f"%{b:02X}" for b in name.encode())


def row(*parts):
    return " | ".join(("bare",) + parts + (MIRROR,))


def worked():
    """Trees that were worked out by hand, with the lines of each."""
    yield ("dir a", "file a/x.txt hi", "file f.txt 0123456789", "file .h"), "2 /a/x.txt 10 /f.txt"
    yield (), ""
    yield ("dir a", "dir a/b", "dir .c"), ""
    yield ("file A", "dir a", "file a/x 1", "file a-b 12", "file a.b 123"), "0 /A 1 /a/x 2 /a-b 3 /a.b"
    yield ("dir .d", "file .d/x", "dir d", "file d/.x", "file d/y ab"), "2 /d/y"
    yield (("file %C3%A9%20b.txt a", "file %2541 ab", "file %3Cb%3E\"&'.txt abc", "file a+b~c abcd"),
           "2 /%2541 3 /%3Cb%3E%22%26%27.txt 4 /a%2Bb~c 1 /%C3%A9%20b.txt")
    yield (("dir a", "dir a/b", "dir a/b/c", "file a/b/c/d 1", "file a/b/e 12", "file a/f 123", "file g"),
           "1 /a/b/c/d 2 /a/b/e 3 /a/f 0 /g")
    yield ("file %0A 1", "file %7C 12", "file ... 123", "file ..a"), "1 /%0A 2 /%7C"
    deep = "/".join("d" * 40)
    yield tuple("dir " + deep[:2 * at + 1] for at in range(40)) + (f"file {deep}/f deep",), f"4 /{deep}/f"


def refused_words():
    for words in ("folder,mirror,y", "folder,mirror,", ",mirror", "mirror", "folder,Mirror", "folder,mirrors", "folder,mirro",
                  "mirror,folder", "folder,mirror,--fold", "folder,mirror,0", "folder,--autoindex,mirror"):
        yield f"words {words} | in GET / HTTP/1.1%0D%0A%0D%0A"


def outside():
    """Rows in which the outside fails or changes."""
    listed = SMALL + ("dir e", "file e/h")
    yield "# The input isn't read, and a sink takes the lines in pieces of any size, or fails."
    yield row(*listed, "in GET / HTTP/1.1%0D%0A%0D%0A", "source-fails 1")
    for put in (1, 2, 7, 100):
        yield row(*listed, f"put {put}")
    for call in (1, 2, 3, 4, 5):
        yield row(*listed, "put 7", f"sink-fails {call}")
    for room in (0, 1, 12, 25, 26):
        yield row(*listed, f"room {room}")
    yield row("rooms").replace(f"rooms | {MIRROR}", f"{MIRROR} | rooms")
    yield row(*listed) + " | rooms"
    yield row("sink-fails 1")
    yield "# Each call of the disk fails in turn: a body breaks, a request is refused, or a page lacks rows."
    for call in range(1, calls_of(listed) + 2):
        yield row(*listed, f"disk-fails {call}")
    yield row(*listed, "disk-fails 1", "sink-fails 1")
    yield "# Two calls fail."
    chance = random.Random(18)
    for _ in range(12):
        first, second = sorted(chance.sample(range(1, calls_of(listed)), 2))
        yield row(*listed, f"disk-fails {first}", f"disk-fails {second}")
    yield "# What changes between two requests: each is answered by what stands there then."
    for turns in (("remove f",), ("", "", "remove f"), ("", "", "", "remove f"), ("", "", "", "", "remove f"),
                  ("", "remove d"), ("", "remove d,file d 1"), ("", "", "", "remove f,dir f"), ("", "", "", "", "cut f 1"),
                  ("", "", "", "cut d/g 3"), ("", "", "", "remove d/g,file d/g abc"), ("", "file d/i 12"),
                  ("", "", "file d/i 12"), ("", "", "", "", "", "", "remove f"), ("", "", "", "", "cut f 9", "cut f 1"),
                  ("remove d,remove e,remove f",)):
        yield row(*listed, *(f"turn {text}".strip() for text in turns))


def reports():
    """What a fetch came to: how many files and bytes, or at which path it ended and why. No other run reports."""
    listed = SMALL + ("dir e", "file e/h")
    yield "# What a fetch came to is reported, and nothing of other runs."
    for parts in ((), listed, ("file %C3%A9%20b a", "file .h abc", "dir .d", "file .d/x ab")):
        yield row(*parts) + " | report"
    yield row(*listed, "room 12") + " | report"
    for call in range(1, calls_of(listed) + 1):
        yield row(*listed, f"disk-fails {call}") + " | report"
    for turns in (("remove d,remove e,remove f",), ("", "remove d"), ("", "", "", "", "cut f 1"), ("", "", "", "remove f,dir f"),
                  ("", "", "", "cut d/g 3"), ("", "", "", "", "remove f")):
        yield row(*listed, *(f"turn {text}".strip() for text in turns)) + " | report"
    yield row("file %25%C3%A9", "turn", "turn remove %25%C3%A9") + " | report"
    encoded = ("dir d", "file d/%25%C3%A9 a")
    yield row(*encoded, f"disk-fails {calls_of(encoded)}") + " | report"
    for words in ("folder,serve", "folder,bench,0", "folder,mirror,y", ""):
        yield f"words {words} | report"


def calls_of(parts):
    """How many calls a disk with these gets where nothing fails."""
    disk = Disk()
    for at, part in enumerate(parts):
        kind, path, data = (part + " ").split(" ", 2)
        disk.add(tuple(path.split("/")), 0x20 + at, SECOND, bytes(20_000) if "*" in data else None if kind == "dir" else b"x")
    mirrored(disk)
    return disk.asked


def random_tree(seed):
    """A random tree, and its lines by the paths alone."""
    chance, dirs, files = random.Random(seed), [()], {}
    parts = []
    for _ in range(chance.randrange(1, 14)):
        path = chance.choice(dirs) + (chance.choice(NAMES),)
        if path in dirs or path in files or len(path) > 4:
            continue
        cell = "/".join(map(spelt, path))
        if chance.random() < 0.4:
            dirs.append(path)
            parts.append(f"dir {cell}")
        else:
            files[path] = chance.choice((0, 1, 2, 9, 10, 99, 16_383, 16_384, 16_385, 40_000))
            parts.append(f"file {cell} {files[path]}*x")
    shown = [path for path in files if not any(name.startswith(".") for name in path)]
    shown.sort(key=lambda path: [name.encode() for name in path])
    return tuple(parts), "".join(f"{files[path]} " + "".join("/" + quoted(name) for name in path) + "\n" for path in shown)


def rows():
    yield HEADING
    for parts, lines in worked():
        yield row(*parts), "".join(" ".join(both) + "\n" for both in zip(*[iter(lines.split())] * 2))
    yield "# Other words with `mirror` aren't understood."
    yield from refused_words()
    yield from outside()
    yield from reports()
    yield "# Random trees."
    for seed in range(60):
        parts, lines = random_tree(seed)
        yield row(*parts), lines


def main():
    here = os.path.dirname(os.path.abspath(__file__))
    path = os.path.join(os.path.dirname(os.path.dirname(here)), "crates", "run_rows", "stdin")
    with open(path, newline="\n", encoding="utf-8") as file:
        before = file.read().split(HEADING)[0]
    # Beside it stands the list that a row has by itself, without a fetch.
    from run_rows import came_of
    lines = []
    for it in rows():
        text, wanted = it if isinstance(it, tuple) else (it, None)
        assert wanted is None or came_of(text)[:2] == (0, wanted.encode()), text
        lines.append(text + "\n")
    with open(path, "w", newline="\n", encoding="utf-8") as file:
        file.write(before + "".join(lines))


if __name__ == "__main__":
    main()
