"""The program: its words, and what a run writes over a source, a sink, a disk and a clock."""
import re

import wire
from disk import SECOND
from mirroring import mirrored
from model import Request, Settings, is_plain
from play import Player
from store import Memory, Store

CACHE = 4096
BUFFER_MOST, SEED_MOST = 1_048_576, 399
NAMES = {"--prefix": "prefix", "--indexfile": "index", "--bufsize": "buffer"}
FLAGS = {"--autoindex": "autoindex", "--fold": "folds", "--macos": "macos"}


class Words:
    """What the words behind the program's name say: `serve` with settings, `bench` with a seed, or `mirror`."""

    def __init__(self):
        self.settings, self.folds, self.macos, self.seed, self.mirrors = Settings(), False, False, None, False


def decimal(text, most):
    return int(text) if re.fullmatch("0|[1-9][0-9]*", text, re.ASCII) and int(text) <= most else None


def prefix_fits(text):
    names = [name for name in text.split("/") if name]
    return (text.startswith("/") and bool(names) and all(is_plain(name) for name in names)
            and all("!" <= c <= "~" and c not in "%?#" for c in text))


def words_of(words):
    """What the words say, or None where they aren't in the grammar."""
    if len(words) < 2 or not words[0] or words[1] not in ("serve", "bench", "mirror"):
        return None
    said = Words()
    if words[1] == "mirror":
        said.mirrors = True
        return said if len(words) == 2 else None
    if words[1] == "bench":
        said.seed = decimal(words[2], SEED_MOST) if len(words) == 3 else None
        return None if said.seed is None else said
    rest, seen = words[2:], set()
    while rest:
        option = rest.pop(0)
        if option in seen or not (option in FLAGS or option in NAMES and rest):
            return None
        seen.add(option)
        if option in FLAGS:
            setattr(said.settings if option == "--autoindex" else said, FLAGS[option], True)
        elif not set_value(said.settings, option, rest.pop(0)):
            return None
    return said


def set_value(settings, option, value):
    if option == "--bufsize":
        settings.buffer = decimal(value, BUFFER_MOST)
        return settings.buffer is not None
    setattr(settings, NAMES[option], value)
    return prefix_fits(value) if option == "--prefix" else is_plain(value)


class Stop(Exception):
    """The run ends with this status."""

    def __init__(self, status):
        super().__init__(status)
        self.status = status


class Source:
    """Gives its bytes, at most so many a call. The calls of some numbers fail."""

    def __init__(self, data, most, fails):
        self.data, self.most, self.fails, self.calls = data, most, fails, 0

    def take(self):
        self.calls += 1
        if self.calls in self.fails:
            raise Stop(3)
        given, self.data = self.data[:self.most], self.data[self.most:]
        return given


class Sink:
    """Takes at most so many bytes a call, as long as there is room. The calls of some numbers fail."""

    def __init__(self, room, most, fails):
        self.room, self.most, self.fails, self.calls, self.written = room, most, fails, 0, b""

    def put(self, data, once=False):
        """Puts all bytes, or those of one call."""
        while data:
            self.calls += 1
            taken = min(self.most, len(data), self.room - len(self.written))
            if self.calls in self.fails or taken == 0:
                raise Stop(4)
            self.written, data = self.written + data[:taken], b"" if once else data[taken:]


class Run:
    def __init__(self, said, source, sink, disk, gain=0):
        self.said, self.source, self.sink, self.disk, self.gain = said, source, sink, disk, gain
        self.clock, self.waiting, self.known = 0, b"", b""
        self.player = Player(Store(disk, Memory(CACHE, CACHE), said.folds, said.macos), said.settings)

    def flush(self):
        waiting, self.waiting = self.waiting, b""
        self.sink.put(waiting)

    def serve(self):
        """Answers the input, and gives the status."""
        try:
            while self.exchange():
                pass
            self.flush()
        except Stop as stop:
            return stop.status
        return 0

    def message(self):
        """The next request, or None at the end of the input. The source is asked where all that came is answered."""
        while True:
            try:
                if self.known:
                    return wire.message_of(self.known)
            except wire.More:
                pass
            except wire.Flawed as flaw:
                self.waiting += wire.flaw_text(flaw.status)
                self.flush()
                raise Stop(6) from None
            self.flush()
            more = self.source.take()
            if not more and not self.known:
                return None
            if not more:
                raise Stop(6)
            self.known += more

    def exchange(self):
        """Answers a request, and tells whether another may follow."""
        message = self.message()
        if message is None:
            return False
        head, body, end = message
        self.known = self.known[end:]
        now, self.clock = self.clock, min(self.clock + self.gain * SECOND, 2**64 - 1)
        self.player.step(("turn",))
        self.player.step(("purge", now))
        _, reply, number = self.player.step(("request", Request(head.method, head.path, head.fields, body), now))
        closes = head.closes() or reply.fields.get("connection") == "close"
        chunked = wire.is_chunked(head.minor, head.method, reply.status, reply.fields)
        self.waiting += wire.head_text(reply.status, reply.sorted(), closes, chunked)
        self.give(number, chunked)
        return not closes

    def give(self, number, chunked):
        """Writes a body."""
        while True:
            self.player.step(("turn",))
            answered = self.player.step(("poll", number))
            if answered[0] == "broken":
                self.flush()
                raise Stop(5)
            if answered[0] == "end":
                self.waiting += wire.LAST_CHUNK if chunked else b""
                return
            self.waiting += wire.piece_text(answered[1], chunked)


def bench(seed, sink):
    """The five lines of a large input: with whole reads each GET is one piece. A directory is listed once for each of
    its names, and the root once for each directory, since paths that were found are remembered; none is forgotten."""
    count = seed + 1
    total = 2 * sum(10 * (i + 1) + j for i in range(8) for j in range(count))
    lines = (f"requests {16 * count}\nok {16 * count}\npieces {16 * count}\nbytes {total}\n"
             f"listings {8 * count + 8}\n")
    return put_all(lines.encode(), sink)


def mirror(disk, sink, report):
    """The listing of a tree. Behind an error nothing is written. What it came to is reported."""
    status, lines, words = mirrored(disk)
    report.append(words)
    return status or put_all(lines, sink)


def put_all(data, sink):
    """The status where this is all that is written."""
    try:
        sink.put(data)
    except Stop as stop:
        return stop.status
    return 0


def run(words, source, sink, disk, gain=0, report=None):
    """The status of a run. What a fetch came to is added to a report."""
    said = words_of(words)
    if said is None:
        return 2
    if said.seed is not None:
        return bench(said.seed, sink)
    if said.mirrors:
        return mirror(disk, sink, [] if report is None else report)
    return Run(said, source, sink, disk, gain).serve()
