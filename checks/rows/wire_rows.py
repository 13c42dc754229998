"""The wanted rows of `wire_rows`: heads and bodies of requests, and what is written of answers."""
import wire
from serve import Sink, Source, Stop
from texts import decoded, number, print_wanted, spelt

LONG, ENDS, FEW = 200, 20, 9


def bytes_of(cell):
    """The bytes of a cell, which may be so many copies of a text."""
    count, star, text = cell.partition("*")
    return decoded(text) * (number(count) or 0) if star else decoded(cell)


def shown(data):
    """Bytes; of many the two ends, and their number between them."""
    if len(data) <= LONG:
        return spelt(data, b"%")
    return f"{spelt(data[:ENDS], b'%')}..{len(data)}..{spelt(data[-ENDS:], b'%')}"


def source_of(cell, cells):
    most, *fails = cell.split(",")
    return Source(b"".join(bytes_of(c) for c in cells), max(1, number(most) or 1), {number(f) or 0 for f in fails})


class Input:
    """What came of a source, and what is still to be read."""

    def __init__(self, source):
        """All that the source gives before a call of it fails: no answer shows when it was asked."""
        self.known, self.fails = b"", False
        try:
            while more := source.take():
                self.known += more
        except Stop:
            self.fails = True

    def next(self, read):
        """What `read` finds at the front of the input, or the word for how it ends."""
        try:
            return read(self.known)
        except wire.Flawed as flaw:
            return flaw
        except wire.More:
            return "failed" if self.fails else "cut" if self.known else "end"


def asked_words(head):
    chunks = head.minor == 1 and head.method != "HEAD"
    only_member = [m for v in head.fields.all("connection") for m in v.split(b",")]
    closes = any(m.strip(b" \t").lower() == b"close" for m in only_member)
    return f"1.{head.minor} {'closes' if closes else 'stays'} {'chunks' if chunks else 'plain'}"


def fields_told(fields):
    """The fields, those of one name together, or their number where they are many."""
    if len(fields.pairs) > FEW:
        return f" {len(fields.pairs)} fields"
    names = list(dict.fromkeys(name for name, _ in fields.pairs))
    return "".join(f" {name}={spelt(value, b'%')}" for name in names for value in fields.all(name))


def requests(row):
    cells = row.split(" ")
    given, line = Input(source_of(cells[1], cells[2:])), ""
    while not isinstance(head := given.next(wire.head_of), (str, wire.Flawed)):
        given.known = given.known[head.end:]
        line += f"{head.method} {head.path or '/'} {asked_words(head)}{fields_told(head.fields)}; "
    return line + (head if isinstance(head, str) else "refused")


def messages(row):
    cells = row.split(" ")
    given, line = Input(source_of(cells[1], cells[2:])), ""
    while not isinstance(head := given.next(wire.head_of), (str, wire.Flawed)):
        line += f"{head.method} {head.path or '/'} "
        given.known = given.known[head.end:]
        body = given.next(lambda data: wire.body_of(head, data))
        if isinstance(body, wire.Flawed):
            return f"{line}{body.status}"
        if isinstance(body, str):
            return line + ("cut" if body == "end" else body)
        given.known = given.known[body[1]:]
        line += shown(body[0]) + "; "
    return line + (head if isinstance(head, str) else "refused")


def pairs_of(cells):
    return [(name, bytes_of(value)) for name, _, value in (cell.partition(":") for cell in cells)]


def body_text(framing, cells):
    chunked = framing == "chunked"
    return b"".join(wire.piece_text(bytes_of(c), chunked) for c in cells) + (wire.LAST_CHUNK if chunked else b"")


def into_sink(room, most, data):
    """Whether all of it went, and what did."""
    sink = Sink(number(room) or 0, max(1, number(most) or 1), set())
    try:
        sink.put(data)
    except Stop:
        return False, sink.written
    return True, sink.written


def asked(most, cell):
    """What reached a sink at three heads: four bytes wait each time, and go where the source is asked."""
    source, known, waiting, written = source_of(most, [cell]), b"", b"", b""
    for _ in range(3):
        waiting += b"wait"
        try:
            known = known[wire.head_of(known).end:]
        except wire.More:
            written, waiting, known = written + waiting, b"", known + source.take()
        except wire.Flawed:
            pass
    return shown(written)


def source_told(cell, text):
    """What eight calls of a source give, each into four bytes."""
    source = source_of("4" if cell == "sure" else cell, [text])
    source.most, line = min(4, source.most), "gives"
    for _ in range(8):
        try:
            line += " " + spelt(source.take(), b"%") + "."
        except Stop:
            line += " failed."
    return line


def sink_told(cell, room):
    """What six puts of three bytes answer."""
    most, *fails = ("3" if cell == "sure" else cell).split(",")
    sink, line = Sink(number(room) or 0, max(1, number(most) or 1), {number(f) or 0 for f in fails}), "takes"
    for _ in range(6):
        before = len(sink.written)
        try:
            sink.put(b"abc", once=True)
            line += f" {len(sink.written) - before}"
        except Stop:
            line += " failed"
    return f"{line} has {spelt(sink.written, b'%')}"


def texts(one, two):
    order = "equal" if one == two else "less" if one.encode() < two.encode() else "greater"
    return f"{order} true {'true' if one == two else 'false'} true true"


def octets(one, two):
    one, more = bytes_of(one), bytes_of(two)
    return f"true {'false' if more else 'true'} {spelt(one, b'%')} {spelt(one + more, b'%')}"


def wanted(row):
    cells = (row.split(" ") + [""] * 4)
    word, count = cells[0], len(cells) - 4
    rest = cells[1:count]
    if word in ("input", "messages"):
        return requests(row) if word == "input" else messages(row)
    if word == "head":
        status, closes, chunked = number(cells[1]) or 0, cells[2] == "closes", cells[3] == "chunked"
        return shown(wire.head_text(status, pairs_of(rest[3:]), closes, chunked))
    if word == "framing":
        minor = 1 if cells[1] == "chunks" else 0
        chunked = wire.is_chunked(minor, "GET", number(cells[2]) or 0, dict(pairs_of(rest[2:])))
        return "chunked" if chunked else "raw"
    if word == "body":
        return shown(body_text(cells[1], rest[1:]))
    if word == "room":
        whole, written = into_sink(cells[1], cells[2], body_text(cells[3], rest[3:]))
        return f"{'whole' if whole else 'part'} {shown(written)}"
    if word == "push":
        return shown(into_sink(cells[1], cells[2], b"".join(bytes_of(c) for c in rest[2:]))[1])
    if word == "says":
        return "closes" if wire.says_close(pairs_of(rest)) else "stays"
    if word == "fields":
        return "fields" + "".join(f" {name}:{spelt(value, b'%')}" for name, value in pairs_of(rest))
    if word == "clock":
        return f"{number(cells[1]) or 0} {number(cells[1]) or 0} {number(cells[2]) or 0} {number(cells[2]) or 0}"
    calls = {"refusal": lambda: shown(wire.flaw_text(400)), "large": lambda: shown(wire.flaw_text(413)),
             "asked": lambda: asked(cells[1], cells[2]), "source": lambda: source_told(cells[1], cells[2]),
             "sink": lambda: sink_told(cells[1], cells[2]), "texts": lambda: texts(cells[1], cells[2]),
             "octets": lambda: octets(cells[1], cells[2]), "errors": lambda: "the outside failed; out of memory"}
    return calls[word]() if word in calls else row


def wanted_all(rows):
    return [wanted(row) for row in rows]


if __name__ == "__main__":
    print_wanted(wanted_all)
