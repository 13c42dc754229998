"""The wanted rows of `entity_rows`: texts that are escaped and decoded, streams of bytes and their faults."""
import entities
from entities import Fault, attribute, minimal
from serve import Sink, Source, Stop
from texts import decoded, number, print_wanted, spelt

ROOM, TAKEN, LEFT = 4096, 3, 64
WORDS = {"UnknownEntity": "unknown", "MalformedNumEscape": "malformed", "InvalidCharacter": "invalid",
         "PrematureEnd": "premature"}


def text_of(cell):
    try:
        return decoded(cell).decode()
    except UnicodeDecodeError:
        return ""


def shown(data):
    return spelt(data.encode() if isinstance(data, str) else data, b"%")


def decode(cell):
    value, fault = entities.decoded_front(text_of(cell))
    return "=" + shown(value) if fault is None else f"{WORDS[fault.kind]} {fault.position}"


def width_of(byte):
    """How many bytes a character has, by its first one; 0 where that begins none."""
    return next((n for first, last, n in ((0, 0x7f, 1), (0xc0, 0xdf, 2), (0xe0, 0xef, 3), (0xf0, 0xf7, 4))
                 if first <= byte <= last), 0)


def next_character(source):
    """The next character of a source, None at its end, or `broken` or `failed`. The bytes taken are gone."""
    try:
        data = source.take()
        if not data:
            return None
        width = width_of(data[0])
        while len(data) < width:
            more = source.take()
            if not more:
                return "broken"
            data += more
    except Stop:
        return "failed"
    try:
        return data.decode() if width else "broken"
    except UnicodeDecodeError:
        return "broken"


def source_of(fails, data):
    return Source(data, 1, {number(call) for call in fails.split(",") if number(call) is not None})


def characters(fails, cell):
    source, line = source_of(fails, decoded(cell)), "are"
    while (got := next_character(source)) is not None:
        line += f" {ord(got)}" if len(got) == 1 else " " + got
    return line


class Decoding:
    """A decoding of characters, one after the other, into a sink."""

    def __init__(self, source, sink):
        self.source, self.sink, self.read, self.text, self.start = source, sink, 0, "", 0

    def run(self):
        """`whole`, or the fault and its position."""
        while True:
            got = next_character(self.source)
            if got is None:
                return f"premature {self.start}" if self.text else "whole"
            if len(got) > 1:
                return f"{'read' if got == 'failed' else 'encoding'} {self.read}"
            try:
                value = self.item(got)
            except Fault as fault:
                return f"{WORDS[fault.kind]} {self.start}"
            self.read += 1
            if value is not None:
                try:
                    self.sink.put(value.encode())
                except Stop:
                    return f"write {self.start}"

    def item(self, char):
        """The character for which the item stands that ends with this one, or None inside an item."""
        if not self.text:
            self.start = self.read
        if not self.text and char != "&":
            return char
        self.text += char
        value, fault = entities.decoded_front(self.text)
        if fault is None:
            self.text = ""
            return value
        if fault.kind != "PrematureEnd":
            raise fault
        return None


def stream(source, room):
    sink = Sink(room, TAKEN, set())
    return f"{Decoding(source, sink).run()} ={shown(sink.written)}"


def lent(cell):
    source = Source(decoded(cell), 1, set())
    return f"{stream(source, ROOM)} left {shown(source.data[:LEFT])}"


def into_room(room, cell):
    text = attribute(text_of(cell)).encode()
    sink = Sink(number(room) or 0, TAKEN, set())
    try:
        sink.put(text)
        return f"whole ={shown(sink.written)}"
    except Stop:
        return f"part ={shown(sink.written)}"


def failing(cell):
    fails, _, rest = cell.partition(" ")
    room, _, data = rest.partition(" ")
    size = number(room)
    return stream(source_of(fails, decoded(data)), ROOM if size is None else size)


ERRORS = "byte stream did not contain valid utf8; the outside failed; true; false; 252"


def wanted(row):
    word, _, cell = row.partition(" ")
    second, blank, rest = cell.partition(" ")
    calls = {"minimal": lambda: shown(minimal(text_of(cell))), "attribute": lambda: shown(attribute(text_of(cell))),
             "decode": lambda: decode(cell), "stream": lambda: stream(source_of("", decoded(cell)), ROOM),
             "characters": lambda: characters("", cell), "room": lambda: into_room(second, rest),
             "all": lambda: shown(minimal(text_of(cell)) + attribute(text_of(cell)) + text_of(cell)),
             "failing": lambda: failing(cell), "interrupted": lambda: characters(second, rest),
             "lent": lambda: lent(cell), "errors": lambda: ERRORS}
    return calls[word]() if word in calls else row


def wanted_all(rows):
    return [wanted(row) for row in rows]


if __name__ == "__main__":
    print_wanted(wanted_all)
