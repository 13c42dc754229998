"""Requests and answers on the wire: heads as the kit's `httparse` reads them, bodies by RFC 9112, sections 6 and 7.1.
"""
import re

from model import Fields
from targets import uri_of

HEAD_MOST, FIELDS_MOST, BODY_MOST, EXTENSION_MOST = 65_536, 256, 1_073_741_824, 256
PHRASES = {200: "OK", 201: "Created", 204: "No Content", 206: "Partial Content", 302: "Found", 304: "Not Modified",
           400: "Bad Request", 403: "Forbidden", 404: "Not Found", 405: "Method Not Allowed", 409: "Conflict",
           412: "Precondition Failed", 413: "Payload Too Large", 414: "URI Too Long", 415: "Unsupported Media Type",
           416: "Range Not Satisfiable", 500: "Internal Server Error", 501: "Not Implemented", 502: "Bad Gateway",
           507: "Insufficient Storage", 508: "Loop Detected"}

TOKEN = rb"[!#$%&'*+.^_`|~0-9A-Za-z-]"
END = rb"\r?\n"
LINE = re.compile(rb"(" + TOKEN + rb"+):([\t -~\x80-\xff]*)" + END)
FIRST = re.compile(rb"(?:" + END + rb")*(" + TOKEN + rb"+) ([!-~\x80-\xff]+) HTTP/1\.([01])" + END)
# What may stand at the front of a head: each line may break off anywhere.
FIRST_FRONT = re.compile(rb"(?:" + END + rb")*(?:\r|(?:" + TOKEN + rb"+(?: (?:[!-~\x80-\xff]+(?: (?:V)?)?)?)?)?)?"
                         .replace(b"V", b"H(?:T(?:T(?:P(?:/(?:1(?:\\.(?:[01]\r?)?)?)?)?)?)?)?"))
LINE_FRONT = re.compile(rb"(?:\r|" + TOKEN + rb"+(?::[\t -~\x80-\xff]*\r?)?)?")


class Flawed(Exception):
    """An input that has no valid request at its place: the status of the text that is written."""

    def __init__(self, status):
        super().__init__(status)
        self.status = status


class More(Exception):
    """More bytes are needed."""


class Open(More):
    """The input is inside what nothing could complete: whether it is refused at its end is left open."""


class Head:
    def __init__(self, method, target, minor, pairs, end):
        self.method, self.target, self.minor, self.end = method.decode(), target, int(minor), end
        self.fields = Fields((name.decode(), value.strip(b" \t")) for name, value in pairs)

    def closes(self):
        members = b",".join(self.fields.all("connection")).split(b",")
        return self.minor == 0 or any(member.strip(b" \t").lower() == b"close" for member in members)


def head_of(data):
    """The head at the front of an input, judged as soon as its bytes decide."""
    try:
        head = lines_of(data[:HEAD_MOST])
    except More:
        if len(data) > HEAD_MOST:
            raise Flawed(400) from None
        raise
    uri = uri_of(head.target)
    if uri is None:
        raise Flawed(400)
    head.path = uri.path.decode("latin-1")
    return head


def is_text(data):
    try:
        return data.decode() is not None
    except UnicodeDecodeError:
        return False


def lines_of(data):
    first = FIRST.match(data)
    if first is None:
        if FIRST_FRONT.fullmatch(data) is None or not is_front_of_text(data):
            raise Flawed(400)
        raise Open if in_target(data) else More
    if not is_text(first[2]):
        raise Flawed(400)
    pairs, at = [], first.end()
    while (line := LINE.match(data, at)) is not None:
        pairs.append(line.groups())
        at = line.end()
    last = re.compile(END).match(data, at)
    if last is None:
        if LINE_FRONT.fullmatch(data, at) is None:
            raise Flawed(400)
        raise Open if len(pairs) > FIELDS_MOST else More
    if len(pairs) > FIELDS_MOST:
        raise Flawed(400)
    return Head(first[1], first[2], first[3], pairs, last.end())


def cut_target(data):
    """The target in an unfinished first line, and whether a blank stands behind it."""
    words = data.lstrip(b"\r\n").split(b" ")
    return (words[1], len(words) > 2) if len(words) > 1 else (b"", False)


def is_front_of_text(data):
    """A target is judged at its end."""
    target, ended = cut_target(data)
    return not ended or is_text(target)


def in_target(data):
    """Whether an input ends inside a target that nothing could complete."""
    target, ended = cut_target(data)
    if ended or not target:
        return False
    return not any(is_text(target + tail) for tail in (b"", b"\x80", b"\x80\x80", b"\x80\x80\x80", b"\xbf", b"\xbf\xbf",
                                                       b"\xbf\xbf\xbf", b"\x90\x80\x80", b"\xa0\x80"))


# ---- bodies

def announced(head):
    """What the fields announce: None for chunks, else the length."""
    codings, lengths = head.fields.all("transfer-encoding"), head.fields.all("content-length")
    if codings:
        if len(codings) > 1 or codings[0].lower() != b"chunked" or head.minor == 0 or lengths:
            raise Flawed(400)
        return None
    if not lengths:
        return 0
    if any(length != lengths[0] for length in lengths) or not re.fullmatch(rb"[0-9]{1,19}", lengths[0]):
        raise Flawed(400)
    if int(lengths[0]) > BODY_MOST:
        raise Flawed(413)
    return int(lengths[0])


SIZE = re.compile(rb"([0-9A-Fa-f]{1,16})(?:;[^\r\n]{0,%d})?\r\n" % EXTENSION_MOST)
SIZE_FRONT = re.compile(rb"(?:[0-9A-Fa-f]{1,16}(?:;[^\r\n]{0,%d})?\r?)?" % EXTENSION_MOST)


def chunks_of(data):
    """The body in chunks at the front of an input, and where it ends."""
    body, at = b"", 0
    while True:
        line = SIZE.match(data, at)
        if line is None:
            raise More if SIZE_FRONT.fullmatch(data, at) else Flawed(400)
        size, at = int(line[1], 16), line.end()
        if len(body) + size > BODY_MOST:
            raise Flawed(413)
        body += data[at:at + size]
        at += size
        end = data[at:at + 2]
        if end != b"\r\n":
            raise More if b"\r\n".startswith(end) else Flawed(400)
        at += 2
        if size == 0:
            return body, at


def body_of(head, data):
    """The body behind a head, and where it ends."""
    length = announced(head)
    if length is None:
        return chunks_of(data)
    if len(data) < length:
        raise More
    return data[:length], length


def message_of(data):
    """The request at the front of an input: its head, its body, and where it ends."""
    head = head_of(data)
    body, end = body_of(head, data[head.end:])
    return head, body, head.end + end


# ---- answers

def is_chunked(minor, method, status, fields):
    """Whether the body of an answer is written in chunks."""
    return minor == 1 and method != "HEAD" and "content-length" not in fields and status not in (204, 304)


def says_close(pairs):
    return ("connection", b"close") in pairs


def head_text(status, pairs, closes, chunked):
    """The head of an answer, its fields in order of their names."""
    pairs = list(pairs)
    if closes and not says_close(pairs):
        pairs.append(("connection", b"close"))
    if chunked:
        pairs.append(("transfer-encoding", b"chunked"))
    lines = [b"%s: %s\r\n" % (name.encode(), value) for name, value in sorted(pairs, key=lambda pair: pair[0])]
    return f"HTTP/1.1 {status} {PHRASES.get(status, '')}\r\n".encode() + b"".join(lines) + b"\r\n"


def flaw_text(status):
    return head_text(status, [("content-length", b"0")], True, False)


def piece_text(piece, chunked):
    return b"%x\r\n%s\r\n" % (len(piece), piece) if chunked else piece


LAST_CHUNK = b"0\r\n\r\n"
