"""What a request is answered: paths, entity tags, dates, conditions, ranges, heads, gates and the plain methods.

It is written from the rules that README.md and the pages in docs state, and from RFC 9110 for conditions and ranges;
it calls no code of the program. A field of an answer, a method or a line of a table is changed here once, and the
wanted rows of all drivers come out anew (`all --write`).

The modules beside it: `disk.py` the disk in memory, `store.py` names that fold, the rules for clients of macOS and what
is remembered, `pages.py` and `entities.py` index pages, `targets.py` and `wire.py` what stands on the wire, `play.py`
steps, `serve.py` the program, `reports.py` calendars and address books, `calls.py` calls as rows ask them.
"""
import datetime
import re
import sys

from disk import PUTTING, READING, SECOND, DiskError
from pages import page_texts
from targets import uri_of
from texts import decoded, quoted

BOUNDARY = "BOUNDARY"
LAST_SECOND = 253_402_300_799
ZEROS = 4096
BUFFER = 16_384
SMALL_BODY = 65_536
DEEPEST = 65_536

READING_METHODS = ("GET", "HEAD")
ANSWERED = ("OPTIONS", "HEAD", "GET", "PUT", "MKCOL", "COPY", "MOVE", "DELETE", "MKCALENDAR", "MKADDRESSBOOK")
UNBUILT = ("PROPFIND", "PROPPATCH", "LOCK", "UNLOCK", "REPORT", "PATCH")
METHODS = ANSWERED + UNBUILT
WITH_BODY = ("PUT", "PATCH", "PROPFIND", "PROPPATCH", "LOCK", "REPORT", "MKCALENDAR", "MKADDRESSBOOK")
UNMEASURED = ("PUT", "PATCH")

TYPES = {"txt": "text/plain", "html": "text/html", "htm": "text/html", "css": "text/css", "js": "text/javascript",
         "json": "application/json", "xml": "text/xml", "csv": "text/csv", "md": "text/markdown",
         "ics": "text/calendar", "vcf": "text/vcard", "pdf": "application/pdf", "png": "image/png",
         "jpg": "image/jpeg", "jpeg": "image/jpeg", "gif": "image/gif", "svg": "image/svg+xml", "mp3": "audio/mpeg",
         "mp4": "video/mp4", "zip": "application/zip"}
OTHER_TYPE = "application/octet-stream"

# The statuses of a store's refusals, and which of them a disk's refusals become.
STATUSES = {"NotFound": 404, "Forbidden": 403, "Exists": 405, "GeneralFailure": 500, "NotImplemented": 501,
            "InsufficientStorage": 507, "LoopDetected": 508, "PathTooLong": 414, "TooLarge": 413, "IsRemote": 502}
FROM_DISK = {"NotFound": "NotFound", "NotDir": "Forbidden", "IsDir": "Forbidden", "Exists": "Exists",
             "NotEmpty": "Exists", "Failed": "GeneralFailure"}


class FsError(Exception):
    """A store's refusal by its name."""

    def __init__(self, name):
        super().__init__(name)
        self.name = name


class Refused(Exception):
    """A request is refused with this status; the connection may close."""

    def __init__(self, status, closes=False):
        super().__init__(status)
        self.status, self.closes = status, closes


def refuse_if(fits, status, closes=False):
    if fits:
        raise Refused(status, closes)


# ---- paths

class ParseError(Exception):
    STATUSES = {"InvalidPath": 400, "ForbiddenPath": 403, "PrefixMismatch": 404, "NotText": 404}

    def __init__(self, name):
        super().__init__(name)
        self.name, self.status = name, self.STATUSES[name]


def is_plain(name):
    return name not in ("", ".", "..") and "/" not in name and "\0" not in name


def prefix_fits(prefix):
    """Whether a server may have this prefix."""
    return prefix == "" or prefix.startswith("/") and all(is_plain(name) for name in prefix.split("/") if name)


def name_of(segment):
    """The name that a segment of a path spells."""
    data = decoded(segment)
    if b"\0" in data or b"/" in data or data in (b".", b".."):
        raise ParseError("InvalidPath")
    try:
        return data.decode()
    except UnicodeDecodeError:
        raise ParseError("NotText") from None


class Path:
    """The names of a prefix, those of a path, and whether it has a final slash. Without names it has one."""

    def __init__(self, names, slash, prefix=()):
        self.names, self.slash, self.prefix = tuple(names), slash or not names, tuple(prefix)

    def parent(self):
        return Path(self.names[:-1], True, self.prefix)

    def member(self, name, slash):
        return Path(self.names + (name,), slash, self.prefix)

    def with_prefix(self):
        names = self.prefix + self.names
        return "/" + "/".join(names) + ("/" if names and self.slash else "")

    def link(self):
        return quoted(self.with_prefix())

    def mime(self):
        return mime_of(self.names[-1].encode() if self.names else b"")


def mime_of(name):
    """The content type of a name, by the part behind its last dot."""
    return TYPES.get(name.rpartition(b".")[2].lower().decode("latin-1") if b"." in name else "", OTHER_TYPE)


def path_of(text, prefix=""):
    """The path that a text spells below a prefix."""
    text = text.partition("?")[0]
    if not text.startswith("/") or any(not "!" <= c <= "~" or c == "#" for c in text):
        raise ParseError("InvalidPath")
    kept, segments = [], text.split("/")
    for segment in segments:
        if segment == "..":
            if not kept:
                raise ParseError("ForbiddenPath")
            kept.pop()
        elif segment not in ("", "."):
            kept.append(segment)
    names = [name_of(segment) for segment in kept]
    before = [name for name in prefix.split("/") if name]
    if names[:len(before)] != before:
        raise ParseError("PrefixMismatch")
    return Path(names[len(before):], segments[-1] in ("", ".", ".."), before)


# ---- fields

class Fields:
    """The fields of a request, in their order: names in lower case, values as bytes."""

    def __init__(self, pairs=()):
        self.pairs = [(name.lower(), value) for name, value in pairs]

    def all(self, name):
        return [value for other, value in self.pairs if other == name]

    def first(self, name):
        values = self.all(name)
        return values[0] if values else None

    def text(self, name):
        """The first value where it is visible ASCII with spaces and tabs."""
        value = self.first(name)
        if value is None or any(b != 9 and not 32 <= b < 127 for b in value):
            return None
        return value.decode()


TAG = re.compile(rb'(W/)?"([\x21\x23-\x7e\x80-\xff]*)"')
GAP = re.compile(rb"[ \t]*")


def tag_of(value):
    """An entity tag as (weak, text), or None."""
    found = TAG.fullmatch(value)
    return None if found is None else (found[1] is not None, found[2])


def tags_of(value):
    """A list of tags, `*`, or None for a value outside the grammar."""
    if value.strip(b" \t") == b"*":
        return "*"
    tags, at = [], 0
    while True:
        at = GAP.match(value, at).end()
        found = TAG.match(value, at)
        if found is not None:
            tags.append((found[1] is not None, found[2]))
            at = GAP.match(value, found.end()).end()
        if at == len(value):
            return tags or None
        if value[at:at + 1] != b",":
            return None
        at += 1


DAYS = ("Mon", "Tue", "Wed", "Thu", "Fri", "Sat", "Sun")
LONG_DAYS = ("Monday", "Tuesday", "Wednesday", "Thursday", "Friday", "Saturday", "Sunday")
MONTHS = ("Jan", "Feb", "Mar", "Apr", "May", "Jun", "Jul", "Aug", "Sep", "Oct", "Nov", "Dec")
DATES = (re.compile(r"(\w{3}), (\d\d) (\w{3}) (\d{4}) (\d\d):(\d\d):(\d\d) GMT", re.ASCII),
         re.compile(r"(\w+), (\d\d)-(\w{3})-(\d\d) (\d\d):(\d\d):(\d\d) GMT", re.ASCII),
         re.compile(r"(\w{3}) (\w{3}) ([ \d]\d) (\d\d):(\d\d):(\d\d) (\d{4})", re.ASCII))


def seconds_of(day, month, year, times, weekday):
    """Seconds since 1970 of a real date from 1970 to 9999 on this day of the week, or None."""
    try:
        date = datetime.datetime(int(year), MONTHS.index(month) + 1, int(day), *map(int, times))
    except ValueError:
        return None
    if date.year < 1970 or weekday != date.weekday():
        return None
    return (date - datetime.datetime(1970, 1, 1)) // datetime.timedelta(seconds=1)


def date_of(value):
    """The seconds of a date in one of the three forms of RFC 9110, section 5.6.7, or None."""
    if value is None or any(b > 127 for b in value):
        return None
    text = value.decode().strip()
    form = next((n for n, date in enumerate(DATES) if date.fullmatch(text)), None)
    if form is None:
        return None
    cells = DATES[form].fullmatch(text).groups()
    days = LONG_DAYS if form == 1 else DAYS
    weekday = days.index(cells[0]) if cells[0] in days else None
    if form == 2:
        return seconds_of(cells[2], cells[1], cells[6], cells[3:6], weekday)
    year = int(cells[3]) if form == 0 else int(cells[3]) + (2000 if int(cells[3]) < 70 else 1900)
    return seconds_of(cells[1], cells[2], year, cells[4:7], weekday)


def date_text(seconds):
    date = datetime.datetime(1970, 1, 1) + datetime.timedelta(seconds=seconds)
    return (f"{DAYS[date.weekday()]}, {date.day:02} {MONTHS[date.month - 1]} {date.year:04} "
            f"{date.hour:02}:{date.minute:02}:{date.second:02} GMT")


# ---- what stands there, as conditions see it

class Stood:
    """The metadata of a store: kind, number, length and time, None where the time is none that can be told."""

    def __init__(self, meta):
        self.kind, self.number, self.length = meta.kind, meta.number, meta.length
        known = meta.time is not None and 0 <= meta.time // SECOND <= LAST_SECOND
        self.time = meta.time if known else None
        self.is_dir, self.is_file = meta.kind == "dir", meta.kind == "file"

    @property
    def seconds(self):
        return None if self.time is None else self.time // SECOND

    @property
    def tag(self):
        """The text of its entity tag, or None."""
        if self.time is None or self.number is None:
            return None
        cells = [self.number] + ([self.length] if self.is_file else []) + [self.time // 1000]
        return "-".join(f"{cell:x}" for cell in cells).encode()


class Empty:
    """The metadata of a file that a client of macOS looks for."""
    kind, number, length, time = "file", None, 0, 959_652_000 * SECOND


def equals_strongly(asked, tag):
    return tag is not None and not asked[0] and asked[1] == tag


def equals_weakly(asked, tag):
    return tag is not None and asked[1] == tag


def condition(method, fields, stood):
    """RFC 9110, section 13.2.2: None, 304 or 412, over what stands there or None."""
    tag = None if stood is None else stood.tag
    seconds = None if stood is None else stood.seconds
    match, unmodified = read_tags(fields, "if-match"), date_of(fields.first("if-unmodified-since"))
    if match is not None:
        holds = stood is not None if match == "*" else any(equals_strongly(asked, tag) for asked in match)
        if not holds:
            return 412
    elif unmodified is not None and (seconds is None or seconds > unmodified):
        return 412
    none_match, modified = read_tags(fields, "if-none-match"), date_of(fields.first("if-modified-since"))
    reads = method in READING_METHODS
    if none_match is not None:
        matches = stood is not None if none_match == "*" else any(equals_weakly(asked, tag) for asked in none_match)
        if matches:
            return 304 if reads else 412
    elif modified is not None and reads and seconds is not None and seconds <= modified:
        return 304
    return None


def read_tags(fields, name):
    values = fields.all(name)
    return tags_of(b", ".join(values)) if values else None


def ranges_are_heard(fields, stood):
    """Whether If-Range lets ranges count."""
    value = fields.first("if-range")
    if value is None:
        return True
    tag = tag_of(value)
    if tag is not None:
        return equals_strongly(tag, stood.tag)
    date = date_of(value)
    return date is not None and stood.seconds == date


# ---- ranges, RFC 9110, sections 14.1.1 and 14.1.2

MEMBER = re.compile(rb"([0-9]+)-([0-9]*)|-([0-9]+)")
# Its numbers have no bound.
sys.set_int_max_str_digits(0)


def slice_of(found, length):
    """The slice of a member: (start, count), or None where it isn't satisfiable."""
    if found[3] is not None:
        start = max(0, length - int(found[3]))
        return (start, length - start) if int(found[3]) > 0 else None
    start = int(found[1])
    last = min(int(found[2]), length - 1) if found[2] else length - 1
    return (start, last - start + 1) if start < length else None


def slices(value, length):
    """`whole`, `unsatisfiable`, or a list of slices."""
    unit, equals, members = (value or b"").partition(b"=")
    if unit.lower() != b"bytes" or not equals:
        return "whole"
    members = [member for member in (text.strip(b" \t") for text in members.split(b",")) if member]
    found = [MEMBER.fullmatch(member) for member in members]
    if not found or None in found or any(f[1] and f[2] and int(f[2]) < int(f[1]) for f in found):
        return "whole"
    parts = [part for part in (slice_of(f, length) for f in found) if part is not None]
    if not parts:
        return "unsatisfiable"
    return "whole" if length == 0 else parts


# ---- bodies and answers

class Body:
    """The parts that a body has left: texts as bytes, slices as [start, count] of an open file."""

    def __init__(self, parts=(), handle=None, place=0, buffer=BUFFER):
        self.parts, self.handle, self.place, self.buffer = list(parts), handle, place, buffer

    def poll(self, disk):
        """The next piece, None at the end, or `broken`."""
        if not self.parts:
            return None
        part = self.parts[0]
        if isinstance(part, bytes):
            self.parts.pop(0)
            return part
        try:
            if self.place != part[0]:
                disk.seek(self.handle, part[0])
                self.place = part[0]
            piece = disk.read(self.handle, min(self.buffer, part[1]))
        except DiskError:
            self.parts = []
            return "broken"
        self.place += len(piece)
        piece = piece or bytes(min(part[1], ZEROS))
        part[0] += len(piece)
        part[1] -= len(piece)
        if part[1] == 0:
            self.parts.pop(0)
        return piece

    def all(self, disk):
        """All that is left, joined, or `broken`."""
        pieces = []
        while (piece := self.poll(disk)) is not None:
            if piece == "broken":
                return piece
            pieces.append(piece)
        return b"".join(pieces)


class Answer:
    """A status, its fields by their names, and its body."""

    def __init__(self, status, fields=None, body=None):
        self.status, self.fields, self.body = status, fields or {}, body or Body()

    def sorted(self):
        pairs = self.fields.items()
        return sorted((name, value.encode() if isinstance(value, str) else value) for name, value in pairs)


def refusal(refused, fields):
    answer = Answer(refused.status, {"content-length": "0"})
    if refused.closes:
        answer.fields["connection"] = "close"
    if refused.status == 404 and "Microsoft" in (fields.text("user-agent") or ""):
        answer.fields.update({"cache-control": "no-store, no-cache, must-revalidate", "pragma": "no-cache",
                              "expires": "0", "vary": "*"})
    return answer


# ---- settings and gates

class Settings:
    NAMES = ("allow", "principal", "hide", "autoindex", "index", "buffer", "redirect")

    def __init__(self):
        self.prefix = ""
        for name in self.NAMES:
            setattr(self, name, None)

    def over(self, new):
        """These settings, with those of `new` in their place that are set. An empty prefix counts as not set."""
        both = Settings()
        both.prefix = new.prefix or self.prefix
        for name in self.NAMES:
            value = getattr(new, name)
            setattr(both, name, getattr(self, name) if value is None else value)
        return both

    def pages_are_permitted(self):
        if self.autoindex is None:
            return self.allow is not None and "PROPFIND" in self.allow
        return self.autoindex


class Request:
    """A method word, a target's path, fields, and the body; its reader may fail behind these bytes."""

    def __init__(self, method, target, fields=None, body=b"", reader_fails=False):
        self.method, self.target, self.fields = method, target, fields or Fields()
        self.body, self.reader_fails = body, reader_fails

    def pieces(self):
        """The body as its reader gives it."""
        return [self.body] if self.body else []


def gates(settings, request, stored=True):
    """The path of a request that passes, or a refusal by the first gate that it doesn't pass."""
    method = request.method
    refuse_if(method not in METHODS, 501, True)
    refuse_if(not stored and method != "OPTIONS", 405, True)
    refuse_if(settings.allow is not None and method not in settings.allow, 405, True)
    try:
        path = path_of(request.target, settings.prefix)
    except ParseError as fault:
        raise Refused(fault.status) from None
    if method not in UNMEASURED:
        refuse_if(len(request.body) > SMALL_BODY, 413)
        refuse_if(request.reader_fails, 500)
    refuse_if(request.body and method not in WITH_BODY, 415)
    refuse_if(request.fields.first("if") is not None, 501, True)
    refuse_if(method in UNBUILT or method == "PUT" and request.fields.first("content-range") is not None, 501, True)
    return path


def answer(store, settings, request):
    """The answer of a store to a request."""
    try:
        path = gates(settings, request, store is not None)
        if request.method == "OPTIONS":
            return options(settings.allow if store is not None else ("OPTIONS",))
        if request.method in READING_METHODS:
            return get(store, settings, request, path)
        return write(store, settings, request, path)
    except Refused as refused:
        return refusal(refused, request.fields)
    except FsError as error:
        return refusal(Refused(STATUSES[error.name]), request.fields)


# ---- GET and HEAD

def get(store, settings, request, path):
    head = request.method == "HEAD"
    if not head and path.names == ("remote.php", "webdav") and path.slash and settings.autoindex is not True:
        return Answer(200, {"content-length": "0", "accept-ranges": "bytes"})
    if store.metadata(path).is_dir:
        if not path.slash:
            to = Path(path.names, True, path.prefix)
            return Answer(302, {"location": to.link(), "content-length": "0"})
        if settings.index is None:
            return page(store, settings, path, head)
        path = path.member(settings.index, False)
    handle = store.open(path, READING)
    stood = store.file_meta(handle)
    refuse_if(not stood.is_file, 405)
    return sent(store, settings, request, path, handle, stood)


def page(store, settings, path, head):
    refuse_if(not settings.pages_are_permitted(), 405, True)
    listing = store.read_dir(path)
    fields = {"content-type": "text/html; charset=utf-8"}
    if head:
        return Answer(200, fields)
    entries = []
    while (entry := listing.next()) is not None:
        if entry != "fault":
            entries.append(entry)
    return Answer(200, fields, Body(page_texts(path, entries)))


def sent(store, settings, request, path, handle, stood):
    """The answer of a file that was opened, from the line on If-Range on."""
    head, fields, status, parts = request.method == "HEAD", file_fields(stood), 200, []
    heard = ranges_are_heard(request.fields, stood)
    unmet, value = condition(request.method, request.fields, stood), request.fields.first("range")
    if unmet is not None:
        status = unmet
    elif heard and value is not None:
        status, parts = ranged(store, handle, slices(value, stood.length))
    if status == 416:
        fields["content-range"] = f"bytes */{stood.length}"
    if len(parts) > 1:
        fields["content-type"] = f"multipart/byteranges; boundary={BOUNDARY}"
        return Answer(status, fields, body_of(settings, handle, several(parts, path, stood, head), parts[0][0]))
    first = parts[0] if parts else [0, stood.length]
    if parts:
        fields["content-range"] = f"bytes {first[0]}-{first[0] + first[1] - 1}/{stood.length}"
    has_body = not head and status in (200, 206)
    fields["content-type"] = path.mime()
    fields["content-length"] = str(first[1] if head or status == 304 or has_body else 0)
    return Answer(status, fields, body_of(settings, handle, [first] if has_body and first[1] else [], first[0]))


def file_fields(stood):
    """The fields of each answer that a file has."""
    fields = {"accept-ranges": "bytes"}
    if stood.seconds is not None:
        fields["last-modified"] = date_text(stood.seconds)
    if stood.tag is not None:
        fields["etag"] = b'"' + stood.tag + b'"'
    return fields


def ranged(store, handle, asked):
    """The status and the slices of a request for ranges. A seek to the first that is refused leaves none."""
    if asked == "whole":
        return 200, []
    if asked == "unsatisfiable" or not store.seek(handle, asked[0][0]):
        return 416, []
    return 206, [list(part) for part in asked]


def body_of(settings, handle, parts, place):
    return Body(parts, handle, place, settings.buffer or BUFFER)


def several(parts, path, stood, head):
    """The parts of a body of several slices. HEAD has none."""
    texts = []
    if head:
        return texts
    for start, count in parts:
        texts.append(f"\n--{BOUNDARY}\nContent-Range: bytes {start}-{start + count - 1}/{stood.length}\n"
                     f"Content-Type: {path.mime()}\n\n".encode())
        texts.append([start, count])
    return texts + [f"\n--{BOUNDARY}--\n".encode()]


# ---- the plain methods

def options(allow):
    methods = [method for method in ANSWERED if allow is None or method in allow]
    return Answer(200, {"dav": "1,3,calendar-access,addressbook", "ms-author-via": "DAV", "content-length": "0",
                        "allow": ",".join(methods)})


def done(stood):
    """201 where nothing stood, else 204."""
    return Answer(201, {"content-length": "0"}) if stood is None else Answer(204)


def found(look, path):
    """What a look finds at a path, None where nothing is there. Another refusal ends the request."""
    try:
        return look(path)
    except FsError as error:
        if error.name == "NotFound":
            return None
        raise


def need_parent(store, path):
    try:
        refuse_if(not store.metadata(path.parent()).is_dir, 409)
    except FsError as error:
        raise Refused(500 if error.name == "GeneralFailure" else 409) from None


def need_met(request, stood):
    refuse_if(condition(request.method, request.fields, stood) is not None, 412)


def write(store, settings, request, path):
    calls = {"PUT": put, "MKCOL": mkcol, "DELETE": delete, "COPY": carry, "MOVE": carry}
    return calls.get(request.method, mkcalendar)(store, settings, request, path)


def put(store, settings, request, path):
    refuse_if(path.slash, 405)
    need_parent(store, path)
    stood = found(store.metadata, path)
    refuse_if(stood is not None and stood.is_dir, 405)
    need_met(request, stood)
    handle = store.open(path, PUTTING)
    for piece in request.pieces():
        store.write(handle, piece)
    refuse_if(request.reader_fails, 500)
    return done(stood)


def mkcol(store, settings, request, path):
    refuse_if(found(store.metadata, path) is not None, 405)
    need_met(request, None)
    need_parent(store, path)
    store.create_dir(path)
    return done(None)


def mkcalendar(store, settings, request, path):
    try:
        store.metadata(path)
    except FsError as error:
        refuse_if(error.name == "GeneralFailure", 500)
    else:
        raise Refused(405, True)
    store.create_dir(path)
    return done(None)


def delete(store, settings, request, path):
    refuse_if(not path.names, 403)
    # What is to be removed is looked at without following a link at its end.
    stood = store.symlink_metadata(path)
    need_met(request, stood)
    remove(store, path, stood.is_dir)
    return Answer(204)


def members(store, path):
    """The names of a directory and whether each is one, in name order. A fault is a refusal."""
    refuse_if(len(path.names) > DEEPEST, 403)
    listing, found_there = store.read_dir(path, follows=False), []
    while (entry := listing.next()) is not None:
        if entry == "fault" or entry[1] is None:
            raise FsError(listing.refusal)
        found_there.append((entry[0], entry[1].is_dir))
    return sorted(found_there, key=lambda member: member[0].encode())


def remove(store, path, is_dir):
    """Removes what stands at a path, a directory's members first."""
    if not is_dir:
        return store.remove_file(path)
    for name, member_is_dir in members(store, path):
        remove(store, path.member(name, member_is_dir), member_is_dir)
    return store.remove_dir(path)


def copy(store, start, end, is_dir, deep):
    """Copies what stands at a path, a directory before its members."""
    if not is_dir:
        return store.copy(start, end)
    store.create_dir(end)
    for name, member_is_dir in members(store, start) if deep else []:
        copy(store, start.member(name, member_is_dir), end.member(name, member_is_dir), member_is_dir, True)
    return None


def destination(request, settings):
    """The path of the field Destination."""
    value = request.fields.first("destination")
    if value is not None and not value.startswith(b"/"):
        uri = uri_of(value)
        value = None if uri is None or uri.scheme is None else uri.path
    refuse_if(value is None, 400)
    try:
        return path_of(value.decode("latin-1"), settings.prefix)
    except ParseError as fault:
        raise Refused(fault.status) from None


def carry(store, settings, request, path):
    """COPY and MOVE."""
    moving, fields = request.method == "MOVE", request.fields
    to = destination(request, settings)
    overwrite, depth = fields.first("overwrite"), fields.first("depth")
    refuse_if(overwrite not in (None, b"T", b"F"), 400)
    refuse_if(depth not in ((None, b"infinity") if moving else (None, b"infinity", b"0")), 400)
    stood = store.metadata(path)
    start, end = store.compared(path.names), store.compared(to.names)
    refuse_if(start[:len(end)] == end or end[:len(start)] == start, 403)
    need_parent(store, to)
    need_met(request, stood)
    there = found(store.symlink_metadata, to)
    refuse_if(there is not None and overwrite == b"F", 412)
    if there is not None:
        remove(store, to, there.is_dir)
    if moving:
        store.rename(path, to)
    else:
        copy(store, path, to, stood.is_dir, depth != b"0")
    return done(there)
