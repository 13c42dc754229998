"""The wanted rows of `handle_rows`: bodies, whose first word tells, and requests to a handler over a disk in memory, by each
form of `handle`."""
import body_rows
from disk import SECOND, Disk
from model import Answer, Body, Fields, Refused, Request, Settings, answer, is_plain, prefix_fits, refusal
from store import Store
from targets import target_path
from texts import number, print_wanted, spelt

PIECE = 30_000


def disk_with(file_number, seconds, data):
    disk = Disk()
    disk.add(("f.txt",), file_number, seconds * SECOND, data)
    return disk


def own_disk():
    disk = disk_with(26, 1, b"0123456789")
    disk.add(("d",), 27, 2 * SECOND)
    return disk


def given_disk(words):
    disk = disk_with(36, 3, b"abcde")
    disk.fails.update(int(w[1:]) for w in words if w.startswith("!"))
    return disk


def settings_of(words):
    """The settings that words `NAME=VALUE` set. A prefix or an index file that can't be is passed over."""
    settings = Settings()
    for text in words:
        name, _, value = text.partition("=")
        if name == "prefix" and prefix_fits(value):
            settings.prefix = value
        elif name == "methods":
            settings.allow = value.split(",")
        elif name == "principal" or name == "index" and is_plain(value):
            setattr(settings, name, value)
        elif name == "buffer":
            settings.buffer = number(value) or 0
        elif name in ("hide", "autoindex", "redirect"):
            setattr(settings, name, value == "yes")
    return settings


class Read(Request):
    """A request whose body comes in pieces, from a reader that may fail at a call."""

    def __init__(self, words):
        pairs = [text.partition(":") for text in words[2:] if ":" in text]
        super().__init__(words[0], target_path(words[1]), Fields((name, value.encode()) for name, _, value in pairs))
        self.left = self.fails_at = 0
        for text in words[2:]:
            if text[:1] == "=" and number(text[1:]) is not None:
                self.left = number(text[1:])
            if text[:1] == "!" and number(text[1:]) is not None:
                self.fails_at = number(text[1:])
        self.given = list(self.read())
        self.reader_fails = self.given[-1:] == [None]
        self.body = b"".join(piece for piece in self.given if piece)

    def read(self):
        """The pieces that the reader gives, and None where it fails."""
        call, left = 1, self.left
        while call != self.fails_at and left:
            yield b"x" * min(left, PIECE)
            left, call = left - min(left, PIECE), call + 1
        if call == self.fails_at:
            yield None

    def pieces(self):
        return [piece for piece in self.given if piece]


def with_given_store(settings, request, words):
    """The answer over a store that the configuration has, whose body is collected before the store ends."""
    disk = given_disk(words)
    reply = answer(Store(disk), settings, request)
    whole = reply.body.all(disk)
    if whole == "broken":
        return refusal(Refused(500), request.fields)
    return Answer(reply.status, reply.fields, Body([whole] if whole else []))


def told(form, store, settings, given, part):
    request = Read(part.split(" "))
    with_config = form.endswith("with")
    if with_config:
        settings = settings.over(settings_of(given))
    if with_config and "store" in given:
        reply = with_given_store(settings, request, given)
    else:
        reply = answer(store, settings, request)
    line = str(reply.status) + "".join(f" {name}={spelt(value)}" for name, value in reply.sorted())
    if store is None:
        return line + (" bytes" if reply.body.parts else " =")
    if part.endswith(" left"):
        return line
    whole = reply.body.all(store.disk)
    return line + " =" + (" broken" if whole == "broken" else spelt(whole))


def merged(old, new):
    settings = settings_of(old.split(" ")).over(settings_of(new.split(" ")))
    line = f"merged prefix={settings.prefix}"
    if settings.allow is not None:
        line += " methods" + "".join("," + m for m in IN_ORDER if m in settings.allow)
    for name in ("principal", "hide", "autoindex", "index", "buffer", "redirect"):
        value = getattr(settings, name)
        if value is not None:
            line += f" {name}={('no', 'yes')[value] if isinstance(value, bool) else value}"
    return line


IN_ORDER = ("HEAD GET PUT PATCH OPTIONS PROPFIND PROPPATCH MKCOL COPY MOVE DELETE LOCK UNLOCK REPORT MKCALENDAR "
            "MKADDRESSBOOK").split(" ")


def wanted(row):
    if row.startswith("#"):
        return row
    if row.split(" ")[0] in body_rows.KINDS:
        return body_rows.wanted(row)
    first, _, parts = row.partition("|")
    form, _, words = first.strip().partition(" ")
    if form == "merge":
        return merged(words, parts.strip())
    words, _, given = words.partition(";")
    store = None if form.startswith("none") else Store(own_disk())
    settings, given = settings_of(words.strip().split(" ")), given.strip().split(" ")
    return " | ".join(told(form, store, settings, given, part.strip()) for part in parts.split("|"))


def wanted_all(rows):
    return [wanted(row) for row in rows]


if __name__ == "__main__":
    print_wanted(wanted_all)
