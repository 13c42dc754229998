"""The wanted rows of `path_rows`: paths, entity tags, dates, methods, statuses and metadata."""
from disk import SECOND, Meta
from model import (METHODS, STATUSES, ParseError, Stood, date_of, equals_strongly, equals_weakly, mime_of, path_of,
                   prefix_fits, tag_of, tags_of)
from targets import uri_of
from texts import decoded, number, print_wanted, spelt, truth

WORDS = ("HEAD GET PUT PATCH OPTIONS PROPFIND PROPPATCH MKCOL COPY MOVE DELETE LOCK UNLOCK REPORT MKCALENDAR "
         "MKADDRESSBOOK").split(" ")
# The names of methods in code.
NAMED = {"PROPFIND": "PropFind", "PROPPATCH": "PropPatch", "MKCOL": "MkCol", "MKCALENDAR": "MkCalendar",
         "MKADDRESSBOOK": "MkAddressbook"}
ERRORS = {"Status": (409, False), "StatusClose": (405, True), "Body": (500, False), "UnknownDavMethod": (501, True)}


def cell_of(data):
    return spelt(data.encode() if isinstance(data, str) else data, b"% |")


def path_told(path):
    name = path.names[-1] if path.names else ""
    return (f"{len(path.names)} ={cell_of(name)} {cell_of(path.with_prefix())} {path.link()} {path.mime()} "
            f"{cell_of(path.parent().with_prefix())}")


def text_of(cell):
    try:
        return decoded(cell).decode()
    except UnicodeDecodeError:
        return ""


def target(prefix, cell):
    uri = uri_of(cell.encode())
    return "none" if uri is None else path_told(path_of(uri.path.decode("latin-1"), prefix))


def child(prefix, text):
    path = path_of(text, prefix)
    path.slash = True
    return f"{cell_of(path.with_prefix())} {path_told(path.member('b', False))}"


def home(text):
    names = path_of(text).names
    within = names[0] if len(names) > 1 else ""
    return f"{truth(within == 'calendars')} {truth(within == 'addressbooks')}"


def long(count, text):
    names = path_of("/" + text * (number(count) or 0)).names
    return f"{len(names)} {len(names[-1].encode()) if names else 0}"


def tag_told(tag):
    return "none" if tag is None else ("weak:" if tag[0] else "strong:") + cell_of(tag[1])


def list_told(value):
    tags = tags_of(value)
    return "none" if tags is None else "any" if tags == "*" else "tags" + "".join(" " + tag_told(t) for t in tags)


def range_told(value):
    tag, date = tag_of(value), date_of(value)
    return tag_told(tag) if tag is not None else "none" if date is None else f"at:{date}"


def equal(one, two):
    one, two = tag_of(one), tag_of(two)
    if one is None or two is None:
        return "none"
    return f"{truth(not two[0] and equals_strongly(one, two[1]))} {truth(equals_weakly(one, two[1]))}"


def status(word):
    code, closes = ERRORS.get(word, (STATUSES.get(word) or ParseError.STATUSES.get(word) or 501, None))
    closes = closes if closes is not None else word not in STATUSES and word not in ParseError.STATUSES
    return f"{code} {truth(closes)}"


def methods(removed, words):
    kept = set(METHODS) if words == "all" else set(words.split(" "))
    return "has" + "".join(" " + word for word in WORDS if word in kept and word != removed)


def meta(kind, cells):
    cells = (cells.split(",") + ["", "", "", ""])[:4]
    time = (number(cells[2], -2**63, 2**63 - 1) or 0) * SECOND + (number(cells[3]) or 0)
    kind = kind if kind in ("file", "dir") else "link"
    stood = Stood(Meta(kind, number(cells[0]) or 0, number(cells[1]) or 0, time))
    text = "unknown" if stood.time is None else f"{stood.time // SECOND}.{stood.time % SECOND}"
    changed = text if stood.time is None else f"{stood.seconds}.0"
    tag = None if stood.tag is None else (False, stood.tag)
    kinds = " ".join(truth(kind == k) for k in ("dir", "file", "link"))
    return f"{stood.length} {text} {text} unknown {changed} {kinds} {truth(stood.is_file)} {tag_told(tag)} {truth(tag)}"


def wanted(row):
    word, second, third = (row.split("|", 2) + ["", ""])[:3]
    calls = {"path": lambda: path_told(path_of(text_of(third), text_of(second))),
             "target": lambda: target(second, third), "child": lambda: child(second, third),
             "home": lambda: home(second), "prefix": lambda: truth(prefix_fits(text_of(second))),
             "long": lambda: long(second, third), "type": lambda: mime_of(decoded(second)),
             "method": lambda: NAMED.get(second, second.capitalize()) if second in METHODS else "none",
             "methods": lambda: methods(second, third), "tag": lambda: tag_told(tag_of(decoded(second))),
             "list": lambda: list_told(decoded(second)), "range": lambda: range_told(decoded(second)),
             "date": lambda: str(date_of(decoded(second)) if date_of(decoded(second)) is not None else "none"),
             "equal": lambda: equal(decoded(second), decoded(third)), "status": lambda: status(second),
             "meta": lambda: meta(second, third)}
    try:
        return calls[word]() if word in calls else word
    except ParseError as fault:
        return str(fault.status)


def wanted_all(rows):
    return [wanted(row) for row in rows]


if __name__ == "__main__":
    print_wanted(wanted_all)
