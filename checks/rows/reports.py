"""Calendar and address book reports: element trees, what they ask, and what is selected (RFC 4791, RFC 6352)."""
from components import ascii_capitals, components, moment, overlaps
from disk import READING
from model import FsError, ParseError, path_of
from texts import number

CALDAV, CARDDAV, DAV = "urn:ietf:params:xml:ns:caldav", "urn:ietf:params:xml:ns:carddav", "DAV:"
LARGEST_RESOURCE = 1_048_576
PIECE = 16_384


class Bad(Exception):
    """The request is no report."""


class FreeBusy(Exception):
    """Free-busy times are not told."""


class Element:
    """An element. Its children are elements, and pairs of a letter (t, c, d or p) and a text."""

    def __init__(self, name, namespace=None, attributes=None, children=()):
        before, colon, behind = name.partition(":")
        self.prefix, self.name = (before, behind) if colon else (None, name)
        self.namespace, self.namespaces = namespace, {}
        self.attributes, self.children = attributes or {}, list(children)

    def elements(self):
        return [child for child in self.children if isinstance(child, Element)]

    def texts(self):
        return [text for letter, text in (c for c in self.children if not isinstance(c, Element)) if letter == "t"]

    def named(self, name):
        return [child for child in self.elements() if child.name == name]


def kept(name, namespace, attributes=None, children=()):
    """An element whose name is kept as it is written, prefix included."""
    element = Element("", namespace, attributes, children)
    element.prefix, element.name = None, name
    return element


def component_set(kinds):
    comps = [kept("C:comp", CALDAV, {"name": kind}) for kind in kinds]
    return kept("C:supported-calendar-component-set", CALDAV, {}, comps)


def calendar_data():
    data = kept("C:calendar-data", CALDAV, {"content-type": "text/calendar", "version": "2.0"})
    return kept("C:supported-calendar-data", CALDAV, {}, [data])


def address_data():
    types = [kept("CARD:address-data-type", CARDDAV, {"content-type": "text/vcard", "version": version})
             for version in ("3.0", "4.0")]
    return kept("CARD:supported-address-data", CARDDAV, {}, types)


def home_set(name, namespace, address):
    return kept(name, namespace, {}, [kept("D:href", DAV, {}, [("t", address)])])


def resource_type(name):
    return [kept("D:collection", DAV), kept(name, CALDAV)]


# ---- parsing

class Filter:
    """A filter of a component, a property or a parameter."""

    def __init__(self, name):
        self.name, self.absent, self.range, self.match = name, False, None, None
        self.properties, self.components, self.parameters = [], [], []


class Match:
    def __init__(self, element):
        texts = element.texts()
        self.text = texts[0] if texts else ""
        self.collation, self.kind = element.attributes.get("collation"), element.attributes.get("match-type")
        self.negated = element.attributes.get("negate-condition") == "yes"


def range_of(element):
    return element.attributes.get("start"), element.attributes.get("end")


def judged_range(element):
    """The range of a filter, whose bounds must be moments."""
    asked = range_of(element)
    if any(bound is not None and moment(bound) is None for bound in asked):
        raise Bad
    return asked


# What each kind of filter has beside `is-not-defined`.
HAS = {"component": ("time-range", "prop-filter", "comp-filter"), "property": ("time-range", "text-match"),
       "card": ("text-match", "param-filter"), "parameter": ("text-match",)}


def filter_of(element, kind):
    if "name" not in element.attributes:
        raise Bad
    made = Filter(element.attributes["name"])
    for child in element.elements():
        if child.name == "is-not-defined":
            made.absent = True
        elif child.name not in HAS[kind]:
            continue
        elif child.name == "time-range":
            made.range = judged_range(child)
        elif child.name == "text-match":
            made.match = Match(child)
        elif child.name == "prop-filter":
            made.properties.append(filter_of(child, "property"))
        elif child.name == "comp-filter":
            made.components.append(filter_of(child, "component"))
        else:
            made.parameters.append(filter_of(child, "parameter"))
    return made


class Query:
    """A query, links, or the range of a free-busy query."""

    def __init__(self, kind):
        self.kind, self.filter, self.names, self.limit, self.links, self.range = kind, None, [], None, [], None


def parsed(root, cards):
    if root.name == ("addressbook-query" if cards else "calendar-query"):
        return query_of(root, cards)
    if root.name == ("addressbook-multiget" if cards else "calendar-multiget"):
        made = Query("links")
        made.links = [text for href in root.named("href") for text in href.texts()]
        return made
    if not cards and root.name == "free-busy-query" and root.named("time-range"):
        made = Query("busy")
        made.range = range_of(root.named("time-range")[0])
        return made
    raise Bad


def query_of(root, cards):
    made, name = Query("query"), "prop-filter" if cards else "comp-filter"
    for child in root.elements():
        if child.name == "filter":
            for inner in child.named(name):
                made.filter = filter_of(inner, "card" if cards else "component")
        elif child.name == "prop":
            made.names += [inner.name for inner in child.elements()]
        elif child.name == "limit" and cards:
            for inner in child.named("nresults"):
                made.limit = number(inner.texts()[0], 0, 2**32 - 1) if inner.texts() else made.limit
    return made


# ---- texts

WHITE = " \t\n\r\x0c"


def lines_of(text):
    lines = text.split("\n")
    if lines[-1] == "":
        lines.pop()
    return [line[:-1] if line.endswith("\r") else line for line in lines]


def is_data(data, kind):
    """Whether bytes begin and, but for ASCII white space, end as data of a kind."""
    return (data.startswith(b"BEGIN:" + kind)
            and data.rstrip(WHITE.encode()).endswith(b"END:" + kind))


def calendar_uid(text):
    for line in (line.strip() for line in lines_of(text)):
        if line.startswith("UID:"):
            return line[4:]
        if line.startswith("UID;") and ":" in line:
            return line.partition(":")[2]
    return None


def vcard_value(text, name):
    for line in (line.strip() for line in lines_of(text)):
        before, colon, rest = line.partition(":")
        before = before.partition(";")[0]
        before = before.partition(".")[2] if "." in before else before
        if colon and before.upper() == name:
            return rest
    return None


# ---- what a filter matches

def folded(text):
    return text.casefold()


def bounds(asked):
    return [None if bound is None else moment(bound)[0] for bound in asked]


def text_matches(match, text):
    """Whether a value meets a text match. Both are folded."""
    value, searched = folded(text), folded(match.text)
    tests = {"equals": value == searched, "starts-with": value.startswith(searched),
             "ends-with": value.endswith(searched)}
    return tests.get(match.kind, searched in value) != match.negated


def property_matches(asked, component):
    values = component.values(ascii_capitals(asked.name))
    if asked.absent:
        return not values
    return any((asked.range is None or is_within(value, asked.range))
               and (asked.match is None or text_matches(asked.match, value)) for value in values)


def is_within(value, asked):
    found, (start, end) = moment(value), bounds(asked)
    return found is not None and (start is None or start <= found[0]) and (end is None or found[0] < end)


def component_matches(asked, found):
    """Whether a filter matches among components."""
    named = [component for component in found if component.name == ascii_capitals(asked.name)]
    if asked.absent:
        return not named
    return any((asked.range is None or overlaps(component, *bounds(asked.range)))
               and all(property_matches(inner, component) for inner in asked.properties)
               and all(component_matches(inner, component.children) for inner in asked.components)
               for component in named)


def calendar_matches(asked, text):
    if asked.filter is None or asked.filter.name == "":
        return True
    found = components(text)
    return found is not None and component_matches(asked.filter, found)


def card_text_matches(match, text):
    """A text match over a whole vCard: on some line the part behind the first colon, or anywhere."""
    whole, searched = folded(text), folded(match.text)
    values = [line.partition(":")[2] for line in lines_of(whole) if ":" in line]
    tests = {"equals": lambda: searched in values,
             "starts-with": lambda: any(value.startswith(searched) for value in values),
             "ends-with": lambda: any(value.endswith(searched) for value in values)}
    return tests.get(match.kind, lambda: searched in whole)() != match.negated


def card_matches(asked, text):
    if asked.filter is None:
        return True
    if asked.filter.absent:
        return ascii_capitals(asked.filter.name) + ":" not in text
    return asked.filter.match is None or card_text_matches(asked.filter.match, text)


class Record:
    def __init__(self, path, tag, text):
        self.path, self.tag, self.text = path, tag, text


def resource(store, path):
    """The tag and the bytes of a resource, read to its length. None where it can't be opened or read."""
    try:
        handle = store.open(path, READING)
    except FsError:
        return None
    stood = store.file_meta(handle)
    data = b""
    try:
        while len(data) < stood.length:
            piece = store.asks(store.disk.read, handle, min(PIECE, stood.length - len(data)))
            if not piece:
                break
            data += piece
    except FsError:
        return None
    return (stood.tag or b"").decode(), data


def record_of(store, path, cards):
    """The record of a path, or None where it is no such data."""
    read = resource(store, path)
    if read is None or not is_data(read[1], b"VCARD" if cards else b"VCALENDAR"):
        return None
    return Record(path, read[0], read[1].decode(errors="replace"))


def selected(store, root, path, prefix, cards):
    """The records of a report, and the links that are missing."""
    asked = parsed(root, cards)
    if asked.kind == "busy":
        raise FreeBusy
    if asked.kind == "links":
        return linked(store, asked.links, prefix, cards)
    return queried(store, asked, path, cards), []


def linked(store, links, prefix, cards):
    records, missing = [], []
    for link in links:
        try:
            record = record_of(store, path_of(link, prefix), cards)
        except (ParseError, FsError):
            record = None
        if record is None:
            missing.append(link)
        else:
            records.append(record)
    return records, missing


def queried(store, asked, path, cards):
    listing, names, records = store.read_dir(path), [], []
    while (entry := listing.next()) is not None:
        if entry != "fault" and entry[1] is not None:
            names.append(entry[0])
    for name in sorted(names, key=str.encode):
        if cards and asked.limit is not None and len(records) >= asked.limit:
            break
        record = record_of(store, path.member(name, False), cards)
        if record is not None and (card_matches if cards else calendar_matches)(asked, record.text):
            records.append(record)
    return records
