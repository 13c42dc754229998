"""The wanted rows of elements of `report_rows`: element trees, reports and locks."""
import sys

from model import path_of
from reports import (CALDAV, CARDDAV, LARGEST_RESOURCE, Bad, Element, address_data, calendar_data, calendar_uid,
                     component_set, home_set, is_data, parsed, resource_type, vcard_value)
from texts import number, unescaped, word

sys.setrecursionlimit(1_000_000)
KINDS = ("VEVENT", "VTODO", "VJOURNAL", "VFREEBUSY", "VTIMEZONE")
LEASE_MOST, GREATEST, NANOS = 120, 2**64 - 1, 10**9
ID = "00000000-0000-4000-8000-00000000000a"
LETTERS = ("t", "c", "d", "p")
# The attributes that a printed tree has.
SHOWN = ("content-type", "name", "version")


# ---- trees in words

def cell(text, at):
    return word(text.split("|"), at)


def add(stack, text):
    kind = cell(text, 0)
    if kind == "e":
        pairs = [(pair.split("=") + [""])[:2] for pair in text.split("|")[2:]]
        stack.append(Element(cell(text, 1), None, {name: unescaped(value) for name, value in pairs}))
    elif kind == "/":
        if len(stack) > 1:
            stack[-2].children.append(stack.pop())
    elif kind == "n":
        stack[-1].namespace = unescaped(cell(text, 1))
    elif kind in LETTERS:
        stack[-1].children.append((kind, unescaped(cell(text, 1))))


def trees(words):
    """The trees of words."""
    stack, times = [Element("")], 1
    for text in words:
        if cell(text, 0) == "x":
            times = number(cell(text, 1)) or 1
            continue
        for _ in range(times):
            add(stack, text)
        times = 1
    while len(stack) > 1:
        add(stack, "/")
    return stack[0].elements()


def root(words):
    found = trees(words)
    return found[0] if found else Element("")


def tree_told(element):
    line = " e|" + (element.prefix + ":" if element.prefix is not None else "") + element.name
    line += "".join(f"|{n}={element.attributes[n]}" for n in SHOWN if n in element.attributes)
    if element.namespace is not None:
        line += " n|" + element.namespace
    line += "".join(f" ns|{n}|{element.namespaces[n]}" for n in ("C", "D") if n in element.namespaces)
    for child in element.children:
        line += tree_told(child) if isinstance(child, Element) else f" {child[0]}|{child[1]}"
    return line + " /"


# ---- reports

def maybe(mark, text):
    return mark + ("-" if text is None else text)


def match_told(match):
    if match is None:
        return ""
    return f" {'isnt' if match.negated else 'is'}|{match.text}{maybe('|', match.collation)}{maybe('|', match.kind)}"


def range_told(asked):
    return "" if asked is None else maybe(" within|", asked[0]) + maybe("|", asked[1])


def absent(asked):
    return " absent" if asked.absent else ""


def property_told(asked):
    inner = "".join(f" ({p.name}{absent(p)}{match_told(p.match)} )" for p in asked.parameters)
    return f" [{asked.name}{absent(asked)}{match_told(asked.match)}{range_told(asked.range)}{inner} ]"


def component_told(asked):
    inner = "".join(property_told(p) for p in asked.properties) + "".join(component_told(c) for c in asked.components)
    return f" {{{asked.name}{absent(asked)}{range_told(asked.range)}{inner} }}"


def report_told(element, cards):
    asked = parsed(element, cards)
    if asked.kind == "links":
        return "links" + "".join(" " + link for link in asked.links)
    if asked.kind == "busy":
        return "busy" + range_told(asked.range)
    line = "query" + ("" if asked.filter is None else (property_told if cards else component_told)(asked.filter))
    line += "".join(" ." + name for name in asked.names)
    return line + ("" if asked.limit is None else f" limit|{asked.limit}")


# ---- what is made

def made(words):
    kind, first, second = words[0], word(words, 1), word(words, 2)
    if kind == "component-set":
        return component_set([k if k in KINDS else "VALARM" for k in words[1:]])
    if kind in ("calendar-data", "address-data"):
        return calendar_data() if kind == "calendar-data" else address_data()
    if kind == "calendar-home":
        return home_set("C:calendar-home-set", CALDAV, first + second)
    if kind == "address-home":
        return home_set("CARD:addressbook-home-set", CARDDAV, first + second)
    if kind == "copy":
        return root(words[1:])
    if kind == "text":
        element = root(words[2:])
        element.children = [c for c in element.children if isinstance(c, Element) or c[0] != "t"] + [("t", first)]
    elif kind == "ns":
        element = root(words[3:])
        element.namespaces[first] = second
    elif kind == "push":
        element = root(words[2:])
        element.children.append(Element(first))
    else:
        return None
    return element


TYPES = {"calendar-type": "C:calendar", "inbox-type": "C:schedule-inbox", "outbox-type": "C:schedule-outbox"}


def children(element):
    names = "".join(" " + child.name for child in element.elements())
    return ("yes" if element.elements() else "no") + names * 3


def is_collection(words):
    return "yes" if any(e.name == "calendar" and e.namespace == CALDAV for e in trees(words)) else "no"


def levels(element, inner):
    """How deep it nests along the first child."""
    count = 1
    while inner(element):
        element, count = inner(element)[0], count + 1
    return str(count)


def filter_levels(words):
    asked = parsed(root(words), False)
    return "no query" if asked.kind != "query" else (
        "no filter" if asked.filter is None else levels(asked.filter, lambda f: f.components))


# ---- locks

def lock_told(token, deep, shared, principal, lease, now):
    line = f"{token}{' deep' if deep else ' flat'}{' shared' if shared else ' alone'}"
    line += f" of {principal}" if principal else ""
    if lease is None or lease[0] > LEASE_MOST:
        lease = (LEASE_MOST, 0)
    end = now + lease[0] * NANOS + lease[1]
    return line + f" {lease[0]}s {lease[1]}ns" + (f" to {end}" if end <= GREATEST else "")


def lock(words):
    lease = None if number(word(words, 1)) is None else (number(words[1]), number(word(words, 2)) or 0)
    deep, shared = word(words, 3) == "I", word(words, 4) == "S"
    token = f"opaquetoken:{ID}/{'I' if deep else '0'}/{'S' if shared else 'E'}"
    return lock_told(token, deep, shared, "me", lease, number(word(words, 5)) or 0)


def refresh(words):
    parts = word(words, 1).split("/")
    return lock_told(word(words, 1), word(parts, 1) == "I", word(parts, 2) == "S", None, None, 0)


def report(words):
    link = path_of(words[1]).link()
    return f"at {link} {unescaped(words[2])} {unescaped(words[3])} missing {unescaped(words[4])}"


def yes(holds):
    return "yes" if holds else "no"


def wanted(row):
    words = row.split(" ")
    kind, rest, text = words[0], words[1:], unescaped(word(words, 1))
    calls = {"calendar": lambda: report_told(root(rest), False), "addresses": lambda: report_told(root(rest), True),
             "is-calendar": lambda: yes(is_data(text.encode(), b"VCALENDAR")),
             "is-vcard": lambda: yes(is_data(text.encode(), b"VCARD")),
             "calendar-uid": lambda: maybe("|", calendar_uid(text)),
             "vcard-uid": lambda: maybe("|", vcard_value(text, "UID")),
             "vcard-fn": lambda: maybe("|", vcard_value(text, "FN")),
             "is-collection": lambda: is_collection(rest), "children": lambda: children(root(rest)),
             "attribute": lambda: maybe("|", root(rest[1:]).attributes.get(rest[0])) * 2,
             "copy-levels": lambda: levels(root(rest), Element.elements), "filter-levels": lambda: filter_levels(rest),
             "lock": lambda: lock(words), "refresh": lambda: refresh(words), "report": lambda: report(words),
             "let-go": lambda: "unlock done check done delete done found 0",
             "calendar-defaults": lambda: "|-|-|VEVENT|VTODO|VJOURNAL|VFREEBUSY|%d|-|-" % LARGEST_RESOURCE,
             "address-defaults": lambda: "|-|%d|-" % LARGEST_RESOURCE,
             "parameter": lambda: f" ({word(words, 1)} )", "match": lambda: " is||-|-"}
    try:
        if kind in TYPES:
            return "".join(tree_told(element) for element in resource_type(TYPES[kind]))
        return calls[kind]() if kind in calls else tree_told(made(words))
    except Bad:
        return "the request is no report"
