#!/usr/bin/env python3
"""Makes the rows of calendars of the program `report_rows` and the answers that it must print, from the rules for calendar
texts and their filters alone (CALENDARS.md, beside this file), and from nothing that the program does.

    checks/rows/calendar_rows.py [--cases COUNT] [--seed NUMBER] [--check]

The rows of calendar_rows.txt come first, each with an answer that is written there by hand; the model below must give the
same. Then come COUNT random calendars and vCards, each with a filter. They take the place of that part of the program's
stdin and stdout. With --check nothing is written, and the status is 0 where those are the rows that stand. It wants
Python 3 alone.
"""
import argparse
import datetime
import functools
import os
import random
import re
import sys

HERE = os.path.dirname(os.path.abspath(__file__))
PROGRAM = os.path.join(os.path.dirname(os.path.dirname(HERE)), "crates", "report_rows")
BAD = "the request is no report"


# ---- reading

def lines_of(text):
    """Lines end with CRLF or LF."""
    lines = text.split("\n")
    last = lines.pop()
    lines = [line[:-1] if line.endswith("\r") else line for line in lines]
    return lines + [last] if last else lines


def unfolded(text):
    """A line that begins with a blank continues the line before it, which is empty before the first."""
    lines = [""]
    for line in lines_of(text):
        if line[:1] in (" ", "\t"):
            lines[-1] += line[1:]
        else:
            lines.append(line)
    return lines


def capitals(text):
    return "".join(c.upper() if "a" <= c <= "z" else c for c in text)


def value_of(line):
    """What follows the first colon outside quotes, or None."""
    quoted = False
    for i, c in enumerate(line):
        if c == '"':
            quoted = not quoted
        elif c == ":" and not quoted:
            return line[i + 1:]
    return None


def name_of(line):
    return capitals(re.split("[;:]", line, maxsplit=1)[0])


class Component:
    def __init__(self, name):
        self.name = name
        self.properties = []
        self.children = []


@functools.lru_cache(maxsize=4)
def components(text):
    """The top components, or None where the text has no component tree."""
    tops, live = [], []
    for line in unfolded(text):
        value = value_of(line)
        if value is None:
            continue
        name = name_of(line)
        said = capitals(value.strip(" \t\n\r\f"))
        if name == "BEGIN":
            if len(live) == 16:
                return None
            live.append(Component(said))
        elif name == "END":
            if not live or live[-1].name != said:
                return None
            inner = live.pop()
            (live[-1].children if live else tops).append(inner)
        elif live:
            live[-1].properties.append((name, value))
    return None if live else tops


# ---- moments, durations and overlap

def days_before(year, month, day):
    """Days from 1970-01-01 on, by the calendar's own rule: a year has 365 days, and one more where it is a leap year."""
    def leap(y):
        return y % 4 == 0 and (y % 100 != 0 or y % 400 == 0)
    lengths = [31, 29 if leap(year) else 28, 31, 30, 31, 30, 31, 31, 30, 31, 30, 31]
    if not 1 <= month <= 12 or not 1 <= day <= lengths[month - 1]:
        return None
    before = 365 * year + (year + 3) // 4 - (year + 99) // 100 + (year + 399) // 400
    return before + sum(lengths[:month - 1]) + day - 1 - 719528


def moment(text):
    """Seconds since 1970-01-01 and whether it is a day, or None."""
    found = re.fullmatch("([0-9]{4})([0-9]{2})([0-9]{2})(?:T([0-9]{2})([0-9]{2})([0-9]{2})Z?)?", text)
    if not found or text.endswith("\n"):
        return None
    days = days_before(int(found[1]), int(found[2]), int(found[3]))
    if days is None:
        return None
    if found[4] is None:
        return days * 86400, True
    hour, minute, second = int(found[4]), int(found[5]), int(found[6])
    if hour > 23 or minute > 59 or second > 60:
        return None
    return days * 86400 + hour * 3600 + minute * 60 + min(second, 59), False


def duration(text):
    found = re.fullmatch("\\+?P(?:([0-9]{1,9})W|(?:([0-9]{1,9})D)?"
                         "(T(?:([0-9]{1,9})H)?(?:([0-9]{1,9})M)?(?:([0-9]{1,9})S)?)?)", text)
    if not found or text.endswith("\n"):
        return None
    clock = [found[4], found[5], found[6]]
    if all(number is None for number in [found[1], found[2]] + clock):
        return None
    if found[3] is not None and all(number is None for number in clock):
        return None
    units = zip([found[1], found[2]] + clock, (604800, 86400, 3600, 60, 1))
    return sum(int(number) * each for number, each in units if number is not None)


def first(component, name):
    return next((value for n, value in component.properties if n == name), None)


def readable(text, read):
    return None if text is None else read(text)


def overlaps(component, start, end):
    """Bounds are seconds, or None."""
    low = float("-inf") if start is None else start
    high = float("inf") if end is None else end
    begins = readable(first(component, "DTSTART"), moment)
    until = readable(first(component, "DTEND"), moment)
    lasts = readable(first(component, "DURATION"), duration)
    if begins is None:
        return component.name != "VEVENT"
    at, is_day = begins
    if until is not None:
        return low < until[0] and high > at
    if lasts is not None and lasts > 0:
        return low < at + lasts and high > at
    if lasts == 0 or not is_day:
        return low <= at and high > at
    return low < at + 86400 and high > at


# ---- requests: an element is (name, attributes, children), a text a string

def named(element, name):
    return [child for child in element[2] if not isinstance(child, str) and child[0] == name]


def texts(element):
    return [child for child in element[2] if isinstance(child, str)]


class BadRequest(Exception):
    pass


def last(items):
    return items[-1] if items else None


def text_match(element):
    if element is None:
        return None
    text = (texts(element) + [""])[0]
    return element[1].get("match-type"), text, element[1].get("negate-condition") == "yes"


def time_range(element):
    """The last range; each must be readable."""
    ranges = [(child[1].get("start"), child[1].get("end")) for child in named(element, "time-range")]
    for bound in (bound for both in ranges for bound in both):
        if bound is not None and moment(bound) is None:
            raise BadRequest
    if not ranges:
        return None
    return tuple(None if bound is None else moment(bound)[0] for bound in ranges[-1])


def property_filter(element, with_ranges):
    if "name" not in element[1]:
        raise BadRequest
    for child in named(element, "param-filter") if not with_ranges else []:
        if "name" not in child[1]:
            raise BadRequest
    return {"name": element[1]["name"], "absent": bool(named(element, "is-not-defined")),
            "range": time_range(element) if with_ranges else None,
            "text": text_match(last(named(element, "text-match")))}


def component_filter(element):
    if "name" not in element[1]:
        raise BadRequest
    return {"name": element[1]["name"], "absent": bool(named(element, "is-not-defined")), "range": time_range(element),
            "properties": [property_filter(child, True) for child in named(element, "prop-filter")],
            "filters": [component_filter(child) for child in named(element, "comp-filter")]}


def kept(root, name, read):
    """The last filter of the query, of which each must be right."""
    return last([read(child) for outer in named(root, "filter") for child in named(outer, name)])


# ---- matching

def same_name(one, other):
    return capitals(one) == capitals(other)


def compare(kind, value, part):
    if kind == "equals":
        return value == part
    if kind == "starts-with":
        return value.startswith(part)
    if kind == "ends-with":
        return value.endswith(part)
    return part in value


def text_meets(asked, value):
    kind, part, negated = asked
    return compare(kind, value.casefold(), part.casefold()) != negated


def moment_meets(asked, value):
    at = moment(value)
    return at is not None and (asked[0] is None or asked[0] <= at[0]) and (asked[1] is None or at[0] < asked[1])


def property_meets(asked, properties):
    values = [value for name, value in properties if same_name(name, asked["name"])]
    if asked["absent"]:
        return not values
    return any((asked["range"] is None or moment_meets(asked["range"], value))
               and (asked["text"] is None or text_meets(asked["text"], value)) for value in values)


def component_meets(asked, found):
    of_name = [component for component in found if same_name(component.name, asked["name"])]
    if asked["absent"]:
        return not of_name
    return any((asked["range"] is None or overlaps(component, *asked["range"]))
               and all(property_meets(inner, component.properties) for inner in asked["properties"])
               and all(component_meets(inner, component.children) for inner in asked["filters"])
               for component in of_name)


def calendar_meets(asked, text):
    if asked is None or asked["name"] == "":
        return True
    found = components(text)
    return found is not None and component_meets(asked, found)


def card_meets(asked, text):
    if asked is None:
        return True
    if asked["absent"]:
        return capitals(asked["name"]) + ":" not in text
    if asked["text"] is None:
        return True
    kind, part, negated = asked["text"]
    folded, part = text.casefold(), part.casefold()
    if kind in ("equals", "starts-with", "ends-with"):
        values = [line.split(":", 1)[1] for line in lines_of(folded) if ":" in line]
        return any(compare(kind, value, part) for value in values) != negated
    return (part in folded) != negated


# ---- rows of words

ESCAPES = {"n": "\n", "r": "\r", "t": "\t", "_": " "}


def unescaped(word):
    return re.sub("\\\\(.)", lambda found: ESCAPES.get(found[1], found[1]), word)


def escaped(text):
    for plain, word in (("\\", "\\\\"), ("\n", "\\n"), ("\r", "\\r"), ("\t", "\\t"), (" ", "\\_")):
        text = text.replace(plain, word)
    return text


def element_of(words):
    """The first tree of these words."""
    open_elements = [("", {}, [])]
    times = 1
    for word in words:
        cells = word.split("|")
        if cells[0] == "x":
            times = int(cells[1])
            continue
        for _ in range(times):
            if cells[0] == "e":
                attributes = {}
                for pair in cells[2:]:
                    attributes[pair.split("=")[0]] = unescaped(pair.split("=")[1])
                element = (cells[1], attributes, [])
                open_elements[-1][2].append(element)
                open_elements.append(element)
            elif cells[0] == "t":
                open_elements[-1][2].append(unescaped(cells[1]) if len(cells) > 1 else "")
            elif cells[0] == "/":
                open_elements.pop()
        times = 1
    return next(child for child in open_elements[0][2] if not isinstance(child, str))


def words_of(element):
    words = ["e|" + element[0] + "".join("|%s=%s" % (name, escaped(value)) for name, value in element[1].items())]
    for child in element[2]:
        words += ["t|" + escaped(child)] if isinstance(child, str) else words_of(child)
    return words + ["/"]


def tree_words(found):
    words = []
    for component in found:
        words.append("b|" + escaped(component.name))
        words += ["p|%s|%s" % (escaped(name), escaped(value)) for name, value in component.properties]
        words += tree_words(component.children) + ["/"]
    return words


def count(found):
    return sum(1 + count(component.children) for component in found)


def whether(holds):
    return "true" if holds else "false"


def query(root, kind, filter_name, read, meets, text):
    try:
        if root[0] == kind + "-query":
            return whether(meets(kept(root, filter_name, read), text))
        return "no query"
    except BadRequest:
        return BAD


def answer(text, row):
    words = row.split(" ")
    argument = unescaped(words[1]) if len(words) > 1 else ""
    if words[0] == "moment":
        found = moment(argument)
        return "none" if found is None else "%d %s" % (found[0], "day" if found[1] else "time")
    if words[0] == "duration":
        found = duration(argument)
        return "none" if found is None else str(found)
    if words[0] == "calendar":
        return query(element_of(words[1:]), "calendar", "comp-filter", component_filter, calendar_meets, text)
    if words[0] == "cards":
        return query(element_of(words[1:]), "addressbook", "prop-filter", lambda e: property_filter(e, False), card_meets,
                     text)
    found = components(text)
    if found is None:
        return "no tree"
    if words[0] == "count":
        return str(count(found))
    if words[0] == "tree":
        return " ".join(["tree"] + tree_words(found))
    start, end = (None if word == "-" else int(word) for word in words[1:3])
    return whether(overlaps(found[0], start, end))


class Model:
    """What is wanted row after row, with the text that the rows before left."""

    def __init__(self):
        self.text = ""

    def wanted(self, row):
        """The answer to a row, or None where it has none."""
        words = row.split(" ")
        if words[0] == "text":
            self.text = unescaped(words[1])
        elif words[0] == "more":
            self.text += int(words[1]) * unescaped(words[2])
        else:
            return answer(self.text, row)
        return None


class Rows:
    """Rows, and the answers to those that have one."""

    def __init__(self):
        self.rows, self.answers, self.model = [], [], Model()

    def add(self, row):
        """The answer of the model, where the row has one."""
        self.rows.append(row)
        line = self.model.wanted(row)
        if line is not None:
            self.answers.append(line)
        return line


def add_written(rows, path):
    """The rows that are written by hand. The status is the number of answers that the model gives otherwise."""
    wrong = 0
    told = None
    with open(path, encoding="utf-8", newline="\n") as file:
        for line in file.read().split("\n"):
            if line.startswith("=> "):
                if told != line[3:].strip() and told != line[3:]:
                    print("%s\n  is to be %s, and the model has %s" % (rows.rows[-1], line[3:], told), file=sys.stderr)
                    wrong += 1
            elif line and not line.startswith("#"):
                told = rows.add(line)
    return wrong


# ---- random calendars and filters

DAYS = ("20240101", "20240102", "20240229", "20230229", "20240301", "2024010", "00000229")
TIMES = ("", "", "T000000Z", "T120000Z", "T120000", "T235960Z", "T130000", "T235961Z", "t120000")
SPANS = ("PT1H", "P1D", "PT0S", "+P1W", "P1DT12H", "-PT1H", "P", "P1DT", "PT13H", "P1234567890D", "P0D", "PT1H1S")
WORDS = ("New Year", "new year", "Year", "Straße", "STRASSE", "a\\,b", "x:y", "", "İ", "20240101", "q;r", "ΣΑΣ")
NAMES = ("DTSTART", "DTSTART", "DTEND", "DURATION", "SUMMARY", "summary", "DUE", "X-A", "x-é")
KINDS = ("VEVENT", "VEVENT", "VEVENT", "VTODO", "vevent", "VALARM", "X-é")
PARAMETERS = ("", "", "", ";VALUE=DATE", ';P="a:b"', ';P="a;b";Q=c', ';P="open')
MATCHES = (None, "equals", "starts-with", "ends-with", "contains", "other")


def a_moment(r):
    return r.choice(DAYS) + r.choice(TIMES)


def a_value(r, name):
    name = name.upper()
    if r.random() < 0.1:
        return r.choice(WORDS)
    if name in ("DTSTART", "DTEND", "DUE"):
        return a_moment(r)
    return r.choice(SPANS) if name == "DURATION" else r.choice(WORDS)


def a_component(r, depth):
    lines = []
    kind = r.choice(KINDS) if depth else "VCALENDAR"
    lines.append(r.choice(("BEGIN:", "BEGIN:", "BEGIN:", "begin: ")) + kind)
    for _ in range(r.randrange(5)):
        name = r.choice(NAMES)
        lines.append(name + r.choice(PARAMETERS) + ":" + a_value(r, name))
    for _ in range(r.randrange(4 - depth) if depth < 3 else 0):
        inner = a_component(r, depth + 1)
        place = r.randrange(1, len(lines) + 1) if r.random() < 0.3 else len(lines)
        lines[place:place] = inner
    if r.random() < 0.05:
        lines.append(r.choice(("no colon", "X", "", "END")))
    if r.random() < 0.99:
        lines.append("END:" + (kind if r.random() < 0.98 else kind.lower() + " "))
    return lines


def folded_lines(r, lines):
    parts = []
    for line in lines:
        while len(line) > 1 and r.random() < 0.15:
            place = r.randrange(1, len(line))
            parts.append(line[:place])
            line = r.choice(" \t") + line[place:]
        parts.append(line)
    return parts


def joined(r, lines):
    ends = r.choice((("\r\n",), ("\n",), ("\r\n", "\n")))
    return "".join(line + r.choice(ends) for line in folded_lines(r, lines))


def a_calendar(r):
    lines = a_component(r, 0)
    if r.random() < 0.1:
        lines += a_component(r, 1)
    if r.random() < 0.03:
        lines = [" " + lines[0]] + lines[1:]
    if r.random() < 0.03:
        del lines[r.randrange(len(lines))]
    if r.random() < 0.02:
        lines = ["BEGIN:X"] * 14 + lines + ["END:X"] * 14
    return joined(r, lines)


def names_in(found):
    return [name for component in found for name in [component.name] + names_in(component.children)]


def edges(component):
    """The moments at which an answer may turn: those in the component, a day later, and as long later as it lasts."""
    found = [moment(value) for _, value in component.properties]
    spans = [duration(value) for _, value in component.properties]
    later = [0, 86400] + [span for span in spans if span is not None and span < 10 ** 7]
    return [at[0] + span for at in found if at and at[0] > 0 for span in later]


def a_bound(r, component):
    at = edges(component) if component else []
    if at and r.random() < 0.7:
        told = datetime.datetime(1970, 1, 1) + datetime.timedelta(seconds=r.choice(at) + r.choice((-1, 0, 0, 1)))
        return told.strftime("%Y%m%dT%H%M%SZ")
    return a_moment(r) if r.random() < 0.02 else r.choice(DAYS[:2]) + r.choice(TIMES[:6])


def a_range(r, component):
    return ("time-range", {name: a_bound(r, component) for name in ("start", "end") if r.random() < 0.6}, [])


def a_match(r, values):
    text = r.choice(values) if values and r.random() < 0.75 else r.choice(WORDS)
    if r.random() < 0.3:
        text = text[:r.randrange(len(text) + 1)]
    if r.random() < 0.3:
        text = text[r.randrange(len(text) + 1):]
    if r.random() < 0.3:
        text = text.swapcase()
    attributes = {"match-type": r.choice(MATCHES), "negate-condition": "yes" if r.random() < 0.25 else None}
    attributes = {name: value for name, value in attributes.items() if value is not None}
    return ("text-match", attributes, [text.replace("|", "")])


def a_property_filter(r, component):
    properties = component.properties if component else []
    name = r.choice(properties)[0] if properties and r.random() < 0.8 else r.choice(NAMES)
    name = name.replace("|", "").replace("=", "")
    children = []
    if r.random() < 0.15:
        children.append(("is-not-defined", {}, []))
    if r.random() < 0.35:
        children.append(a_range(r, component))
    if r.random() < 0.5:
        children.append(a_match(r, [value for n, value in properties if n == capitals(name)]))
    r.shuffle(children)
    return ("prop-filter", {"name": r.choice((name, name.lower()))}, children)


def a_component_filter(r, found, depth):
    """A filter that often fits these components."""
    component = r.choice(found) if found and r.random() < 0.9 else None
    name = component.name if component else r.choice(KINDS)
    if r.random() < 0.2:
        name = name.lower() if r.random() < 0.8 else ""
    children = []
    if r.random() < 0.1:
        children.append(("is-not-defined", {}, []))
    if depth and r.random() < 0.4:
        children.append(a_range(r, component))
    for _ in range(r.choice((0, 0, 1, 1, 2) if depth else (0,))):
        children.append(a_property_filter(r, component))
    for _ in range(r.choice((1, 1, 2) if not depth else (0, 0, 1)) if depth < 3 else 0):
        children.append(a_component_filter(r, component.children if component else [], depth + 1))
    r.shuffle(children)
    return ("comp-filter", {"name": name.replace("|", "").replace("=", "")}, children)


def a_calendar_query(r, text):
    outer = [a_component_filter(r, components(text) or [], 0)]
    if r.random() < 0.05:
        outer.append(a_component_filter(r, components(text) or [], 0))
    return ("calendar-query", {}, [("filter", {}, outer)] if r.random() < 0.98 else [])


def an_event(r):
    """A component that is mostly readable, and a query that asks for a range at its edges, or for one property."""
    kind = r.choice(("VEVENT", "VEVENT", "VTODO"))
    lines = []
    for name, chance in (("DTSTART", 0.95), ("DTEND", 0.35), ("DURATION", 0.5), ("DTSTART", 0.1), ("DUE", 0.3), ("DUE", 0.3)):
        if r.random() < chance:
            value = r.choice(SPANS) if name == "DURATION" else r.choice(("20240229", "20240301")) + r.choice(TIMES[:7])
            lines.append(name + r.choice(PARAMETERS[:5]) + ":" + value)
    text = joined(r, ["BEGIN:VCALENDAR", "BEGIN:" + kind] + lines + ["END:" + kind, "END:VCALENDAR"])
    component = components(text)[0].children[0]
    children = [a_range(r, component)]
    if r.random() < 0.4:
        if r.random() < 0.5:
            children.append(a_match(r, [value for _, value in component.properties]))
        children = [("prop-filter", {"name": r.choice(("DTSTART", "DUE", "due"))}, children)]
    return text, ("calendar-query", {}, [("filter", {}, [("comp-filter", {"name": "VCALENDAR"}, [
        ("comp-filter", {"name": kind}, children)])])])


def a_card(r):
    lines = ["BEGIN:VCARD"]
    for _ in range(r.randrange(1, 6)):
        lines.append(r.choice(("FN", "fn", "X.FN", "NOTE", "TEL;TYPE=x", "x")) + r.choice((":", ":", ":", "")) + r.choice(WORDS))
    return joined(r, lines + ["END:VCARD"])


def a_card_query(r, text):
    children = []
    if r.random() < 0.3:
        children.append(("is-not-defined", {}, []))
    if r.random() < 0.9:
        children.append(a_match(r, [line.split(":", 1)[-1] for line in lines_of(text)]))
    name = r.choice(("FN", "fn", "N", "TEL", "note", "x"))
    return ("addressbook-query", {}, [("filter", {}, [("prop-filter", {"name": name}, children)])])


def a_row(r, text, is_card):
    """A query, and in half of the cases one of six that matches, so that there are as many of both answers."""
    is_any = r.random() < 0.5
    for _ in range(6):
        root = a_card_query(r, text) if is_card else a_calendar_query(r, text)
        row = " ".join(["cards" if is_card else "calendar"] + words_of(root))
        if is_any or answer(text, row) == "true":
            break
    return row


def add_random(rows, cases, seed):
    for number in range(seed, seed + cases):
        r = random.Random(number)
        if number % 5 in (2, 3):
            text, root = an_event(r)
            rows.add("text " + escaped(text))
            rows.add(" ".join(["calendar"] + words_of(root)))
            continue
        is_card = number % 5 == 4
        text = a_card(r) if is_card else a_calendar(r)
        rows.add("text " + escaped(text))
        if not is_card and number % 4 == 0:
            rows.add("tree")
        rows.add(a_row(r, text, is_card))


PART = "# calendars\n"


def with_part(text, lines):
    """A file of the program with these lines in its part of calendars, which ends where the next one begins."""
    front, part = text.split(PART)
    behind = part.find("\n# ") + 1
    return front + PART + "".join(line + "\n" for line in lines) + (part[behind:] if behind else "")


def main():
    parser = argparse.ArgumentParser(description=__doc__, formatter_class=argparse.RawDescriptionHelpFormatter)
    parser.add_argument("--cases", type=int, default=1000)
    parser.add_argument("--seed", type=int, default=1)
    parser.add_argument("--check", action="store_true")
    asked = parser.parse_args()
    rows = Rows()
    wrong = add_written(rows, os.path.join(HERE, "calendar_rows.txt"))
    written = len(rows.answers)
    add_random(rows, asked.cases, asked.seed)
    tail = rows.answers[written:]
    print("%d rows, %d answers by hand; of the random ones %s" % (
        len(rows.rows), written, {told: tail.count(told) for told in ("true", "false", BAD, "no tree")}), file=sys.stderr)
    for name, lines in (("stdin", rows.rows), ("stdout", rows.answers)):
        path = os.path.join(PROGRAM, name)
        with open(path, encoding="utf-8", newline="\n") as file:
            stands = file.read()
        made = with_part(stands, lines)
        wrong += asked.check and stands != made
        if not asked.check:
            with open(path, "w", encoding="utf-8", newline="\n") as file:
                file.write(made)
    return 1 if wrong else 0


if __name__ == "__main__":
    sys.exit(main())
