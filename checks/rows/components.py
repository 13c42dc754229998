"""Calendar texts: their components, moments, and whether one overlaps a range (RFC 5545, section 3.1, and RFC 4791,
sections 9.7 and 9.9). Time zones and recurrence are not looked at."""
import re

MOST_OPEN, DAY = 16, 86_400
MOMENT = re.compile(r"([0-9]{4})([0-9]{2})([0-9]{2})(?:T([0-9]{2})([0-9]{2})([0-9]{2})Z?)?")
NUMBER = "([0-9]{1,9})"
DURATION = re.compile(rf"\+?P(?:{NUMBER}W|(?:{NUMBER}D)?(?:T(?=[0-9])(?:{NUMBER}H)?(?:{NUMBER}M)?(?:{NUMBER}S)?)?)")
UNITS = (7 * DAY, DAY, 3600, 60, 1)
BLANKS = " \t\n\r\x0c"


def ascii_capitals(text):
    return "".join(chr(ord(c) - 32) if "a" <= c <= "z" else c for c in text)


class Component:
    """A component: its name, its properties as pairs of name and value, and its children."""

    def __init__(self, name):
        self.name, self.properties, self.children = name, [], []

    def values(self, name):
        return [value for other, value in self.properties if other == name]


def unfolded(text):
    """The lines of a text. One that begins with a blank continues the line before it."""
    lines = [""]
    for at, line in enumerate(text.split("\n")):
        line = line[:-1] if line.endswith("\r") else line
        if line[:1] in (" ", "\t") and line:
            lines[-1] += line[1:]
        else:
            lines.append(line)
    return lines


def property_of(line):
    """The name and the value of a line, or None where it has no colon outside quotes."""
    quoted = False
    for at, char in enumerate(line):
        quoted = quoted != (char == '"')
        if char == ":" and not quoted:
            return ascii_capitals(re.split("[;:]", line)[0]), line[at + 1:]
    return None


def components(text):
    """The components of a text, or None where it has no tree of them."""
    stack = [Component("")]
    for name, value in filter(None, map(property_of, unfolded(text))):
        if name == "BEGIN":
            stack.append(Component(ascii_capitals(value.strip(BLANKS))))
            stack[-2].children.append(stack[-1])
            if len(stack) > MOST_OPEN + 1:
                return None
        elif name == "END":
            if len(stack) == 1 or stack[-1].name != ascii_capitals(value.strip(BLANKS)):
                return None
            stack.pop()
        elif len(stack) > 1:
            stack[-1].properties.append((name, value))
    return stack[0].children if len(stack) == 1 else None


def days_of(year, month, day):
    """The days since 1970 of a real date of the years 0 to 9999, or None."""
    leap = year % 4 == 0 and (year % 100 != 0 or year % 400 == 0)
    lengths = (31, 28 + leap, 31, 30, 31, 30, 31, 31, 30, 31, 30, 31)
    if not 1 <= month <= 12 or not 1 <= day <= lengths[month - 1]:
        return None
    before = 365 * year + (year + 3) // 4 - (year + 99) // 100 + (year + 399) // 400
    return before + sum(lengths[:month - 1]) + day - 1 - 719_528


def moment(text):
    """The seconds of a moment since 1970, and whether it is a date; or None."""
    found = MOMENT.fullmatch(text)
    if found is None:
        return None
    year, month, day, hour, minute, second = (int(cell or 0) for cell in found.groups())
    days = days_of(year, month, day)
    if days is None or hour > 23 or minute > 59 or second > 60:
        return None
    return days * DAY + hour * 3600 + minute * 60 + min(second, 59), found[4] is None


def duration(text):
    found = DURATION.fullmatch(text)
    if found is None or not any(found.groups()):
        return None
    return sum(int(cell or 0) * unit for cell, unit in zip(found.groups(), UNITS))


def first(component, name, read):
    values = component.values(name)
    return read(values[0]) if values else None


def overlaps(component, start, end):
    """Whether a component overlaps a range whose bounds are seconds or None."""
    begins = first(component, "DTSTART", moment)
    if begins is None:
        return component.name != "VEVENT"
    at, is_date = begins
    ends, lasts = first(component, "DTEND", moment), first(component, "DURATION", duration)
    if end is not None and end <= at:
        return False
    if ends is not None:
        last = ends[0]
    elif lasts:
        last = at + lasts
    elif lasts == 0 or not is_date:
        return start is None or start <= at
    else:
        last = at + DAY
    return start is None or start < last
