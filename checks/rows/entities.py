"""Texts with entities: the grammar of what is decoded, and both encodings (HTML 4.01, section 24)."""
import html.entities

# The 252 names of HTML 4.01.
NAMED = {name: chr(code) for name, code in html.entities.name2codepoint.items()}
SIGNS = {'"': "&quot;", "&": "&amp;", "'": "&#x27;", "<": "&lt;", ">": "&gt;"}
GREATEST = 2**32 - 1


class Fault(Exception):
    """What a text that isn't in the grammar is refused with, and the number of characters before it."""

    def __init__(self, kind, position):
        super().__init__(kind, position)
        self.kind, self.position = kind, position


def minimal(text):
    return "".join(SIGNS.get(c, c) for c in text)


def attribute(text):
    return "".join(SIGNS.get(c) or (c if ord(c) > 255 or ord(c) < 128 and c.isalnum() else f"&#x{ord(c):02X};")
                   for c in text)


def number_of(text, at, start):
    """The character of a number behind `&#`, and the place behind its `;`."""
    base, digits = (16, "0123456789abcdefABCDEF") if text[at:at + 1] == "x" else (10, "0123456789")
    at += base == 16
    value, first = 0, at
    while True:
        if at == len(text):
            raise Fault("PrematureEnd", start)
        if text[at] == ";" and at > first:
            break
        if text[at] not in digits:
            raise Fault("MalformedNumEscape", start)
        value, at = value * base + int(text[at], 16), at + 1
    if value > GREATEST:
        raise Fault("MalformedNumEscape", start)
    if value > 0x10FFFF or 0xD800 <= value <= 0xDFFF:
        raise Fault("InvalidCharacter", start)
    return chr(value), at + 1


def entity_of(text, start):
    """The character of the entity that begins at a place, and the place behind it."""
    at = start + 1
    if at == len(text):
        raise Fault("PrematureEnd", start)
    if text[at] == "#":
        return number_of(text, at + 1, start)
    end = text.find(";", at)
    if end < 0:
        raise Fault("PrematureEnd", start)
    if text[at:end] not in NAMED:
        raise Fault("UnknownEntity", start)
    return NAMED[text[at:end]], end + 1


def decoded_front(text):
    """The value of the longest list of whole items at the front of a text, and the fault behind it or None."""
    value, at = "", 0
    while at < len(text):
        if text[at] != "&":
            value, at = value + text[at], at + 1
            continue
        try:
            char, at = entity_of(text, at)
        except Fault as fault:
            return value, fault
        value += char
    return value, None


def value_of(text):
    """The value of a text of the grammar, or None."""
    value, fault = decoded_front(text)
    return value if fault is None else None
