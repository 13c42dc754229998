"""Texts of rows: the cells that the drivers read, and the bytes that they write.

In a cell each `%XX` is a byte. In a text `N*TEXT` is so many copies, and `^` stands between texts that are joined.
"""
import re
import sys


class Unread(Exception):
    """A row that the driver doesn't understand."""


class Beyond(Exception):
    """A row of which nothing is said that the model could know."""


def print_wanted(wanted_all):
    """Prints what is wanted for the rows on standard input."""
    for line in wanted_all(sys.stdin.read().split("\n")[:-1]):
        print("beyond the model" if line is None else line)


PLAIN = re.compile("[A-Za-z0-9._~/-]")
HEX = re.compile(rb"%([0-9A-Fa-f]{2})")


def decoded(data):
    """Percent-decoding: a `%` without two hexadecimal digits stands for itself."""
    if isinstance(data, str):
        data = data.encode()
    return HEX.sub(lambda found: bytes([int(found[1], 16)]), data)


def bytes_of(cell):
    """The bytes of a text with copies and joints."""
    whole = b""
    for part in cell.split("^"):
        count, star, text = part.partition("*")
        if star and re.fullmatch(r"\+?[0-9]+", count) and int(count) < 2**32:
            whole += decoded(text) * int(count)
        else:
            whole += decoded(part)
    return whole


def spelt(data, marks=b"%|"):
    """Bytes as a row writes them: controls, these marks and what isn't ASCII as `%XX`."""
    return "".join(f"%{b:02X}" if b < 32 or b > 126 or b in marks else chr(b) for b in data)


def spelt_in_runs(data):
    """The same, where a byte that comes ten times or more in a row is written once, with its number of times."""
    line, at = "", 0
    while at < len(data):
        end = at
        while end < len(data) and data[end] == data[at]:
            end += 1
        one = spelt(data[at:at + 1], b"%")
        line += f"{{{end - at}*{one}}}" if end - at >= 10 else one * (end - at)
        at = end
    return line


def quoted(text):
    """A text as a link spells it."""
    return "".join(chr(b) if PLAIN.match(chr(b)) else f"%{b:02X}" for b in text.encode())


def number(word, least=0, most=2**64 - 1):
    """A number of digits, as std reads one of so many bits. What is none is None."""
    if not re.fullmatch(r"\+?[0-9]+" if least == 0 else r"[+-]?[0-9]+", word, re.ASCII):
        return None
    value = int(word)
    return value if least <= value <= most else None


def digits(word):
    """A number of digits. What is none is 0."""
    value = number(word)
    return 0 if value is None else value


def truth(holds):
    return "true" if holds else "false"


def unescaped(cell):
    """The text of a cell with backslashes: `\\n`, `\\r`, `\\t`, and `\\_` for a blank."""
    return re.sub(r"\\(.)", lambda found: {"n": "\n", "r": "\r", "t": "\t", "_": " "}.get(found[1], found[1]), cell,
                  flags=re.S)


def word(words, at):
    return words[at] if at < len(words) else ""
