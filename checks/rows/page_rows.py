"""The wanted rows of `page_rows`: sizes, headings, and pages that are written and read."""
from disk import SECOND, Meta
from model import ParseError, Stood, is_plain, path_of
from pages import display_path, display_size, page_texts, read_page
from texts import decoded, number, print_wanted, spelt

KINDS = {"d": "dir", "l": "link"}


def text_of(cell):
    try:
        return decoded(cell).decode()
    except UnicodeDecodeError:
        return ""


def cell_of(text):
    return spelt(text.encode() if isinstance(text, str) else text, b"% ;")


def read(text):
    rows = read_page(text)
    return "none" if rows is None else "=" + ";".join(" ".join(cell_of(cell) for cell in row) for row in rows)


def member_of(cell):
    kind, length, time, name = (cell.split(",", 3) + ["", "", ""])[:4]
    seconds = number(time, -2**63, 2**63 - 1)
    meta = Meta(KINDS.get(kind, "file"), 1, number(length) or 0, None if seconds is None else seconds * SECOND)
    return text_of(name), Stood(meta)


def page(cells, back):
    prefix, path, members = (cells.split(" ", 2) + ["", ""])[:3]
    members = [] if members == "-" else [member_of(cell) for cell in members.split(";")]
    if any(not is_plain(name) for name, _ in members):
        return "no member"
    texts = page_texts(path_under(prefix, path), members)
    return read(b"".join(texts).decode()) if back else " ".join(cell_of(text) for text in texts)


def path_under(prefix, path):
    return path_of(path, "" if prefix == "-" else prefix)


def wanted(row):
    word, _, cell = row.partition(" ")
    try:
        if word == "size":
            return "no number" if number(cell) is None else display_size(number(cell))
        if word == "read":
            return read(text_of(cell))
        if word == "heading":
            return display_path(path_under(*cell.partition(" ")[::2]))
        return page(cell, word == "back") if word in ("page", "back") else row
    except ParseError:
        return "no path"


def wanted_all(rows):
    return [wanted(row) for row in rows]


if __name__ == "__main__":
    print_wanted(wanted_all)
