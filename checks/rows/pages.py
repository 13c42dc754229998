"""Index pages: their texts, and a reader that knows no writer."""
import datetime
import re

from entities import minimal, value_of
from texts import decoded, quoted

UNITS = ("KiB", "MiB", "GiB", "TiB", "PiB")


def display_size(size):
    if not 1024 <= size < 2**60:
        return f"{size} B"
    power = max(n for n in range(1, 6) if 1024**n <= size)
    hundredths = (200 * size + 1024**power) // (2 * 1024**power)
    whole, rest = divmod(hundredths, 100)
    fraction = f".{rest:02}".rstrip("0") if rest else ""
    return f"{whole}{fraction} {UNITS[power - 1]}"


def display_path(path):
    names = path.prefix + path.names
    if not names:
        return "/"
    text = '<a href = "/">/</a>'
    for at, name in enumerate(names[:-1]):
        text += f'<a href = "{quoted("/" + "/".join(names[:at + 1]))}">{minimal(name)}</a>/'
    return text + minimal(names[-1])


HEAD = """<!DOCTYPE html>
<html><head>
<meta name="referrer" content="no-referrer" />
<title>Index of TITLE</title>
<style>
table {
border-collapse: separate;
border-spacing: 1.5em 0.25em;
}
h1 {
padding-left: 0.3em;
}
a {
text-decoration: none;
color: blue;
}
.left {
text-align: left;
}
.mono {
font-family: monospace;
}
.mw20 {
min-width: 20em;
}
</style>
</head>
<body>
<h1>Index of HEADING</h1><table>
<tr>
<th class="left mw20">Name</th>
<th class="left">Last modified</th>
<th>Size</th>
</tr>
<tr><th colspan="3"><hr></th></tr>
<tr>
<td><a href="..">Parent Directory</a></td>
<td>&nbsp;</td>
<td class="mono" align="right">[DIR]    </td>
</tr>
"""
END = '<tr><th colspan="3"><hr></th></tr></table></body></html>'


BEFORE_TITLE, BEFORE_HEADING, BEHIND_HEADING = re.split("TITLE|HEADING", HEAD)


def page_head(path):
    return BEFORE_TITLE + minimal(path.link()) + BEFORE_HEADING + display_path(path) + BEHIND_HEADING


def page_date(stood):
    if stood.time is None:
        return ""
    date = datetime.datetime(1970, 1, 1) + datetime.timedelta(seconds=stood.seconds)
    return f"{date.year:04}-{date.month:02}-{date.day:02} {date.hour:02}:{date.minute:02}"


def page_row(path, name, stood):
    member = path.member(name, stood.is_dir)
    size = display_size(stood.length) if stood.is_file else "[DIR]    "
    shown = minimal(name + ("/" if stood.is_dir else ""))
    return (f'<tr><td><a href="{member.link()}">{shown}</a></td><td class="mono">{page_date(stood)}</td>'
            f'<td class="mono" align="right">{size}</td></tr>')


def page_texts(path, entries):
    """The texts of a page: its head, a row for each entry (name and metadata), and its end."""
    shown = [(name, stood) for name, stood in entries if not name.startswith(".") and stood is not None]
    shown.sort(key=lambda e: (not e[1].is_dir, (e[0] + ("/" if e[1].is_dir else "")).encode()))
    rows = [page_row(path, name, stood) for name, stood in shown]
    return [text.encode() for text in [page_head(path)] + rows + [END]]


# ---- reading

LINK = r"(?:[A-Za-z0-9._~/-]|%[0-9A-Fa-f]{2})*"
NAME = r'[^<>"]*'
DATE = r"(?:[0-9]{4}-[0-9]{2}-[0-9]{2} [0-9]{2}:[0-9]{2})?"
SIZE = r"\[DIR\]    |[0-9]+(?:\.[0-9]{1,2})? (?:B|KiB|MiB|GiB|TiB|PiB)"
ROW = re.compile(f'<tr><td><a href="({LINK})">({NAME})</a></td><td class="mono">({DATE})</td>'
                 f'<td class="mono" align="right">({SIZE})</td></tr>')
ANCHOR = re.compile(f'<a href = "({LINK})">({NAME})</a>/')
FIRST_ANCHOR = '<a href = "/">/</a>'


def text_of(data):
    try:
        return data.decode()
    except UnicodeDecodeError:
        return None


def is_heading(text):
    """`/`, or links to all names but the last, and that name."""
    if text == "/":
        return True
    if not text.startswith(FIRST_ANCHOR):
        return False
    at = len(FIRST_ANCHOR)
    while (found := ANCHOR.match(text, at)) is not None:
        if text_of(decoded(found[1])) is None or value_of(found[2]) is None:
            return False
        at = found.end()
    return re.fullmatch(NAME, text[at:]) is not None and value_of(text[at:]) is not None


def rows_of(text):
    """The rows of a text of rows, each with path, name, date and size, or None."""
    rows, at = [], 0
    while at < len(text):
        found = ROW.match(text, at)
        if found is None:
            return None
        link, name, date, size = found.groups()
        row = (text_of(decoded(link)), value_of(name), date, size)
        if None in row:
            return None
        rows.append(row)
        at = found.end()
    return rows


def read_page(text):
    """The rows of a page, or None for what is none."""
    title, middle, rest = text[len(BEFORE_TITLE):].partition(BEFORE_HEADING)
    heading, behind, rows = rest.partition(BEHIND_HEADING)
    if (not text.startswith(BEFORE_TITLE) or not middle or not behind or not rows.endswith(END)
            or "<" in title or value_of(title) is None or not is_heading(heading)):
        return None
    return rows_of(rows[:-len(END)])
