#!/usr/bin/env python3
"""Says what a value of the field `range` asks of a file, and compares it with the wanted answers of the rows.

    checks/rows/ranges.py [--write] [--print]

It is written from RFC 9110, sections 14.1.1, 14.1.2 and 14.2, and calls no program. The profile: a value that is outside
the grammar, or has a last place below its first, is ignored; on an empty file a value with a `-N` that isn't `-0` is
ignored too; HEAD is judged as GET is; no limit is set to the number of parts.

The rows are those of the driver `condition_rows` that begin with `slices`, and those of `step_rows` that set files and
then ask for them by GET and HEAD with no other field than `range`, and poll their bodies. With `--print` the rows that
it makes are written, those of `condition_rows` and then those of `step_rows`; each of them must stand among the rows.
With `--write` the wanted answers of all these rows are written anew. The status is 0 where all agree.
"""
import argparse
import os
import re
import sys
from urllib.parse import quote_from_bytes, unquote_to_bytes

CRATES = os.path.join(os.path.dirname(os.path.abspath(__file__)), "..", "..", "crates")
DIGITS = re.compile(rb"[0-9]+")
GREATEST = 2 ** 64 - 1
if hasattr(sys, "set_int_max_str_digits"):
    sys.set_int_max_str_digits(0)


# ---- what a value asks for

def number(digits):
    """The number of one or more digits, of any length; None where it is none."""
    return int(digits) if DIGITS.fullmatch(digits) else None


def members(value):
    """What stands between the commas of a value in bytes; None where the unit isn't that."""
    if value[:6].lower() != b"bytes=":
        return None
    trimmed = [member.strip(b" \t") for member in value[6:].split(b",")]
    return [member for member in trimmed if member]


def places(member):
    """The first place and the last one, or None and a count; a last place that is open is None. None where the member
    isn't in the grammar."""
    first, dash, last = member.partition(b"-")
    if not dash or not (first or last):
        return None
    read = [number(side) if side else None for side in (first, last)]
    if any(side and place is None for side, place in zip((first, last), read)):
        return None
    if None not in read and read[1] < read[0]:
        return None
    return tuple(read)


def slices(value, length):
    """`whole`, `unmet`, or a list of a start and a count for each part."""
    found = members(value)
    if not found:
        return "whole"
    asked = [places(member) for member in found]
    if None in asked:
        return "whole"
    parts = []
    for first, last in asked:
        if first is None:
            if last > 0 and length == 0:
                return "whole"
            if last > 0:
                count = min(last, length)
                parts.append((length - count, count))
        elif first < length:
            end = length - 1 if last is None else min(last, length - 1)
            parts.append((first, end - first + 1))
    return parts or "unmet"


# ---- an answer to a request for a file

class File:
    """A file of which a row says the number, the second of its last change and the bytes."""

    def __init__(self, number, second, content):
        self.content = content
        micros = second * 1_000_000
        self.tag = f'"{number:x}-{len(content):x}-{micros:x}"'
        self.date = f"Thu, 01 Jan 1970 00:00:{second:02} GMT"


def part_heads(parts, length):
    """The parts of a body of several, texts and slices."""
    for start, count in parts:
        yield (f"\n--BOUNDARY\nContent-Range: bytes {start}-{start + count - 1}/{length}\n"
               "Content-Type: text/plain\n\n").encode()
        yield start, count
    yield b"\n--BOUNDARY--\n"


def reply(file, method, value):
    """The status, the fields and the parts of the body of an answer, and whether the file is moved to its first part."""
    length = len(file.content)
    asked = "whole" if value is None else slices(value, length)
    fields = {"accept-ranges": "bytes", "etag": file.tag, "last-modified": file.date, "content-type": "text/plain"}
    if asked == "unmet":
        fields["content-range"] = f"bytes */{length}"
        fields["content-length"] = length if method == "HEAD" else 0
        return 416, fields, [], False
    if asked == "whole":
        fields["content-length"] = length
        return 200, fields, [(0, length)] if length and method == "GET" else [], False
    if len(asked) > 1:
        fields["content-type"] = "multipart/byteranges; boundary=BOUNDARY"
        return 206, fields, list(part_heads(asked, length)) if method == "GET" else [], True
    start, count = asked[0]
    fields["content-range"] = f"bytes {start}-{start + count - 1}/{length}"
    fields["content-length"] = count
    return 206, fields, asked if method == "GET" else [], True


class Body:
    """The parts of a body that nobody has asked for yet, and the place of its file."""

    def __init__(self, file, parts, is_moved):
        self.file = file
        self.left = parts
        self.place = next((part[0] for part in parts if isinstance(part, tuple)), 0) if is_moved else 0

    def poll(self):
        """The answer, and how many calls of the disk it takes."""
        if not self.left:
            return "end", 0
        part = self.left.pop(0)
        if isinstance(part, bytes):
            return "piece " + spelled(part), 0
        start, count = part
        calls = 1 if start == self.place else 2
        self.place = start + count
        return "piece " + spelled(self.file.content[start:start + count]), calls


# ---- rows

def spelled(content):
    """Bytes as the answers of `step_rows` spell them."""
    return quote_from_bytes(content, safe="".join(chr(c) for c in range(32, 127) if chr(c) not in "%|"))


def meant(text):
    """The bytes of a word of `step_rows`."""
    joined = b""
    for part in text.split("^"):
        count, star, copied = part.partition("*")
        joined += unquote_to_bytes(copied) * int(count) if star and count.isdigit() else unquote_to_bytes(part)
    return joined


def told(asked):
    """What is asked as `condition_rows` tells it."""
    return asked if isinstance(asked, str) else "".join(f"{start}+{count} " for start, count in asked)


def condition_answer(row):
    """The wanted answer of a row of `condition_rows`; None where it is no row of ranges."""
    cells = row.split("|")
    return told(slices(unquote_to_bytes(cells[2]), int(cells[1]))) if cells[0] == "slices" else None


FILE = re.compile(r"file (/\w+\.txt) (\d+) ([1-9]) ?(\S*)")
REQUEST = re.compile(r"(GET|HEAD) (/\S*)((?: [Rr][Aa][Nn][Gg][Ee]:\S*)+)")
POLL = re.compile(r"poll (\d+)(?: (\d+))?")


def step_answer(row):
    """The wanted answer of a row of `step_rows`; None where it does something else."""
    files, bodies, answers, asked = {}, [], [], 0
    for part in row.split(" | "):
        is_file, is_request, is_poll = FILE.fullmatch(part), REQUEST.fullmatch(part), POLL.fullmatch(part)
        if is_file and not bodies:
            path, inode, second, content = is_file.groups()
            files[path] = File(int(inode), int(second), meant(content))
        elif is_request and is_request[2] in files:
            file, value = files[is_request[2]], meant(is_request[3].split(" ")[1].split(":", 1)[1])
            status, fields, parts, is_moved = reply(file, is_request[1], value)
            spelt = "; ".join(f"{name}={fields[name]}" for name in sorted(fields))
            answers.append(f"{status} {len(bodies)} {spelt}")
            bodies.append(Body(file, parts, is_moved))
            asked += 4 if is_moved else 3
        elif is_poll and int(is_poll[1]) < len(bodies):
            for _ in range(int(is_poll[2] or 1)):
                answer, calls = bodies[int(is_poll[1])].poll()
                answers.append(answer)
                asked += calls
        else:
            return None
    return " | ".join(answers + [f"asked {asked}, failed 0"]) if bodies else None


# ---- the rows that are made

LENGTHS = (0, 1, 10, GREATEST)
UNITS = ("bytes=0-0", "BYTES=0-0", "bYtEs=0-0", "byte=0-0", "bytess=0-0", "%20bytes=0-0", "bytes%20=0-0", "bytes:0-0",
         "b%FDtes=0-0", "%C3%9Fytes=0-0", "lines=0-0", "bytes%3D0-0")
LISTS = ("bytes=,", "bytes= , ,", "bytes=%09", "bytes=,0-0", "bytes=0-0,", "bytes=0-0,,9-9", "bytes=%09 0-0 %09, 9-9%20",
         "bytes=0-1 , ,4-5", "bytes=0-0;9-9", "bytes=0-0 9-9", "bytes=0-0%0B", "bytes=%0C0-0", "bytes=0-0,%0D9-9",
         "bytes=0-0%0A", "bytes=0-0%00", "bytes=%C2%A00-0", "bytes=0-0,%E2%80%83", "bytes=%FF")
MEMBERS = ("0 -0", "0- 0", "- 1", "0%09-0", "--", "--1", "0--1", "0-1-", "1-2-3", "+0-1", "0-+1", "-+1", "0x0-0x1", "1e0-",
           "0.0-1", "a-b", "-a", "%D9%A0-%D9%A1", "0%E2%80%931", "00000-00001", "-00001", "-000", "5", "*", "0-*", "20-21,30-",
           "-0,-0", "-0,0-0", "-0,-1", "0-,-1", "0-0,20-21", "20-21,x", "0-0,5-2", "-1,-", "0-,0-", "5-9,0-6", "-3,-2,-1",
           "-20,-11", "0-0,0-0,0-0", "9-9,0-8,9-9")
PAIRED = ("0-0", "2-4", "9-", "10-", "20-21", "-1", "-0", "-11", "5-2", "x", "", "%09 3-3 ")


def boundaries():
    """Values whose numbers lie around 2^64 and far above, with zeros in front and without."""
    near = [str(n) for n in (GREATEST - 1, GREATEST, GREATEST + 1, GREATEST + 2, 99999999999999999999, 2 ** 128)]
    for text in near + ["0" * 25 + text for text in near]:
        yield from (f"bytes={text}-", f"bytes=-{text}", f"bytes=0-{text}", f"bytes={text}-{text}")
    for first in near[:4]:
        for last in near[:4]:
            if first != last:
                yield from (f"bytes={first}-{last}", f"bytes=00{first}-{last}", f"bytes={first}-00{last}")


def condition_rows():
    """The rows for `condition_rows`, each a value and a length."""
    yield "# The unit, lists of members and members, as they may stand and as they may not."
    for value in UNITS + LISTS + tuple("bytes=" + text for text in MEMBERS):
        yield from (f"slices|{length}|{value}" for length in LENGTHS)
    yield "# Numbers around two to the sixty-fourth power and far above, with zeros in front and without."
    for value in boundaries():
        yield from (f"slices|{length}|{value}" for length in (10, GREATEST))
    yield "# Two members: each of them may be met, not be met, ask for the end or be none."
    for first in PAIRED:
        for last in PAIRED:
            yield from (f"slices|{length}|bytes={first},{last}" for length in (0, 10))


TEN = "file /f.txt 26 1 0123456789"
# What each asks of a file of ten bytes, with the number of polls to the end of its body.
ASKED = (("bytes=-11", 2), ("bytes=-", 2), ("bytes=0-1,20-21", 2), ("bytes=20-21,30-", 1), ("bytes=5-2", 2),
         ("bytes=+1-2", 2), ("lines=1-2", 2), ("BYTES=2-4", 2), ("bytes=0-1%20,%20,4-5", 6), ("bytes=-0", 1),
         ("bytes=0-99999999999999999999", 2), ("bytes=1-2-3", 2), ("bytes=%20,%20,", 2), ("bytes=%C2%A00-1", 2),
         ("b%FFtes=0-1", 2), ("bytes=2-7,-4,3-3", 8), ("bytes=-11,-12", 6))
# Values as long as the head of a request may be.
LONG = (("bytes=^65000*,", 2), ("bytes=^65000*,^0-0", 2), ("bytes=^32000*,%20^0-0,20-21", 2), ("bytes=^65000*%20", 2),
        ("bytes=^65000*-", 2), ("bytes=^65000*x", 2), ("bytes=0-^30000*9", 2), ("bytes=^30000*0^2-^30000*0^4", 2),
        ("bytes=^30000*9^-^30000*9", 1), ("bytes=^30000*9^-^29999*9^8", 2), ("bytes=^29999*9^8-^30000*9", 1),
        ("bytes=1^30000*0^-^30000*9", 2), ("bytes=-^30000*9", 2), ("bytes=-^30000*0", 1), ("bytes=-^30000*0^3", 2),
        ("bytes=^10000*20-21,^5-5", 2), ("bytes=^10000*20-21,^x", 2), ("bytes=^16000*20-,", 1))


def step_rows():
    """The rows for `step_rows`, each a request and the polls of its body."""
    yield "# A file of ten bytes by values in the grammar and outside it, by GET and HEAD."
    for value, polls in ASKED:
        yield f"{TEN} | GET /f.txt range:{value} | poll 0 {polls}"
        yield f"{TEN} | HEAD /f.txt range:{value} | poll 0"
    yield "# The end of an empty file is the file."
    for value in ("bytes=-5", "BYTES=0-,-1", "bytes=-0", "bytes=-0,0-", "bytes=-1,x"):
        yield f"file /empty.txt 28 1 | GET /empty.txt range:{value} | poll 0"
        yield f"file /empty.txt 28 1 | HEAD /empty.txt range:{value} | poll 0"
    yield "# Values as long as a head may be."
    for value, polls in LONG:
        yield f"{TEN} | GET /f.txt range:{value} | poll 0 {polls}"


# ---- the comparison

def lines_of(crate, name):
    with open(os.path.join(CRATES, crate, name), encoding="utf-8") as rows:
        return rows.read().split("\n")[:-1]


def compare(crate, answer_of, made, is_written):
    """Compares the wanted answers of a driver. True where all agree."""
    rows, wanted = lines_of(crate, "stdin"), lines_of(crate, "stdout")
    missing = [row for row in made if row not in set(rows)]
    for row in missing:
        print(f"{crate}: no such row: {row[:200]}")
    judged = [answer_of(row) for row in rows]
    if is_written:
        wanted += [""] * (len(rows) - len(wanted))
        wanted = [old if new is None else new for old, new in zip(wanted, judged)]
        wanted = [row if row.startswith("#") else line for row, line in zip(rows, wanted)]
        with open(os.path.join(CRATES, crate, "stdout"), "w", encoding="utf-8") as answers:
            answers.write("".join(line + "\n" for line in wanted))
    others = [i for i, line in enumerate(judged) if line is not None and wanted[i:i + 1] != [line]]
    for i in others:
        print(f"{crate}: line {i + 1}: {rows[i][:200]}\n  asks   {judged[i][:300]}\n  wanted {''.join(wanted[i:i + 1])[:300]}")
    print(f"{crate}: {sum(line is not None for line in judged)} rows of ranges, {len(others)} with another answer")
    return not others and not missing


def main():
    words = argparse.ArgumentParser(description=__doc__, formatter_class=argparse.RawDescriptionHelpFormatter)
    words.add_argument("--write", action="store_true", help="write the wanted answers anew")
    words.add_argument("--print", action="store_true", help="write the rows that are made")
    given = words.parse_args()
    conditions, steps = list(condition_rows()), list(step_rows())
    if given.print:
        print("\n".join(conditions + steps))
        return 0
    agree = [compare("condition_rows", condition_answer, conditions, given.write),
             compare("step_rows", step_answer, steps, given.write)]
    return 0 if all(agree) else 1


if __name__ == "__main__":
    sys.exit(main())
