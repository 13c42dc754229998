"""The wanted rows of `condition_rows`: preconditions, If-Range and values of Range."""
from disk import SECOND, Meta
from model import Fields, Stood, condition, ranges_are_heard, slices
from texts import decoded, number, print_wanted

TAG = b"1a-a-f4240"


class Tagged:
    """What stands, as If-Range sees it: a tag that may be weak, and the seconds of its time."""

    def __init__(self, tag, seconds):
        self.tag, self.seconds = (TAG if tag == "strong" else None), seconds


def seconds_of(cell):
    return number(cell, -2**63, 2**63 - 1)


def fields_of(cells):
    pairs = [cell.partition(":") for cell in cells]
    return Fields((name, decoded(value)) for name, _, value in pairs)


def condition_told(method, time, fields):
    seconds = seconds_of(time)
    meta = Meta("file", 0x1a, 10, None if seconds is None else seconds * SECOND + 5)
    return str(condition(method, fields, None if time == "nothing" else Stood(meta)) or "pass")


def slices_told(length, value):
    parts = slices(decoded(value), number(length) or 0)
    if isinstance(parts, str):
        return "unmet" if parts == "unsatisfiable" else parts
    return "".join(f"{start}+{count} " for start, count in parts)


def wanted(row):
    cells = row.split("|")
    if cells[0] == "condition":
        return condition_told(cells[1], cells[2], fields_of(cells[3:]))
    if cells[0] == "range":
        # A weak tag is equal to none.
        return "heard" if ranges_are_heard(fields_of(cells[3:]), Tagged(cells[1], seconds_of(cells[2]))) else "off"
    return slices_told(cells[1], cells[2]) if cells[0] == "slices" else row


def wanted_all(rows):
    return [wanted(row) for row in rows]


if __name__ == "__main__":
    print_wanted(wanted_all)
