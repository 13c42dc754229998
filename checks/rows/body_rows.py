"""The wanted rows of bodies of `handle_rows`: polls of bodies, frames, slots and readers."""
from texts import number, spelt, word

KINDS = ("steps", "collect", "frames", "bytes", "str", "string", "empty", "slot", "reader", "lent")
POLLS = 100


def given(pieces, end, polls):
    """What so many polls give: the pieces, then the end or one break, and the end from then on."""
    told = [" =" + spelt(piece, b"%") for piece in pieces] + ([" broken"] if end == "breaks" else [])
    return "".join(told[:polls]) + " end" * max(0, polls - len(told))


def digits(words):
    """A digit in each piece, the greatest first."""
    count = min(number(word(words, 1), 0, 255) or 0, 10)
    return [str(count - 1 - n).encode() for n in range(count)]


def polls_of(words):
    count = number(word(words, 3), 0, 2**32 - 1)
    return min(4 if count is None else count, POLLS)


def reader(calls):
    """What a reader gives at a call: it fails at its second, and is at its end behind its fourth."""
    return "end" if calls > 4 else "failed" if calls == 2 else "=x"


def collected(words):
    pieces = digits(words)
    return f"{'broken' if word(words, 2) == 'breaks' else b''.join(pieces).decode()} by {len(pieces) + 1}"


def wanted(row):
    words = row.split(" ")
    kind, text = words[0], row.partition(" ")[2]
    if kind in ("steps", "frames"):
        return ("polls" if kind == "steps" else "frames") + given(digits(words), word(words, 2), polls_of(words))
    if kind == "collect":
        return collected(words)
    if kind in ("bytes", "str", "string", "empty"):
        return "polls" + given([] if kind == "empty" else [text.encode()], "ends", 4)
    calls = number(word(words, 1)) or 0
    if kind == "slot":
        return f"true true {number(word(words, 2)) or 0} true"
    if kind == "reader":
        return "frames " + reader(calls + 1).replace("failed", "broken")
    return "pieces " + " ".join(reader(calls + n) for n in (1, 2, 3))
