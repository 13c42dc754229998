"""The rows of the table, what they stand over and ask, and how an answer is judged that one fault may have met."""
import re

from served import Place, Request, copying, dropping, is_front, need, whole

ROWS = []


def row(what, answer, left):
    """A row of the table: what fails, what is answered, and what is left. Its function gives how often it was tried."""
    def add(function):
        ROWS.append((what, answer, left, function))
        return function
    return add


# ---- what stands there and what is asked

BIG = bytes(i * i % 251 for i in range(200_000))
TREE = {("f.txt",): b"0123456789", ("g.txt",): b"abc", ("big.bin",): BIG, ("d",): None, ("d", "a.txt"): b"aaa",
        ("d", "b"): None, ("d", "b", "c.txt"): b"ccc" * 9000, ("d", "z.txt"): b"zzz"}
AT_ROOT = {(): None}
F = Request("GET", "/f.txt")


def carry(method, source, to):
    return Request(method, source, [f"Destination: {to}"])


def plans(tree):
    """Requests, each with its plan over a tree."""
    d, e, f, n = ("d",), ("e",), ("f.txt",), ("n.txt",)
    return [
        (Request("GET", "/f.txt"), []),
        (Request("HEAD", "/f.txt"), []),
        (Request("GET", "/big.bin", ["Range: bytes=9-150000"]), []),
        (Request("GET", "/f.txt", ["Range: bytes=0-1,4-5"]), []),
        (Request("GET", "/d/"), []),
        (Request("PUT", "/n.txt", body=BIG), [("write", n, BIG)]),
        (Request("PUT", "/f.txt", body=b"new"), [("write", f, b""), ("write", f, b"new")]),
        (Request("MKCOL", "/e"), [("make", e)]),
        (Request("DELETE", "/d"), dropping(tree, d)),
        (carry("COPY", "/d", "/e"), copying(tree, d, e)),
        (carry("COPY", "/big.bin", "/f.txt"), [("drop", f), ("write", f, BIG)]),
        (carry("MOVE", "/d", "/e"), [("move", d, e)]),
        (carry("MOVE", "/g.txt", "/f.txt"), [("drop", f), ("move", ("g.txt",), f)]),
    ]


RIGHT = {}


def right_of(server, request):
    """The answer to a request that nothing failed."""
    key = str(request), tuple(request.fields)
    if key not in RIGHT:
        with Place(TREE) as place:
            RIGHT[key] = server.run(place.root, [request]).answers[0]
    return RIGHT[key]


def judge(server, place, before, request, plan, came):
    """An answer to a request that one fault may have met, and the tree behind it, are by the table of causes."""
    after = place.tree()
    need(came.status >= 0, f"it ends by signal {-came.status} at {request}")
    need(is_front(before, after, plan), f"another tree behind {request}")
    right = right_of(server, request)
    if came.status in (3, 4, 101) or not came.answers:
        need(came.status in (3, 4, 101), f"status {came.status} and no answer to {request}")
        fits = [(it.status == right.status and right.body.startswith(it.body)) for it in came.answers]
        need(all(fits), f"{request} is answered otherwise")
        return
    answer = came.answers[0]
    if came.status == 5:
        need(answer.status == right.status and not answer.is_whole and right.body.startswith(answer.body),
             f"{request} breaks off otherwise")
        return
    need(came.status == 0, f"status {came.status} at {request}")
    if answer.said() == right.said():
        need(after == whole(before, plan), f"not all of {request} was done, and it is answered {answer.status}")
        return
    if request.target.endswith("/") and answer.status == 200:
        rows = iter(names_of(right.body))
        need(all(name in rows for name in names_of(answer.body)), "other rows")
        return
    allowed = (500, 416) if right.status == 206 else (500,)
    need(answer.status in allowed and answer.body == b"" and answer.is_whole, f"{answer.status} to {request}")


def names_of(page):
    """The links of a page's rows, which is whole."""
    need(page.startswith(b"<!DOCTYPE html>") and page.endswith(b"</html>"), "no whole page")
    return [link for link in re.findall(rb'<tr>\s*<td><a href="([^"]*)">', page) if link != b".."]
