"""Rows on the input, the output and the stream of errors."""
import fcntl
import os

from folders import LONG
from rows import AT_ROOT, F, TREE, plans, right_of, row
from served import Place, Request, Shim, is_front, need, whole


# ---- the streams

@row("the input fails (it is a directory)", "none: status 3", "all as it was")
def bad_input(server):
    with Place(TREE) as place:
        folder = os.open(place.root, os.O_RDONLY)
        try:
            came = server.run(place.root, [F], stdin=folder)
        finally:
            os.close(folder)
        need(came.status == 3 and came.out == b"", f"{came.status}, {came.out!r}")
    return 1


@row("the input ends at any byte of a request", "the requests before it; status 6 inside one, 0 between two",
     "nothing of the request that was cut")
def cut_input(server):
    tries = 0
    with Place(TREE) as place:
        before = place.tree()
        for chunks in (False, True):
            text = F.bytes() + Request("PUT", "/n.txt", ["Expect: x"], b"hi there", chunks).bytes()
            for size in range(len(text)):
                came = server.run(place.root, [F, F], text=text[:size])
                inside = size not in (0, len(F.bytes()))
                count = 1 if size >= len(F.bytes()) else 0
                need(came.status == (6 if inside else 0), f"status {came.status} at byte {size}")
                need(came.statuses() == [200] * count, f"{came.statuses()} at byte {size}")
                tries += 1
        need(place.tree() == before, "another tree")
    return tries


@row("the reader of the answers closes the pipe", "a front of the answers: status 4", "what the requests that were read made")
def closed_pipe(server):
    tries = 0
    for request, plan in plans({**AT_ROOT, **TREE}):
        with Place(TREE) as place:
            before = place.tree()
            reads, writes = os.pipe()
            os.close(reads)
            try:
                came = server.run(place.root, [request], stdout=writes)
            finally:
                os.close(writes)
            need(came.status == 4, f"status {came.status} at {request}")
            need(is_front(before, place.tree(), plan), f"another tree behind {request}")
            tries += 1
    return tries


@row("the reader closes the pipe inside a body", "a front of it: status 4", "")
def closed_in_body(server):
    with Place({("long.bin",): LONG}) as place:
        talk = server.begin(place.root)
        try:
            talk.send(Request("GET", "/long.bin"))
            talk.head()
            need(talk.process.stdout.read(1000) == LONG[:1000], "other bytes")
            talk.process.stdout.close()
            talk.process.stdin.close()
            need(talk.process.wait(30) == 4, f"status {talk.process.returncode}")
        finally:
            talk.process.kill()
            talk.process.wait()
            talk.process.stderr.close()
    return 1


@row("the output is full (`/dev/full`)", "none: status 4", "what the requests that were read made")
def full_output(server):
    with Place(TREE) as place, open("/dev/full", "wb") as full:
        before = place.tree()
        came = server.run(place.root, [Request("MKCOL", "/e")], stdout=full)
        need(came.status == 4 and is_front(before, place.tree(), [("make", ("e",))]), f"status {came.status}")
    return 1


@row("the input, or the output, is closed from the start", "none: status 3, or 4",
     "all as it was; what the requests that were read made")
def closed_streams(server):
    tries = 0
    for request, plan in plans({**AT_ROOT, **TREE}):
        with Place(TREE) as place:
            before = place.tree()
            came = server.run(place.root, [request], before=["sh", "-c", 'exec "$@" <&-', ""])
            need(came.status == 3 and came.out == b"" and place.tree() == before, f"status {came.status}")
            came = server.run(place.root, [request], before=["sh", "-c", 'exec "$@" >&-', ""])
            need(came.status == 4, f"status {came.status} at {request}")
            need(is_front(before, place.tree(), plan), f"another tree behind {request}")
            tries += 2
    return tries


@row("the output would block, as a socket that isn't to wait, and nobody reads", "a front of the answers: status 4", "")
def blocked_output(server):
    with Place({("long.bin",): LONG}) as place:
        reads, writes = os.pipe()
        fcntl.fcntl(writes, fcntl.F_SETFL, os.O_NONBLOCK)
        try:
            came = server.run(place.root, [Request("GET", "/long.bin")], stdout=writes)
            need(came.status == 4, f"status {came.status}")
        finally:
            os.close(reads)
            os.close(writes)
    return 1


@row("the stream of errors is closed or full", "as ever", "as ever")
def bad_errors(server):
    with Place(TREE) as place, open("/dev/full", "wb") as full:
        need(server.run(place.root, [F], text=b"GET /f", stderr=full).status == 6, "another status")
        need(server.run(place.root, [F], before=["sh", "-c", 'exec "$@" 2>&-', ""]).statuses() == [200], "no answer")
    return 2


@row("reads and writes move a few bytes at a time", "as ever", "as ever")
def short_moves(server):
    tries = 0
    with Shim() as shim:
        for size in ("1", "7", "4096"):
            for request, plan in plans({**AT_ROOT, **TREE}):
                if size == "1" and len(request.body) > 1000:
                    continue
                with Place(TREE) as place:
                    came = server.run(place.root, [request], before=shim.words(SHORT=size))
                    need(came.status == 0, f"status {came.status} at {request}, {size} at a time")
                    need(came.answers[0].said() == right_of(server, request).said(), f"{request} is answered otherwise")
                    need(place.tree() == whole({**AT_ROOT, **TREE}, plan), f"another tree behind {request}")
                    tries += 1
    return tries
