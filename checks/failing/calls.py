"""Rows on memory, on a program that is ended, and on each call of the machine."""
import random
import re
import resource
import shutil
import subprocess
import tempfile
import time

from rows import AT_ROOT, BIG, F, TREE, carry, judge, plans, row
from served import Fault, Left, Place, Request, Shim, bytes_of, copying, dropping, is_front, need, whole


# ---- memory

def many():
    """A list of requests that needs memory in all its parts, with the plan of all."""
    tree = {**AT_ROOT, **TREE}
    put = ("write", ("n.txt",), BIG * 5)
    copy = copying(tree, ("d",), ("e",))
    asked = [F, Request("GET", "/d/"), Request("PUT", "/n.txt", body=BIG * 5), carry("COPY", "/d", "/e"),
             Request("GET", "/big.bin", ["Range: bytes=0-1,5-6,100-150000"]), Request("DELETE", "/e")]
    return asked, [put, *copy, *dropping(whole(tree, copy), ("e",))]


def least(server, folder):
    """The least limit of memory, in KiB, under which the machine begins the program."""
    low, high = 0, 1 << 20
    while high - low > 16:
        middle = (low + high) // 2
        ran = subprocess.run([server.program, "--version"], stdout=subprocess.PIPE, stderr=subprocess.DEVNULL, check=False,
                             preexec_fn=lambda: resource.setrlimit(resource.RLIMIT_AS, (middle << 10, middle << 10)))
        low, high = (low, middle) if ran.returncode == 0 and ran.stdout else (middle, high)
    return high


@row("memory is refused (`ulimit -v`, at twenty sizes)", "a front of the answers: status 101",
     "what a front of the plans leaves")
def little_memory(server):
    asked, plan = many()
    with Place(TREE) as place:
        right = server.run(place.root, asked).answers
        first = least(server, place.root)
    ended = set()
    for number in range(20):
        size = (first + number * number * 24) << 10
        with Place(TREE) as place:
            before = place.tree()
            came = server.run(place.root, asked, limits=[(resource.RLIMIT_AS, size), (resource.RLIMIT_CORE, 0)])
            ended.add(came.status)
            need(came.status in (0, 101), f"status {came.status} with {size >> 10} KiB")
            need_front(came, right)
            need(came.status or len(came.answers) == len(asked), f"answers are missing with {size >> 10} KiB")
            need(is_front(before, place.tree(), plan), f"another tree with {size >> 10} KiB")
    need(ended == {0, 101}, f"the statuses are {ended}")
    return 20


def need_front(came, right):
    """All answers are right, but that the last may be cut."""
    for at, answer in enumerate(came.answers):
        is_last = at + 1 == len(came.answers)
        need(answer.status == right[at].status, f"{answer.status} in place of {right[at].status}")
        need(answer.body == right[at].body or is_last and right[at].body.startswith(answer.body), "another body")


def allocations(server, shim, request):
    """How often the program asks for memory at a request."""
    with Place(TREE) as place, tempfile.NamedTemporaryFile(prefix="davserve-counted-") as counted:
        server.run(place.root, [request], before=shim.words(COUNTED=counted.name))
        return int(counted.read() or 0)


@row("memory is refused at any one place", "a front of the answers: status 101; or as ever", "what a front of the plan leaves")
def refused_memory(server):
    tries = 0
    with Shim() as shim:
        for request, plan in plans({**AT_ROOT, **TREE}):
            for number in range(1, allocations(server, shim, request) + 1):
                with Place(TREE) as place:
                    before = place.tree()
                    came = server.run(place.root, [request], before=shim.words(REFUSED=number))
                    need(came.status in (0, 101), f"allocation {number} is refused: status {came.status} at {request}")
                    judge(server, place, before, request, plan, came)
                    tries += 1
    return tries


# ---- the program is ended

@row("the program is ended in the middle (a signal)", "a front of the answers", "what a front of the plan leaves")
def killed(server):
    chance = random.Random(1)
    tree = {**AT_ROOT, ("d",): None, **{("d", f"{n:03}"): BIG[:20_000] for n in range(200)}}
    copy = copying(tree, ("d",), ("e",))
    asked, plan = [carry("COPY", "/d", "/e"), Request("DELETE", "/e")], copy + dropping(whole(tree, copy), ("e",))
    with Place(tree) as place:
        begun = time.monotonic()
        server.run(place.root, asked)
        took = time.monotonic() - begun
    for _ in range(20):
        with Place(tree) as place:
            talk = server.begin(place.root)
            try:
                talk.process.stdin.write(bytes_of(asked))
                talk.process.stdin.flush()
                time.sleep(chance.random() * took)
            finally:
                talk.process.kill()
                talk.process.communicate()
            need(is_front(tree, place.tree(), plan), "another tree")
    return 20


# ---- each call of the machine fails

def calls_of(server, request):
    """The calls that the program makes from its first read of the input on: their names, and their numbers by name."""
    with Place(TREE) as place, tempfile.NamedTemporaryFile(prefix="davserve-calls-") as log:
        came = server.run(place.root, [request], before=["strace", "-qq", "-o", log.name])
        if came.status != 0:
            raise Left("strace can't follow the program")
        lines = log.read().decode("latin-1").splitlines()
    counts, calls, begun = {}, [], False
    for line in lines:
        match = re.match(r"(\w+)\(", line)
        if not match:
            continue
        name = match[1]
        counts[name] = counts.get(name, 0) + 1
        begun = begun or line.startswith("read(0,")
        if begun and name != "exit_group":
            calls.append((name, counts[name]))
    return calls


# How calls for memory are refused. The machine's `brk` says by its result where the end is.
MEMORY = {"brk": ["retval=0"], "mmap": ["error=ENOMEM"], "mremap": ["error=ENOMEM"], "munmap": []}


def each_call(server, errors):
    """Plays each request with each of its calls failing so."""
    if not shutil.which("strace"):
        raise Left("no strace")
    tries = 0
    for request, plan in plans({**AT_ROOT, **TREE}):
        for name, number in calls_of(server, request):
            for error in MEMORY.get(name, errors):
                with Place(TREE) as place:
                    before = place.tree()
                    words = ["strace", "-qq", "-o", "/dev/null", "-e", f"trace={name}",
                             "-e", f"inject={name}:{error}:when={number}"]
                    came = server.run(place.root, [request], before=words)
                    try:
                        judge(server, place, before, request, plan, came)
                    except Fault as fault:
                        raise Fault(f"{name} number {number}, {error}: {fault}") from None
                    tries += 1
    return tries


@row("any one call of the machine fails by EIO, ENOSPC, EDQUOT or EMFILE",
     "500; 416 of a range; a page that lacks rows; a body that breaks off (status 5); status 3 for the input, 4 for the output",
     "what a front of the plan leaves")
def failing_calls(server):
    return each_call(server, ("error=EIO", "error=ENOSPC", "error=EDQUOT", "error=EMFILE"))


@row("a signal comes between, at any one call (EINTR)", "as ever where a file or a stream is read or written; else as above",
     "what a front of the plan leaves")
def interrupted_calls(server):
    return each_call(server, ("error=EINTR",))
