"""How long the fronts wait: for an answer that takes more than a minute, and for a head that drips."""
import contextlib
import socket
import threading
import time

from fronts.clients import TEN, gets_ten
from fronts.ways import FRONTS, Way
from fronts.work import Shell, lacking, listens, within

# Longer than what each front waits for if nothing is said.
LONG_WAIT = 66


class Late:
    """What stands in the place of ./serve: it answers each request, but late."""

    def __init__(self, port):
        self.it = socket.create_server(("127.0.0.1", int(port)))
        threading.Thread(target=self.run, daemon=True).start()

    def run(self):
        with contextlib.suppress(OSError):
            while True:
                client, _ = self.it.accept()
                threading.Thread(target=self.answer, args=(client,), daemon=True).start()

    def answer(self, client):
        with contextlib.suppress(OSError), client:
            if client.recv(1 << 16):
                time.sleep(LONG_WAIT)
                client.sendall(b"HTTP/1.1 200 OK\r\nContent-Length: 10\r\n\r\n" + TEN)


def drips(door, found):
    """A head that gets a byte each second: found tells whether it was ended."""
    with door.open() as it:
        it.sendall(b"GET /")
        it.settimeout(1)
        end = time.monotonic() + LONG_WAIT + 10
        while time.monotonic() < end:
            with contextlib.suppress(TimeoutError):
                if not it.recv(1 << 16):
                    found.append(True)
                    return
            it.sendall(b"x")


def ended(door, found):
    try:
        drips(door, found)
    except OSError:
        found.append(True)


def try_front(work, heading, blocks, tally):
    """One front, with what is late behind it, at each of its servers at once."""
    work.refresh()
    late, shell = Late(work.ports["8080"]), Shell(work)
    start, _, stop = blocks
    try:
        for line in start:
            if not line.startswith(("apt-get ", "./serve", "DAVSERVE_")):
                shell.run(line)
        try_doors(heading, Way(work, heading).doors(), tally)
    finally:
        for line in stop:
            if not line.startswith("kill "):
                shell.run(line)
        shell.end()
        late.it.close()


def try_doors(heading, doors, tally):
    """At each a request that is answered late, and a head that drips, all at once."""
    tally(f"{heading}: it listens", all(within(20, lambda it=door: listens(it.port)) for door in doors))
    got, cut = [[] for _ in doors], [[] for _ in doors]
    threads = [threading.Thread(target=lambda at=at, it=it: got[at].append(gets_ten(it, "127.0.0.1", LONG_WAIT + 20)[0]))
               for at, it in enumerate(doors)]
    threads += [threading.Thread(target=ended, args=(it, cut[at])) for at, it in enumerate(doors)]
    for it in threads:
        it.start()
    for it in threads:
        it.join()
    for door, answered, over in zip(doors, got, cut):
        tally(f"{heading}, port {door.port}: an answer after {LONG_WAIT} s comes", answered == [True])
        tally(f"{heading}, port {door.port}: a head that drips is ended", over == [True])


def try_waits(works, found, tally):
    """The fronts side by side, each in a folder of its own."""
    threads = []
    for heading, work in works.items():
        if not lacking(found[heading]):
            threads.append(threading.Thread(target=guarded, args=(work, heading, found[heading], tally)))
            threads[-1].start()
    for it in threads:
        it.join()


def guarded(work, heading, blocks, tally):
    try:
        try_front(work, heading, blocks, tally)
    except (OSError, EOFError) as error:
        tally(f"{heading}: how long it waits", False, repr(error))
