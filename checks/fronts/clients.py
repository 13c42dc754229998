"""Clients over sockets: patient ones, many at once, and slow ones. Each comes from an address of its own choice."""
import contextlib
import socket
import ssl
import threading
import time

TEN = b"0123456789"
# States of a socket in the machine's table.
OPEN, LINGERS, LISTENS = "01", "06", "0A"


def head(path, *fields, method="GET"):
    return "\r\n".join([f"{method} {path} HTTP/1.1", "Host: localhost", *fields, "", ""]).encode()


class Door:
    """An address at which something listens: its port, the certificate that it shows if any, fields that each request
    needs, and what stands before each path."""

    def __init__(self, port, certificate=None, fields=(), under=""):
        self.port, self.fields, self.under, self.context = int(port), fields, under, None
        if certificate:
            self.context = ssl.create_default_context(cafile=certificate)

    def open(self, source="127.0.0.1", limit=30, room=None):
        """A connection from this address, with as much room for what comes."""
        it = socket.socket()
        try:
            it.settimeout(limit)
            if room:
                it.setsockopt(socket.SOL_SOCKET, socket.SO_RCVBUF, room)
            it.bind((source, 0))
            it.connect(("127.0.0.1", self.port))
            return self.context.wrap_socket(it, server_hostname="localhost") if self.context else it
        except BaseException:
            it.close()
            raise

    def head(self, path, *fields, method="GET"):
        return head(self.under + path, *self.fields, *fields, method=method)


def talk(door, given, limit=30, source="127.0.0.1"):
    """What a connection gives back until it ends."""
    if not isinstance(door, Door):
        door = Door(door)
    got = b""
    with door.open(source, limit) as it, contextlib.suppress(ConnectionError, ssl.SSLError):
        it.sendall(given)
        while more := it.recv(1 << 20):
            got += more
    return got


def gets_ten(door, source, limit):
    """Whether a connection of its own gets the file of ten bytes, and how long that takes."""
    began = time.monotonic()
    try:
        got = talk(door, door.head("/ten.txt", "Connection: close"), limit, source)
    except OSError:
        got = b""
    return got.startswith(b"HTTP/1.1 200") and got.endswith(TEN), time.monotonic() - began


class Kept:
    """A client that asks again and again on a connection that is kept, until it is told that it ends."""

    def __init__(self, door, source):
        self.door, self.source, self.answered, self.cut, self.it = door, source, 0, [], None

    def ask(self):
        if self.it is None:
            self.it, self.held = self.door.open(self.source), b""
        self.it.sendall(self.door.head("/ten.txt"))
        while b"\r\n\r\n" not in self.held:
            self.take()
        said, _, self.held = self.held.partition(b"\r\n\r\n")
        length = next(int(it.split(b":")[1]) for it in said.lower().split(b"\r\n") if it.startswith(b"content-length:"))
        while len(self.held) < length:
            self.take()
        body, self.held = self.held[:length], self.held[length:]
        if not said.startswith(b"HTTP/1.1 200") or body != TEN:
            raise ConnectionError(said.split(b"\r\n")[0].decode())
        self.answered += 1
        if b"\r\nconnection: close" in said.lower():
            self.end()

    def take(self):
        more = self.it.recv(1 << 16)
        if not more:
            raise ConnectionError("ended")
        self.held += more

    def end(self):
        if self.it is not None:
            self.it.close()
            self.it = None

    def run(self, until, least=1):
        """Asks until then, and at least so many times."""
        asked = 0
        while asked < least or time.monotonic() < until:
            asked += 1
            try:
                self.ask()
            except (OSError, StopIteration) as error:
                self.cut.append(error)
                self.end()


def at_once(door, count, seconds, least=1, addresses=16):
    """So many clients at once, for so many seconds, each with so many requests at least: how many answers they had, and
    what was cut."""
    clients = [Kept(door, f"127.0.0.{10 + number % addresses}") for number in range(count)]
    until = time.monotonic() + seconds
    threads = [threading.Thread(target=it.run, args=(until, least)) for it in clients]
    for it in threads:
        it.start()
    for it in threads:
        it.join()
    # (not before: each holds its connection until all have been answered)
    for it in clients:
        it.end()
    return sum(it.answered for it in clients), [error for it in clients for error in it.cut]


class Slow:
    """Clients of one address that hold what they have: readers that take 1 KB a second of a long file, senders that give a
    byte of a body each second, and heads that come a byte a second."""

    def __init__(self, door, readers, senders, heads, source="127.0.0.2"):
        self.door, self.source = door, source
        self.counts = readers, senders, heads
        self.clients, self.over = [], threading.Event()
        self.drip = threading.Thread(target=self.go_on)

    def __enter__(self):
        first = (self.door.head("/long"), self.door.head("/slow", "Content-Length: 100000", method="PUT"), b"GET /")
        for count, given, takes in zip(self.counts, first, (True, False, False)):
            for _ in range(count):
                with contextlib.suppress(OSError):
                    it = self.door.open(self.source, 10, 4096)
                    it.sendall(given)
                    it.setblocking(False)
                    self.clients.append((it, takes))
        self.drip.start()
        return self

    def go_on(self):
        while not self.over.wait(1):
            for it, takes in self.clients:
                # (one that was refused, or waits, is left as it is)
                with contextlib.suppress(OSError):
                    it.recv(1024) if takes else it.send(b"x")

    def __exit__(self, *_):
        self.over.set()
        self.drip.join()
        for it, _ in self.clients:
            it.close()


def is_refused(door, source, refusal):
    """Whether this address is refused, within twenty seconds, as the slow ones of it may still be beginning."""
    end = time.monotonic() + 20
    while time.monotonic() < end:
        with contextlib.suppress(OSError):
            if talk(door, door.head("/ten.txt", "Connection: close"), 10, source).startswith(refusal):
                return True
        time.sleep(0.5)
    return False


def try_slow(what, door, counts, tally, refusal=None):
    """While so many readers, senders and heads of one address are slow, another address is answered within a second. It is
    the median of five, once all have begun, which takes a slow machine a while; where a GET takes long without them it may
    take three times as long again. The address of the slow ones is refused, if it is to be."""
    before = sorted(gets_ten(door, "127.0.0.3", 20)[1] for _ in range(5))[2]
    with Slow(door, *counts) as they:
        end = time.monotonic() + 60
        while time.monotonic() < end and not (found := [gets_ten(door, "127.0.0.3", 60)])[0][1] < 1:
            time.sleep(0.5)
        while len(found) < 6 and found[-1][0]:
            found.append(gets_ten(door, "127.0.0.3", 20))
        if refusal:
            tally(f"{what}: the address of the slow ones is refused more", is_refused(door, they.source, refusal))
    fits = all(right for right, _ in found) and sorted(took for _, took in found[1:])[2] < 1 + 3 * before
    told = f"before {before:.2f} s, then " + ", ".join(f"{right} {took:.2f} s" for right, took in found)
    tally(f"{what}: {counts} slow clients, and another is answered", fits, told)


def try_crowd(what, door, count, seconds, tally):
    """So many clients at once lose no connection, and each is answered."""
    answered, cut = at_once(door, count, seconds)
    tally(f"{what}: {count} clients at once for {seconds} s, none cut", not cut, f"{answered} answers, {len(cut)} cut: {cut[:1]}")


def try_burst(what, door, tally):
    """A hundred clients at once, which go, and then twelve requests one by one."""
    at_once(door, 100, 1)
    found = [gets_ten(door, "127.0.0.3", 10) for _ in range(12)]
    fits = all(right and took < 5 for right, took in found)
    tally(f"{what}: 12 requests after a burst of 100 clients", fits, [f"{right} {took:.2f} s" for right, took in found])


def try_kept(what, door, behind, tally):
    """A hundred clients with twenty requests each take few connections to what stands behind."""
    def made():
        return sum(state in (OPEN, LINGERS) and int(behind) in (port, far) for _, port, state, _, far in sockets())

    before = made()
    answered, cut = at_once(door, 100, 0, 20)
    took = made() - before
    tally(f"{what}: connections to ./serve are used again", not cut and took < 500, f"{took} for {answered} requests, {len(cut)} cut")


def try_released(what, door, behind, tally):
    """Slow readers of a file that isn't large hold no connection to what stands behind."""
    def held():
        return sum(state == OPEN and port == int(behind) for _, port, state, *_ in sockets())

    before = held()
    with contextlib.ExitStack() as readers:
        for _ in range(40):
            it = readers.enter_context(door.open("127.0.0.2", 20, 4096))
            it.sendall(door.head("/medium"))
            it.recv(1)
            time.sleep(0.05)
        took = held() - before
        tally(f"{what}: 40 slow readers hold few connections of ./serve", took < 20, took)


def sockets():
    """The machine's table of sockets: for each its local address and port, its state, the timer that runs for it, and the
    port at the other end."""
    found = []
    for name in ("tcp", "tcp6"):
        with contextlib.suppress(FileNotFoundError), open(f"/proc/net/{name}") as table:
            for row in list(table)[1:]:
                row = row.split()
                address, port = row[1].split(":")
                found.append((address, int(port, 16), row[3], row[5][:2], int(row[2].split(":")[1], 16)))
    return found


def try_listening(what, port, tally):
    """Only 127.0.0.1 is listened on: another address of this machine refuses, and the table of sockets has no other."""
    refused = False
    try:
        socket.create_connection(("127.0.0.2", int(port)), 5).close()
    except ConnectionRefusedError:
        refused = True
    tally(f"{what}: 127.0.0.2 refuses port {port}", refused)
    found = {address for address, at, state, *_ in sockets() if at == int(port) and state == LISTENS}
    tally(f"{what}: 127.0.0.1 alone listens on {port}", found == {"0100007F"}, found)
