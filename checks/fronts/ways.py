"""The ways of docs/SERVING.md, each by the commands of its section."""
import base64
import contextlib
import os
import re
import shutil
import subprocess

from fronts import asking
from fronts.clients import Door, at_once, talk, try_burst, try_crowd, try_kept, try_listening, try_released, try_slow
from fronts.own import LONG, TELLS, told_by
from fronts.work import PORTS, Shell, Stopped, lacking, listens, run_block, sections, within

SECURE = ("--cacert", "/tmp/front/cert.pem")
USER = ("-u", "reader:secret")
READS, WRITES = "reads", "writes"
# The bytes of a file that nginx takes whole where its reader is slow.
MEDIUM = 3500000
# By the heading of the page: where it is asked, by which words of curl, for what, and whether it keeps many ranges and
# names with a dot away.
WAYS = {
    "serve": [("http://127.0.0.1:8080", (), WRITES, False)],
    "inetd": [("http://127.0.0.1:8082", (), WRITES, False)],
    "xinetd": [("http://127.0.0.1:8084", (), WRITES, False)],
    "systemd": [("http://127.0.0.1:8083", (), WRITES, False)],
    "nginx": [("https://localhost:8443", SECURE + USER, WRITES, True), ("http://127.0.0.1:8081", (), READS, True),
              ("http://127.0.0.1:8081/files", (), READS, True)],
    "Apache": [("https://localhost:8444", SECURE + USER, WRITES, True), ("http://127.0.0.1:8087", (), READS, True),
               ("http://127.0.0.1:8087/files", (), READS, True)],
    "Caddy": [("https://localhost:8445", SECURE, READS, True), ("https://localhost:8445/files", SECURE, READS, True)],
    "A mirror": [],
}
# Where a process of the system is started for each connection, so many are opened at once.
MANY = 300
# Ways that hold the connections of clients themselves.
FRONTS = ("nginx", "Apache", "Caddy")


class Way:
    """A way that has been started: where it is asked."""

    def __init__(self, work, heading):
        self.work, self.heading = work, heading
        self.places = [(asking.Asker(work, url, words), rights, guarded) for url, words, rights, guarded in WAYS[heading]]

    def door(self, place):
        """Where sockets reach it."""
        url, words = WAYS[self.heading][place][:2]
        scheme, port, under = re.fullmatch(r"(https?)://[^:/]*:(\d+)(.*)", self.work.own(url)).groups()
        known = base64.b64encode(b"reader:secret").decode()
        fields = [f"Authorization: Basic {known}"] if USER[0] in words else []
        return Door(port, self.work.at / "tmp/front/cert.pem" if scheme == "https" else None, fields, under)

    def doors(self):
        return [self.door(place) for place in range(len(self.places)) if not self.door(place).under]


def reads(way, tally):
    for ask, _, _ in way.places:
        asking.try_reading(ask, way.work.at / "demo", tally)


def writes(way, tally):
    for ask, rights, _ in way.places:
        if rights == WRITES:
            asking.try_writing(ask, way.work, tally)


def guards(way, tally):
    """What a front keeps away, and what it sends on."""
    for name in (".hidden", "folder/.hidden"):
        (way.work.at / "demo" / name).write_bytes(b"hidden")
    for ask, rights, guarded in way.places:
        if rights == READS:
            asking.try_refusing(ask, way.work, tally)
        elif guarded:
            asking.try_hiding(ask, tally)
            asking.try_users(ask, way.work.at / "first/ten.txt", tally)
        if guarded:
            asking.try_guards(ask, tally)
        if ask.url.endswith("/files"):
            asking.try_slash(ask, tally)
    if way.heading == "Caddy":
        # (it writes nothing, so what would be made tells by its status)
        found = way.places[0][0]("/ten.txt", "-X", "COPY", "-H", "Destination: /%2ex")[0]
        tally("Caddy: a destination with a dot is refused by itself", found == "403", found)


def listening(way, tally):
    for port in {door.port for door in way.doors()}:
        try_listening(way.heading, port, tally)


def slow(way, tally):
    """Slow clients of one address, at each of its servers."""
    for name, size in (("long", LONG), ("medium", MEDIUM)):
        with open(way.work.at / "demo" / name, "wb") as it:
            it.truncate(size)
    for door in way.doors():
        refusal = b"HTTP/1.1 429" if way.heading == "nginx" else None
        try_slow(f"{way.heading}, port {door.port}", door, (100, 100, 100), tally, refusal)
    if way.heading == "nginx":
        try_released("nginx for everybody", way.door(1), way.work.ports["8080"], tally)


def crowd(way, tally):
    for door in way.doors():
        try_crowd(f"{way.heading}, port {door.port}", door, 256, 10 if way.heading in FRONTS else 2, tally)


def kept(way, tally):
    for door in way.doors():
        try_kept(f"{way.heading}, port {door.port}", door, way.work.ports["8080"], tally)


def burst(way, tally):
    for door in way.doors():
        try_burst(f"{way.heading}, port {door.port}", door, tally)


def many(way, tally):
    """A process of the system for each of many connections, more than such a thing takes if nothing is said."""
    port = way.doors()[0].port
    answered, cut = at_once(Door(port), MANY, 0)
    tally(f"{way.heading}: {MANY} connections", not cut, f"{answered} answers, {len(cut)} cut: {cut[:1]}")
    refused = talk(port, b"NONE\r\n\r\n")
    tally(f"{way.heading}: a refusal has nothing behind it", refused.startswith(b"HTTP/1.1 400") and refused.endswith(b"\r\n\r\n"), refused)
    if way.heading == "xinetd":
        said = (way.work.at / "tmp/xinetd.log").read_text()
        tally("xinetd: it didn't close the service for a while", "Deactivating" not in said, said[-200:])


def told(way, tally):
    """What the socket of a connection is told."""
    port, program = way.doors()[0].port, way.work.at / "bin/davserve"
    moved = program.rename(program.with_suffix(".moved"))
    program.write_text(TELLS.format("/usr/bin/python3"))
    program.chmod(0o755)
    found = told_by(port)
    moved.rename(program)
    tally(f"{way.heading}: small parts go out at once (nodelay), and who is gone is found out (keepalive)", found == (1, 1), found)


# Lines that are looked up: those of systemd, which would have to run to be asked, and one of xinetd, which tells only where
# the machine is fast.
LINES = {"xinetd": {"xinetd.conf": ("    cps         = 60000 1",)}, "systemd": {
    "davserve.socket": ("ListenStream=127.0.0.1:8083", "Accept=yes", "MaxConnections=512", "NoDelay=yes", "KeepAlive=yes",
                        "TriggerLimitIntervalSec=0"),
    "davserve@.service": ("StandardInput=socket", "StandardOutput=socket", "StandardError=journal", "User=davserve",
                          "RuntimeMaxSec=1h", "ProtectSystem=strict", "ReadWritePaths=/srv/dav", "ProtectHome=true",
                          "PrivateTmp=true", "PrivateDevices=true", "PrivateNetwork=true", "NoNewPrivileges=true",
                          "RestrictAddressFamilies=AF_UNIX", "MemoryMax=2G", "SuccessExitStatus=3 4 6"),
}}


def lines(way, tally):
    """The lines that are looked up, and that no other address is listened on."""
    for name, wanted in LINES[way.heading].items():
        found = (way.work.at / "deploy" / name).read_text().splitlines()
        for line in wanted:
            tally(f"{name} has {line.strip()}", way.work.own(line) in found)
        others = [line for line in found if line.startswith("Listen") and "=127.0.0.1:" not in line]
        tally(f"{name} listens on 127.0.0.1 alone", not others, others)


def parts_of(heading):
    """What is asked of a way."""
    if heading in FRONTS:
        return reads, writes, guards, listening, slow, crowd, kept, burst
    return {"A mirror": (), "serve": (reads, writes), "inetd": (reads, writes, listening, many),
            "xinetd": (reads, writes, listening, many, told, crowd, lines),
            "systemd": (reads, writes, listening, many, lines)}[heading]


@contextlib.contextmanager
def started(work, heading, blocks, tally):
    """What a section starts, with its ports, until it is ended."""
    work.refresh()
    shell = Shell(work)
    start, tries, stop = blocks
    ports = sorted({port for block in blocks[:2] for line in block for port in PORTS if re.search(rf"\b{port}\b", line)})
    try:
        run_block(shell, start, tally)
        for port in ports:
            tally(f"{heading}: it listens on {port}", within(20, lambda it=port: listens(work.ports[it])))
        yield shell, tries
    except OSError as error:
        tally(heading, False, repr(error))
    finally:
        with contextlib.suppress(EOFError, BrokenPipeError, Stopped):
            run_block(shell, stop, tally)
        shell.end()
    for port in ports:
        tally(f"{heading}: port {port} is free again", within(20, lambda it=port: not listens(work.ports[it])))


def try_way(work, heading, blocks, tally, parts=None):
    """Starts what a section starts, tries it, and ends it. With parts named only these are asked."""
    before = len(tally.failed)
    with started(work, heading, blocks, tally) as (shell, tries):
        if parts is None:
            run_block(shell, tries, tally)
        for part in parts_of(heading) if parts is None else parts:
            part(Way(work, heading), tally)
    if len(tally.failed) > before and not tally.quiet:
        print((work.at / "tmp/log").read_text(errors="replace")[-2000:])


def prepared(work, tally, large=True):
    """The sections of the page, when the program and its folder stand where they look for them."""
    found = sections()
    if large:
        with open(work.at / "tmp/large", "wb") as it:
            for _ in range(300):
                it.write(os.urandom(1000000))
    if shutil.which("git"):
        git = ["git", "-c", "user.name=x", "-c", "user.email=x@localhost"]
        for words in (["init", "--quiet"], ["add", "README.md"], ["commit", "--quiet", "-m", "x"]):
            subprocess.run([*git, *words], cwd=work.at, check=True)
    shell = Shell(work)
    for block in found["The program"]:
        run_block(shell, block, tally)
    shell.end()
    return found


def try_page(work, only, tally):
    """Each section of the page by its commands."""
    found = prepared(work, tally)
    tally("the page has the ways that are known here", set(found) == {"The program", *WAYS}, sorted(found))
    for heading, blocks in found.items():
        if heading not in WAYS or only and heading != only:
            continue
        missing = lacking(blocks)
        if missing:
            tally.leave_out(f"{heading}, for want of {' '.join(missing)}")
            continue
        held = tally.held
        try_way(work, heading, blocks, tally)
        print(f"{heading}: {tally.held - held} held", flush=True)
