"""What `./serve` is asked, by sockets and by its words."""
import contextlib
import os
import pathlib
import re
import select
import shutil
import signal
import socket
import subprocess
import sys
import time

from fronts.clients import LISTENS, OPEN, TEN, Door, gets_ten, head, sockets, talk, try_burst, try_crowd, try_listening, try_slow
from fronts.work import TOP, Served, free_port, listens, within

# The bytes of the long file: more than the machine holds of an answer that nobody takes.
LONG = 32 << 20


def folder_of(work):
    """A folder with a short file, and a long one of zeros."""
    folder = work.at / "tmp/folder"
    if not folder.exists():
        folder.mkdir()
        (folder / "ten.txt").write_bytes(TEN)
        with open(folder / "long", "wb") as it:
            it.truncate(LONG)
    return folder


def try_answers(work, tally):
    """No answer of ./serve is lost or cut."""
    folder = folder_of(work)
    with Served(work, folder) as it:
        right = sum(talk(it.port, b"NONE\r\n\r\n").startswith(b"HTTP/1.1 400") for _ in range(50))
        tally("50 bad requests get 50 answers 400", right == 50, right)
        large = b"PUT /x HTTP/1.1\r\nContent-Length: 1073741825\r\n\r\n" + b"x" * 4096
        right = sum(talk(it.port, large).startswith(b"HTTP/1.1 413") for _ in range(20))
        tally("20 bodies that are too large get 20 answers 413", right == 20, right)
        with socket.create_connection(("127.0.0.1", int(it.port)), 10) as slow:
            slow.sendall(head("/long", "Connection: close"))
            slow.shutdown(socket.SHUT_WR)
            time.sleep(2)
            got = taken(slow)
        tally("a reader that half-closes and sleeps gets all bytes", got > LONG, got)
        tally("what it says isn't about a client alone", not re.search("reading the requests|writing the answers", it.said()))


def try_said(work, tally):
    """What isn't about a client alone is told as it comes, and no notice of what listens."""
    folder = work.at / "tmp/goes"
    folder.mkdir()
    with Served(work, folder) as it:
        folder.rmdir()
        for _ in range(3):
            talk(it.port, head("/ten.txt", "Connection: close"))
        told = within(5, lambda: it.said().count("davserve: no folder can be seen at ") == 3)
        tally("three times that the folder isn't there any more", told, it.said())
        tally("nothing else is said", it.said().count("\n") == 4, it.said())


def taken(it):
    """How many bytes a connection gives until it ends."""
    got = 0
    with contextlib.suppress(ConnectionError):
        while more := it.recv(1 << 20):
            got += len(more)
    return got


def try_silence(work, tally):
    """Connections that say nothing, or take nothing, end by their limits, and those that go on don't."""
    folder = folder_of(work)
    with Served(work, folder, env={"DAVSERVE_SILENCE": "2", "DAVSERVE_CONNECTIONS": "64"}) as it, contextlib.ExitStack() as halves:
        for _ in range(64):
            halves.enter_context(socket.create_connection(("127.0.0.1", int(it.port)), 10)).sendall(b"GET /ten")
        right, took = gets_ten(Door(it.port), "127.0.0.1", 30)
        tally("all are half heads, and the next client is answered in time", right and took < 15, f"{took:.1f} s")
        tally("nothing is said of those that were silent", it.said().count("\n") == 1, it.said())
    with Served(work, folder, env={"DAVSERVE_PATIENCE": "2"}) as it:
        try_patience(Door(it.port), tally)


def try_patience(door, tally):
    """Two readers of the long file where two seconds may pass in which a client takes nothing: one takes none of it, and one
    takes a quarter of a MiB at a time, with pauses, for longer."""
    with door.open(room=4096) as none, door.open() as steady:
        none.sendall(head("/long", "Connection: close"))
        steady.sendall(head("/long", "Connection: close"))
        select.select([none], [], [], 30)
        began, got, cut = time.monotonic(), 0, None
        for _ in range(40):
            got += len(steady.recv(1 << 18))
            time.sleep(0.15)
            if cut is None and not is_open(door.port, none):
                cut = time.monotonic() - began
        got += taken(steady)
        tally("a slow and steady reader gets all bytes", got > LONG, got)
        tally("a reader that takes nothing for two seconds is cut", cut and cut < 4.5, cut)
        got = taken(none)
        tally("the reader that was cut lacks bytes", got < LONG, got)


def is_open(port, client):
    """Whether the server's end of a client's connection is still open."""
    far = client.getsockname()[1]
    return any((at, state, end) == (port, OPEN, far) for _, at, state, _, end in sockets())


def try_connections(work, tally):
    """As many connections as are wanted, and no more; the others wait."""
    folder = folder_of(work)
    with Served(work, folder, env={"DAVSERVE_CONNECTIONS": "2"}) as it, contextlib.ExitStack() as waiting:
        door = Door(it.port)
        held = [waiting.enter_context(door.open()) for _ in range(2)]
        for kept in held:
            kept.sendall(door.head("/ten.txt"))
            kept.recv(4096)
        right, took = gets_ten(door, "127.0.0.1", 1)
        tally("DAVSERVE_CONNECTIONS=2: a third client waits", not right, f"{took:.1f} s")
        before = sleeps(it.port)
        tally("who waits for the end of a connection is woken by itself", within(20, lambda: sleeps(it.port) > before + 1))
        began = time.monotonic()
        for _ in range(140):
            waiting.enter_context(door.open("127.0.0.4", 0.9)).close()
        for kept in held:
            kept.close()
        right, took = gets_ten(door, "127.0.0.1", 180)
        tally("140 others wait, and the next is answered once they end", right, f"{time.monotonic() - began:.1f} s")


def listening(port):
    """The processes that hold the socket which listens, each by its folder of /proc."""
    rows = [row.split() for row in pathlib.Path("/proc/net/tcp").read_text().splitlines()[1:]]
    wanted = {f"socket:[{row[9]}]" for row in rows if row[3] == LISTENS and int(row[1].split(":")[1], 16) == int(port)}
    found = []
    for it in pathlib.Path("/proc").glob("[0-9]*"):
        with contextlib.suppress(OSError):
            if any(os.readlink(held) in wanted for held in (it / "fd").iterdir()):
                found.append(it)
    if not found:
        raise OSError(f"nothing listens on {port}")
    return found


def sleeps(port):
    """How often the process that listens has gone to sleep."""
    return int(re.search(r"\nvoluntary_ctxt_switches:\s*(\d+)", (listening(port)[0] / "status").read_text())[1])


def told_by(port):
    """What the program below tells of its connection: whether small parts go out at once, and whether a client that is gone
    is found out."""
    return tuple(map(int, talk(port, b"").split()))


# In place of the program it tells of its socket.
TELLS = """#!{}
import socket, sys
try:
    it = socket.socket(fileno=0)
except OSError:
    sys.exit(0)
it.sendall(b"%d %d" % (it.getsockopt(socket.IPPROTO_TCP, socket.TCP_NODELAY) != 0,
                       it.getsockopt(socket.SOL_SOCKET, socket.SO_KEEPALIVE) != 0))
"""
# The same in C, for what forks and starts nothing.
TELLS_C = """#include <netinet/in.h>
#include <netinet/tcp.h>
#include <stdio.h>
#include <sys/socket.h>
int main(void) {
  int soon, kept;
  socklen_t length = sizeof soon;
  if (getsockopt(0, IPPROTO_TCP, TCP_NODELAY, &soon, &length) || getsockopt(0, SOL_SOCKET, SO_KEEPALIVE, &kept, &length)) return 0;
  dprintf(1, "%d %d", soon != 0, kept != 0);
  return 0;
}
"""


def telling(work):
    """The program that tells of its socket."""
    program = work.write("tmp/tells", TELLS.format(sys.executable))
    if work.words:
        source = work.write("tmp/tells.c", TELLS_C)
        subprocess.run(["cc", "-c", "-fPIE", "-o", work.at / "tmp/tells.o", source], check=True)
        link_fast(work, program, {"DAVSERVE_OBJECT": str(work.at / "tmp/tells.o")})
    program.chmod(0o755)
    return program


def try_socket(work, tally):
    """What the socket of a connection is told."""
    program = telling(work)
    with Served(work, folder_of(work), env={"DAVSERVE_PROGRAM": str(program)}) as it:
        found = told_by(it.port)
        tally("./serve: small parts go out at once (nodelay), and who is gone is found out (keepalive)", found == (1, 1), found)


def try_pages(work, tally):
    """The program is told to ask for huge pages where the machine has them for who asks."""
    program, mode = work.write("tmp/tunables", '#!/bin/sh\n[ ! -S /dev/stdin ] || printf %s "$GLIBC_TUNABLES"\n'), ""
    program.chmod(0o755)
    with contextlib.suppress(OSError):
        mode = pathlib.Path("/sys/kernel/mm/transparent_hugepage/enabled").read_text()
    one = "glibc.malloc.perturb=1"
    for given, wanted in (("", "glibc.malloc.hugetlb=1" if "[madvise]" in mode else ""), (one, one)):
        with Served(work, folder_of(work), env={"DAVSERVE_PROGRAM": str(program), "GLIBC_TUNABLES": given}) as it:
            found = talk(it.port, b"").decode()
            tally(f"./serve: huge pages, where GLIBC_TUNABLES is {given!r}", found == wanted, found)


def try_listens(work, tally):
    """Only this machine reaches it."""
    with Served(work, folder_of(work)) as it:
        try_listening("./serve", it.port, tally)


def try_many_at_once(work, tally):
    """Slow clients starve no other, 256 at once are answered, and a burst leaves nothing behind."""
    with Served(work, folder_of(work)) as it:
        try_slow("./serve", Door(it.port), (100, 100, 100), tally)
        try_crowd("./serve", Door(it.port), 256, 2, tally)
        try_burst("./serve", Door(it.port), tally)


ENDS = {"TERM": 143, "INT": 130, "HUP": 129, "KILL": -9}


def try_ends(work, tally):
    """What ends the script ends its connections, and what is sent on them isn't done; the port is free at once."""
    folder, port = folder_of(work), free_port()
    for name, wanted in ENDS.items():
        with Served(work, folder, port=port) as it, Door(port).open() as kept:
            kept.sendall(head("/ten.txt"))
            kept.recv(4096)
            # (one that the server closes, whose port lingers)
            talk(port, head("/ten.txt", "Connection: close"))
            it.run.send_signal(getattr(signal, f"SIG{name}"))
            status = it.run.wait(20)
            if name == "KILL":
                time.sleep(0.5)
            with contextlib.suppress(OSError):
                kept.sendall(head("/late", "Content-Length: 1", method="PUT") + b"x")
                time.sleep(0.5)
            tally(f"./serve ended by {name}: its status", status == wanted, status)
            tally(f"./serve ended by {name}: no PUT is done on a connection", not (folder / "late").exists())
            left = [at for _, at, state, *_ in sockets() if at == int(port) and state in (OPEN, LISTENS)]
            tally(f"./serve ended by {name}: no socket is left", not left, left)
            (folder / "late").unlink(missing_ok=True)
    words = " ".join(work.words)
    script = f"'{work.at}/serve' '{folder}' {port} {words} 2>'{work.at}/tmp/script' & sleep 2; kill $!; wait $!; echo it goes on"
    ran = subprocess.run(["bash", "-c", script], stdin=subprocess.DEVNULL, stdout=subprocess.PIPE, start_new_session=True,
                         env={**os.environ, **work.env})
    tally("a script that ends ./serve isn't ended with it", ran.stdout == b"it goes on\n", ran.stdout)


def try_memory(work, tally):
    """A connection that gets no memory ends, and the others go on."""
    folder, port = folder_of(work), free_port()
    script = f"ulimit -v 200000; DAVSERVE_SILENCE=600 exec '{work.at}/serve' '{folder}' {port} {' '.join(work.words)}"
    with open(work.at / "tmp/memory", "wb") as said:
        run = subprocess.Popen(["bash", "-c", script], stdin=subprocess.DEVNULL, stderr=said, start_new_session=True,
                               env={**os.environ, **work.env})
    try:
        within(20, lambda: listens(port))
        with Door(port).open(limit=120) as other:
            other.sendall(head("/ten.txt"))
            other.recv(4096)
            given = head("/none", "Content-Length: 300000000", method="PUT") + bytes(250000000)
            got = talk(port, given, 120)
            tally("300 MB where 200 MB may be taken: the connection ends", not got, got[:40])
            other.sendall(head("/ten.txt"))
            tally("the others go on", other.recv(4096).startswith(b"HTTP/1.1 200"))
            tally("nothing was stored", not (folder / "none").exists())
    finally:
        os.killpg(run.pid, 15)
        run.wait(20)


def try_private(work, tally):
    """A path that is drawn, told, and another each time; all else is 404."""
    drawn = set()
    for words, before in (((), ""), (("--prefix", "/dav"), "/dav")):
        with Served(work, folder_of(work), "--private", *words) as it:
            path = re.search(rf"http://127\.0\.0\.1:{it.port}({before}/[0-9a-f]{{32}})/ ", it.said())
            tally(f"--private {words}: the path is told", path, it.said())
            path = path[1] if path else ""
            drawn.add(path[-32:])
            for there, wanted in ((path, b"200"), ("", b"404"), (before, b"404"), ("/" + "0" * 32, b"404")):
                got = talk(it.port, head(f"{there}/ten.txt", "Connection: close"))
                tally(f"--private {words}: {there}/ten.txt", got.startswith(b"HTTP/1.1 " + wanted), got[:20])
            got = talk(it.port, head("/ten.txt", "Connection: close", "Content-Length: 0", method="PUT"))
            tally(f"--private {words}: PUT elsewhere", got.startswith(b"HTTP/1.1 404"), got[:20])
    tally("--private draws another path each time", len(drawn) == 2, drawn)


def try_release(work, tally):
    """The script with the program beside it, as in a release, and with a program that is named."""
    program, alone = TOP / "crates/davserve/out/davserve", work.at / "tmp/alone"
    alone.mkdir()
    shutil.copy2(work.at / "serve", alone / "serve")
    with Served(work, folder_of(work), env={"DAVSERVE_PROGRAM": str(program)}, at=alone) as it:
        tally("./serve with DAVSERVE_PROGRAM", gets_ten(Door(it.port), "127.0.0.1", 10)[0], it.said())
    shutil.copy2(program, alone / "davserve")
    with Served(work, folder_of(work), at=alone) as it:
        tally("./serve with the program beside it", gets_ten(Door(it.port), "127.0.0.1", 10)[0], it.said())


def try_roots(work, tally):
    """Roots are served whatever their names are, absolute and relative, and under a prefix."""
    marks = "".join(map(chr, range(1, 128))).replace("/", "")
    names = ("with blanks", "it's \"so\"", "a,b:c!!d", "back\\slash$(touch x)`y`", "-dash", "two\nlines", "end\n", marks,
             "Grüße 中文", "'äöü " * 25)
    for number, name in enumerate(names):
        folder = work.at / "tmp" / name
        folder.mkdir()
        (folder / "ten.txt").write_bytes(b"0123456789")
        root, words, path = str(folder), (), ""
        if number % 2:
            root, words, path = os.path.relpath(folder, work.at), ("--prefix", "/a/b"), "/a/b"
        if name == "-dash":
            (work.at / name).symlink_to(folder)
            root = name
        with Served(work, root, *words) as it:
            got = talk(it.port, head(f"{path}/ten.txt", "Connection: close"))
            tally(f"root {name!r} {words}", got.endswith(b"0123456789"), it.said())
            address = f"http://127.0.0.1:{it.port}{path}/ with --autoindex --bufsize 65536"
            tally(f"root {name!r}: the address that is told", address in it.said(), it.said())
            page = talk(it.port, head(f"{path}/", "Connection: close"))
            tally(f"root {name!r}: it is answered", page.startswith(b"HTTP/1.1 200"), page[:40])


def try_words(work, tally):
    """What is wrong in the words is told in one line, and nothing is announced."""
    def says(what, wanted, *words, env=None, status=None, at=work.at):
        ran = subprocess.run([at / "serve", *words], cwd=work.at, env=env, stdin=subprocess.DEVNULL, stdout=subprocess.PIPE,
                             stderr=subprocess.STDOUT, text=True, timeout=60)
        fits = wanted in ran.stdout and "serving" not in ran.stdout and ran.stdout.count("\n") == 1
        tally(f"./serve: {what}", fits and ran.returncode == status, f"{ran.returncode} {ran.stdout!r}")

    for port in ("0", "80000", "65536", "abc", "08080", "-1", "", "8 0"):
        says(f"port {port!r}", "is no port: it is a number from 1 to 65535", "demo", port, status=2)
    with socket.socket() as taken:
        taken.bind(("127.0.0.1", 0))
        taken.listen()
        port = str(taken.getsockname()[1])
        says("a port in use", f"port {port} can't be had: Address already in use", "demo", port, status=1)
    says("no words", "usage: ./serve ROOT", status=2)
    says("no folder", "is no folder; name one that is there", "missing", "8080", status=2)
    says("a file", "is no folder; name one that is there", "README.md", "8080", status=2)
    says("an option that is none", "davserve: not understood: ", "demo", free_port(), "--index", status=2)
    env = {**os.environ, "DAVSERVE_SILENCE": "x"}
    says("a limit that is none", "are seconds, from 1 to 86400", "demo", free_port(), env=env, status=2)
    env = {**os.environ, "DAVSERVE_CONNECTIONS": "0"}
    says("no connections", "is a number from 1 to 100000", "demo", free_port(), env=env, status=2)
    tools = work.at / "tmp/tools"
    tools.mkdir()
    for name in ("bash", "cat", "dirname", "env", "find", "mktemp", "rm", "sed", "sh"):
        (tools / name).symlink_to(shutil.which(name))
    env = {"PATH": str(tools)}
    says("no socat", "socat is missing; install it", "demo", free_port(), env=env, status=1)
    (tools / "socat").symlink_to(shutil.which("socat"))
    bare = work.at / "tmp/bare"
    (bare / "crates").mkdir(parents=True)
    for name in ("serve", "davserve", "crates.txt"):
        shutil.copy2(work.at / name, bare / name)
    says("no program and no toolchain", "put the toolchain's rt on the PATH", "demo", free_port(), env=env, status=1, at=bare)
    told = subprocess.run([work.at / "serve", "--help"], stdout=subprocess.PIPE, text=True)
    for it in ("--private", "--fast", "--autoindex", "--indexfile NAME", "--prefix P", "--fold", "--macos", "--bufsize N"):
        tally(f"./serve --help has a line for {it}", told.returncode == 0 and f"\n  {it} " in told.stdout, told.stdout)
    program = work.at / "crates/davserve/out/davserve"
    lost = subprocess.run([program, "missing", "serve"], cwd=work.at, input=b"", stderr=subprocess.PIPE)
    fits = lost.returncode == 0 and lost.stderr.count(b"\n") == 1 and b'"missing"' in lost.stderr
    tally("davserve tells in one line that ROOT is no folder", fits, lost.stderr)


def try_options(work, tally):
    """Options stand behind the folder as well, where the port is left out. Another may have that port."""
    with Served(work, "demo", "--indexfile", "index.html", port="") as it:
        fits = r"127\.0\.0\.1:8080/ with --autoindex --bufsize 65536 --indexfile index.html|port 8080 can't be had"
        tally("./serve without a port takes 8080", within(5, lambda: re.search(fits, it.said())), it.said())
    with Served(work, "demo", "--indexfile", "index.html") as it:
        got = talk(it.port, head("/", "Connection: close"))
        tally("an index file", got.endswith((work.at / "demo/index.html").read_bytes()), got[:40])
        got = talk(it.port, head("/folder/", "Connection: close"))
        tally("a directory that lacks the index file", got.startswith(b"HTTP/1.1 404"), got[:40])


def link_fast(work, program, env=None):
    """Links the copy's deploy/fast.c before the program's object, or the one that is named."""
    env = {**os.environ, "DAVSERVE_OBJECT": str(TOP / "crates/davserve/out/davserve.o"), **(env or {})}
    ran = subprocess.run([work.at / "deploy/fast", program], env=env, stdout=subprocess.PIPE, stderr=subprocess.STDOUT, text=True)
    if ran.returncode:
        # (it isn't what is tried: a line that is taken out isn't seen by this)
        raise RuntimeError(ran.stdout)


def zombies(process):
    """How many processes that have ended wait to be noticed by this one."""
    found = 0
    for it in pathlib.Path("/proc").glob("[0-9]*"):
        with contextlib.suppress(OSError):
            state, parent = (it / "stat").read_text().rpartition(")")[2].split()[:2]
            found += state == "Z" and parent == process.name
    return found


def try_fast(work, tally):
    """By --fast the program listens, notices each that ended, and is taken from beside the script."""
    folder, program = folder_of(work), TOP / "crates/davserve/out/davserve"
    alone = work.at / "tmp/beside"
    alone.mkdir()
    for name, file in (("serve", work.at / "serve"), ("davserve", program), ("davserve-fast", work.env["DAVSERVE_PROGRAM"])):
        shutil.copy(file, alone / name)
    with Served(work, folder, env={"DAVSERVE_PROGRAM": ""}, at=alone) as it:
        tally("the program beside the script is taken", gets_ten(Door(it.port), "127.0.0.1", 10)[0], it.said())
        process = listening(it.port)[0]
        tally("it is what listens", os.readlink(process / "exe") == str(alone / "davserve-fast"))
        with Door(it.port).open() as kept:
            kept.sendall(head("/ten.txt"))
            kept.recv(4096)
            tally("no connection holds what listens", listening(it.port) == [process], listening(it.port))
        right = sum(gets_ten(Door(it.port), "127.0.0.1", 10)[0] for _ in range(100))
        tally("100 connections one after the other", right == 100, right)
        tally("those that have ended are noticed", within(5, lambda: zombies(process) == 0), zombies(process))
    (alone / "davserve-fast").unlink()
    for what, given, at in (("another program", program, None), ("no program", "", alone)):
        with Served(work, folder, env={"DAVSERVE_PROGRAM": str(given)}, at=at) as it:
            fits = it.run.wait(10) == 1 and it.said().endswith("isn't the program for --fast: deploy/fast builds it\n")
            tally(f"{what} is refused", fits, it.said())
    with Served(work, folder, port=free_port()) as one, Served(work, folder, port=one.port) as it:
        tally("a port in use", it.run.wait(10) == 1 and f"port {it.port} can't be had: Address already in use" in it.said(), it.said())


PARTS = (try_words, try_options, try_roots, try_release, try_private, try_answers, try_said, try_silence, try_listens,
         try_socket, try_pages, try_connections, try_ends, try_memory, try_many_at_once)
# Those of --fast: all but what words are understood.
FAST = (try_fast, try_roots, try_private, try_answers, try_said, try_silence, try_listens, try_socket, try_connections, try_ends,
        try_memory, try_many_at_once)


def try_parts(work, tally, parts):
    for part in parts:
        try:
            part(work, tally)
        except (OSError, EOFError, subprocess.SubprocessError) as error:
            tally(part.__name__, False, repr(error))


def is_reached(tally):
    with socket.socket() as it:
        it.bind(("127.0.0.1", 0))
        it.listen()
        if listens(it.getsockname()[1]):
            return True
    tally.leave_out("all of ./serve, since 127.0.0.1 can't be reached here")
    return False


def try_own(work, tally, parts=PARTS):
    """What needs socat and Python alone."""
    if not shutil.which("socat"):
        tally.leave_out("all of ./serve, since socat is missing")
    elif is_reached(tally):
        try_parts(work, tally, parts)


def try_own_fast(work, tally, parts=FAST):
    """The same by --fast, in a folder of its own, with the program that the copy's deploy/fast makes."""
    lacking = [name for name in ("cc", "objcopy", "rt") if not shutil.which(name)]
    if lacking:
        tally.leave_out(f"all of ./serve --fast, for want of {' '.join(lacking)}")
    elif is_reached(tally):
        subprocess.run([TOP / "deploy/object"], check=True)
        program = work.at / "tmp/davserve-fast"
        link_fast(work, program)
        work.words, work.env = ("--fast",), {"DAVSERVE_PROGRAM": str(program)}
        try_parts(work, lambda what, *found: tally(f"--fast: {what}", *found), parts)
