#!/usr/bin/env python3
"""The quick measure: processor time of davserve over the floor in C, by a client that blocks.

    ./bench/ratios.py PROGRAM [--pipes] [--rounds N]

PROGRAM is davserve. Rounds of both are interleaved, over a socket pair or pipes, and the least of each counts. The rows are a GET
of 10 bytes, a range of 4 KiB, sixteen ranges of 256 bytes in one answer, a 304, a HEAD and a 404, with 32 and one in flight, a GET
of 256 MiB, with the default buffer and with that of ./serve, and the page of 10,000 files. The floor knows no HEAD and no 404: those
are beside its GET. The last line has one figure for each row. It wants `cc`, and takes a minute.
"""
import argparse
import os
import socket
import subprocess
import tempfile

HERE = os.path.dirname(os.path.abspath(__file__))
FIELDS = b"Host: h\r\nUser-Agent: curl/7.88.1\r\nAccept: */*\r\n"
COUNTS = {32: 12_000, 1: 5_000}
PAGES = 5


def ends_of(command, by_pipes):
    """The process of a command, and how it is sent bytes, read from, and told that no more come."""
    if by_pipes:
        process = subprocess.Popen(command, stdin=subprocess.PIPE, stdout=subprocess.PIPE, bufsize=0)
        return process, process.stdin.write, lambda: process.stdout.read(1 << 20), process.stdin.close
    ours, theirs = socket.socketpair()
    process = subprocess.Popen(command, stdin=theirs.fileno(), stdout=theirs.fileno())
    theirs.close()
    return process, ours.sendall, lambda: ours.recv(1 << 20), lambda: ours.shutdown(socket.SHUT_WR)


def seconds_of(command, request, size, count, window, by_pipes):
    """Seconds of processor time of a command that answers so many requests by so many bytes each, some in flight."""
    process, send, take, close = ends_of(command, by_pipes)
    sent = got = 0
    while got < size * count:
        more = min(window - (sent - got // size), count - sent)
        if more > 0:
            send(request * more)
            sent += more
        piece = take()
        if not piece:
            raise SystemExit(f"{command[0]} ended early")
        got += len(piece)
    close()
    _, _, usage = os.wait4(process.pid, 0)
    process.returncode = 0
    return usage.ru_utime + usage.ru_stime


def answer_to(command, request):
    return subprocess.run(command, input=request, stdout=subprocess.PIPE, check=True).stdout


def request_for(method, target, *more):
    return f"{method} {target} HTTP/1.1\r\n".encode() + FIELDS + b"".join(more) + b"\r\n"


def rows_for(ours):
    """Each row: its name, what davserve is asked, and what the floor is."""
    get = request_for("GET", "/f.txt")
    tag = [line for line in answer_to(ours, get).split(b"\r\n") if line.startswith(b"etag")][0][6:]
    part = request_for("GET", "/long.bin", b"Range: bytes=1000000-1004095\r\n")
    places = ",".join(f"{at}-{at + 255}" for at in range(1_000_000, 17_000_000, 1_000_000))
    parts = request_for("GET", "/long.bin", f"Range: bytes={places}\r\n".encode())
    return [("GET", get, get), ("range", part, part), ("ranges", parts, parts),
            ("304", *[request_for("GET", "/f.txt", b"If-None-Match: " + tag + b"\r\n")] * 2),
            ("HEAD", request_for("HEAD", "/f.txt"), get), ("404", request_for("GET", "/no.txt"), get)]


def least_of(pairs, count, window, given):
    """The least time of each of two commands over all rounds, by turns."""
    sizes = [len(answer_to(command, request)) for command, request in pairs]
    least = [float("inf")] * len(pairs)
    for _ in range(given.rounds):
        for at, (command, request) in enumerate(pairs):
            took = seconds_of(command, request, sizes[at], count, window, given.pipes)
            least[at] = min(least[at], took)
    return least


def print_row(name, least, count, told):
    ours, floor = (took / count * 1e6 for took in least)
    told.append(f"{name} {ours / floor:.2f}")
    print(f"{name:10} {ours:10.2f} us, floor {floor:10.2f} us, ratio {ours / floor:.2f}")


def measure(given, place):
    floor, root, told = os.path.join(place, "floor"), os.path.join(place, "root"), []
    os.mkdir(root)
    subprocess.run(["cc", "-O2", "-o", floor, os.path.join(HERE, "floor.c")], check=True)
    with open(os.path.join(root, "f.txt"), "w", encoding="ascii") as it:
        it.write("0123456789")
    with open(os.path.join(root, "long.bin"), "w", encoding="ascii") as it:
        it.truncate(1 << 28)
    os.mkdir(os.path.join(root, "many"))
    for number in range(10_000):
        with open(os.path.join(root, "many", f"file{number}.txt"), "w", encoding="ascii"):
            pass
    ours, theirs = [given.program, root, "serve"], [floor, root]
    for name, request, asked in rows_for(ours):
        for window, count in COUNTS.items():
            least = least_of([(ours, request), (theirs, asked)], count, window, given)
            print_row(f"{name} {window}", least, count, told)
    long = request_for("GET", "/long.bin")
    print_row("256 MiB", least_of([(ours, long), (theirs, long)], 1, 1, given), 1, told)
    print_row("by 64 KiB", least_of([(ours + ["--bufsize", "65536"], long), (theirs, long)], 1, 1, given), 1, told)
    page = request_for("GET", "/many/")
    print_row("page", least_of([(ours + ["--autoindex"], page), (theirs, page)], PAGES, 1, given), PAGES, told)
    print(", ".join(told))


def main():
    parser = argparse.ArgumentParser(description=__doc__, formatter_class=argparse.RawDescriptionHelpFormatter)
    parser.add_argument("program", metavar="PROGRAM")
    parser.add_argument("--pipes", action="store_true", help="over pipes in place of a socket pair")
    parser.add_argument("--rounds", type=int, default=5)
    given = parser.parse_args()
    with tempfile.TemporaryDirectory() as place:
        measure(given, place)


if __name__ == "__main__":
    main()
