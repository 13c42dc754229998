#!/usr/bin/env python3
"""Measures requests that write, by the processor time of the program, in rounds by turns.

    bench/writes.py [--program PATH] [--rounds COUNT] [--mebibytes COUNT] [--requests COUNT] [--only WORD]

- A PUT of 256 MiB, to `cat` of the same bytes from a pipe into a file.
- 5,000 PUTs of 10 bytes, over one file and as new files, to as many GETs of 10 bytes; MKCOLs and DELETEs.
- DELETE and COPY of trees of up to 2,000 levels, with a file at each, and of up to 100,000 files in one directory, with a
  stack of 256 KiB.

Of each the least of all rounds counts. Of memory the greatest is told; below some 20 MiB it is this script's own. The folders
stand where TMPDIR says. WORD is `large`, `small` or `trees`. It wants Python 3 alone.
"""
import argparse
import os
import resource
import shutil
import subprocess
import sys
import tempfile

TOP = os.path.dirname(os.path.dirname(os.path.abspath(__file__)))
STACK = 256 * 1024


def small_stack():
    resource.setrlimit(resource.RLIMIT_STACK, (STACK, STACK))


def measured(words, pieces, output=subprocess.DEVNULL, before=None):
    """The processor time in seconds and the peak memory in KiB of a program that is given these pieces by a pipe."""
    process = subprocess.Popen(words, stdin=subprocess.PIPE, stdout=output, preexec_fn=before)
    for piece in pieces:
        process.stdin.write(piece)
    process.stdin.close()
    _, status, usage = os.wait4(process.pid, 0)
    process.returncode = os.waitstatus_to_exitcode(status)
    if process.returncode != 0:
        raise SystemExit(f"writes: {words[0]} ended with {process.returncode}")
    return usage.ru_utime + usage.ru_stime, usage.ru_maxrss


def answered(words, data, before=None):
    """The same, with what the program wrote."""
    with tempfile.TemporaryFile() as output:
        times = measured(words, [data], output, before)
        output.seek(0)
        return times, output.read()


def request(method, target, *fields, body=b""):
    lines = [f"{method} {target} HTTP/1.1", *fields]
    if body:
        lines.append(f"content-length: {len(body)}")
    return "\r\n".join(lines + ["", ""]).encode() + body


class Least:
    """The least of the rounds, by name."""

    def __init__(self):
        self.times, self.memory = {}, {}

    def add(self, name, measure):
        time, memory = measure
        self.times[name] = min(time, self.times.get(name, time))
        self.memory[name] = max(memory, self.memory.get(name, 0))

    def show(self, name, to=None):
        ratio = f", {self.times[name] / self.times[to]:.2f} of {to}" if to else ""
        print(f"{name}: {self.times[name]:.3f} s, {self.memory[name] / 1024:.1f} MiB{ratio}", flush=True)


def large(program, rounds, mebibytes):
    block = os.urandom(1 << 20)
    head = f"PUT /large HTTP/1.1\r\ncontent-length: {mebibytes << 20}\r\n\r\n".encode()
    least, put, cat = Least(), f"PUT of {mebibytes} MiB", "cat"
    for _ in range(rounds):
        with tempfile.TemporaryDirectory() as folder:
            least.add(put, measured([program, folder, "serve"], [head] + [block] * mebibytes))
            if os.path.getsize(os.path.join(folder, "large")) != mebibytes << 20:
                raise SystemExit("writes: the file has another length")
            with open(os.path.join(folder, "by-cat"), "wb") as file:
                least.add(cat, measured(["cat"], [block] * mebibytes, file))
    least.show(cat)
    least.show(put, cat)


def small(program, rounds, requests):
    body = b"0123456789"
    names = [f"/n{number}" for number in range(requests)]
    work = {
        f"{requests} GETs of 10 bytes": request("GET", "/x") * requests,
        f"{requests} PUTs of 10 bytes over one file": request("PUT", "/x", body=body) * requests,
        f"{requests} PUTs of 10 bytes as new files": b"".join(request("PUT", name, body=body) for name in names),
        f"{requests} MKCOLs": b"".join(request("MKCOL", name) for name in names),
        f"{requests} DELETEs of files": b"".join(request("DELETE", name) for name in names),
    }
    least, first = Least(), next(iter(work))
    for _ in range(rounds):
        for name, data in work.items():
            with tempfile.TemporaryDirectory() as folder:
                standing = ["/x"] + (names if "DELETE" in name else [])
                for path in standing:
                    with open(folder + path, "wb") as file:
                        file.write(body)
                least.add(name, measured([program, folder, "serve"], [data]))
    for name in work:
        least.show(name, first)


def chain(folder, levels):
    """A directory in a directory, and so on, with a file in each."""
    start = os.getcwd()
    os.chdir(folder)
    for _ in range(levels):
        os.mkdir("d")
        open("f", "wb").close()
        os.chdir("d")
    os.chdir(start)


def flat(folder, files):
    os.mkdir(os.path.join(folder, "d"))
    for number in range(files):
        open(os.path.join(folder, "d", f"f{number}"), "wb").close()


def cleared(folder):
    """Removes what is left, which may be deeper than a path may be long."""
    subprocess.run(["rm", "-rf", folder], check=True)


def trees(program, rounds):
    sizes = [(chain, "levels", size) for size in (500, 1000, 2000)] + [(flat, "files", size) for size in (25_000, 50_000, 100_000)]
    least, names = Least(), []
    for _ in range(rounds):
        for make, what, size in sizes:
            for method, fields, status in (("COPY", ["destination: /k"], b"201"), ("DELETE", [], b"204")):
                folder = tempfile.mkdtemp(prefix="w")
                make(folder, size)
                measure, wrote = answered([program, folder, "serve"], request(method, "/d", *fields), small_stack)
                if wrote.split()[1] != status or (method == "DELETE") == os.path.exists(os.path.join(folder, "d")):
                    print(f"{method} of {size} {what}: {wrote.splitlines()[0].decode()}")
                name = f"{method} of {size} {what}"
                least.add(name, measure)
                names += [] if name in names else [name]
                cleared(folder)
    for name in sorted(names):
        least.show(name)


def main():
    parser = argparse.ArgumentParser(description=__doc__, formatter_class=argparse.RawDescriptionHelpFormatter)
    parser.add_argument("--program", default=os.path.join(TOP, "crates", "davserve", "out", "davserve"))
    parser.add_argument("--rounds", type=int, default=5)
    parser.add_argument("--mebibytes", type=int, default=256)
    parser.add_argument("--requests", type=int, default=5000)
    parser.add_argument("--only", choices=("large", "small", "trees"))
    given = parser.parse_args()
    if given.only in (None, "large"):
        large(given.program, given.rounds, given.mebibytes)
    if given.only in (None, "small"):
        small(given.program, given.rounds, given.requests)
    if given.only in (None, "trees"):
        trees(given.program, min(given.rounds, 3))


if __name__ == "__main__":
    sys.exit(main())
