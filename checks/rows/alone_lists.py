#!/usr/bin/env python3
"""Random lists of calls and requests that write over a store of one file alone, as rows of the driver local_rows.

    alone_lists.py COUNT SEED
"""
import random
import sys

# The file, which others move away, replace or put a directory in the place of.
FILE = "/d/f.txt"
PATHS = ["/", "/x", "/x/", "/d/f.txt", "/x/y", "/G.txt", "/%C3%A9"]
PREFIXES = ["-", "-", "-", "/p"]


def outside_of(draw):
    """What others do: the file is moved away or back, copied over, or a directory comes to stand in its place."""
    kind, start, end = draw.choice([("mv", FILE, "/d/g"), ("mv", "/d/g", FILE), ("cp", "/k", FILE), ("mv", "/e", FILE),
                                    ("mv", FILE, "/e"), ("mv", "/full", FILE), ("mv", FILE, "/full"), ("cp", FILE, "/k")])
    return f"out {kind} {start} {end}"


def fields_of(draw, kind):
    """Fields of a COPY, a MOVE or a DELETE: destinations that read, that don't, and none."""
    fields = []
    if kind != "delete" and draw.random() < 0.95:
        fields.append(f"destination:{draw.choice(['/x', '/y/z', '/x/', '/G.txt', '/p/y', '/%25'])}")
    if draw.random() < 0.3:
        fields.append(f"overwrite:{draw.choice('FTx')}")
    if draw.random() < 0.2:
        fields.append(f"depth:{draw.choice(['0', 'infinity', '1'])}")
    return fields


def step_of(draw):
    kind = draw.choice(["delete", "copy", "move", "mkdir", "rmdir", "rm", "cp", "mv", "write", "write", "read", "look",
                        "list", "out", "out"])
    if kind == "out":
        return outside_of(draw)
    path = draw.choice(PATHS)
    if kind in ("delete", "copy", "move"):
        prefix = draw.choice(PREFIXES)
        asked = path if prefix == "-" else prefix + path
        return " ".join([kind, asked, prefix, *fields_of(draw, kind)])
    if kind in ("cp", "mv"):
        return f"{kind} {path} {draw.choice(PATHS)}"
    if kind == "write":
        return f"write {path} {draw.choice(['', 'hello', '0123456789'])}".rstrip()
    return f"{kind} {path}"


def row_of(draw):
    front = [f"alone {FILE}", "dir /d 10 1", f"file {FILE} 11 1 abc", "file /k 12 2 kkkk", "dir /e 13 2", "dir /full 14 2",
             "file /full/m 15 3 m"]
    if draw.random() < 0.3:
        front.append(f"fail {draw.randint(1, 60)} {draw.randint(1, 60)}")
    steps = [step_of(draw) for _ in range(draw.choice([10, 40, 40, 300]))]
    return " | ".join(front + steps + [f"out mv {FILE} /last", "out mv /last " + FILE, "read /"])


if __name__ == "__main__":
    source = random.Random(int(sys.argv[2]))
    for _ in range(int(sys.argv[1])):
        print(row_of(source))
