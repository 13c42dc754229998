#!/usr/bin/env python3
"""Random lists of steps for sessions over equal disks that stand still, as rows of the driver session_rows.

    session_lists.py COUNT SEED
"""
import random
import sys

NAMES = ["a", "Bc", "sub", "c.txt", "._a", "._Bc", "._sub", ".x"]
SETS = ["set autoindex yes", "set autoindex yes | folds", "set autoindex yes | macos", "set autoindex yes | folds | macos"]


def tree_of(draw):
    """Parts that set a tree in which no two names of a directory fold alike, and its paths."""
    parts, paths, dirs = [], [], [""]
    for number in range(2, draw.randint(5, 12)):
        path = draw.choice(dirs) + "/" + draw.choice(NAMES)
        if path in paths:
            continue
        paths.append(path)
        if draw.random() < 0.4:
            dirs.append(path)
            parts.append(f"dir {path} {number} {draw.randint(0, 9)}")
        else:
            parts.append(f"file {path} {number} {draw.randint(0, 9)} {'0123456789'[:draw.randint(1, 10)]}")
    return parts, paths + [d + "/" for d in dirs]


def target_of(draw, paths):
    path = draw.choice(paths)
    if draw.random() < 0.3:
        path = path.rsplit("/", 1)[0] + "/" + draw.choice(["._none", "None", "._a", "._SUB"])
    return path.swapcase() if draw.random() < 0.3 else path


def steps_of(draw, paths):
    replies, now, steps = 0, 0, []
    for _ in range(draw.randint(3, 14)):
        kind = draw.choice(["GET", "GET", "GET", "HEAD", "poll", "poll", "abandon", "purge", "now"])
        if kind in ("GET", "HEAD"):
            steps.append(f"{kind} {target_of(draw, paths)}")
            replies += 1
        elif kind in ("poll", "abandon"):
            steps.append(f"{kind} {draw.randint(0, replies)}")
        else:
            now += draw.choice([1, 59, 61, 901])
            steps.append(f"{kind} {now}")
    return steps


def row_of(draw):
    """Sessions over one tree, one of which may purge all the time."""
    parts, paths = tree_of(draw)
    front = ["uncounted", draw.choice(SETS)] + parts
    lists = [steps_of(draw, paths) for _ in range(draw.randint(2, 8))]
    if draw.random() < 0.3:
        lists[-1] = [f"purge {900 * n}" for n in range(40)]
    return " & ".join(" | ".join(front + steps) for steps in lists)


if __name__ == "__main__":
    source = random.Random(int(sys.argv[2]))
    for _ in range(int(sys.argv[1])):
        print(row_of(source))
