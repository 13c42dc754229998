#!/usr/bin/env python3
"""Random lists of uploads and readers for the driver upload_rows, and lists in which each call of the disk fails in turn.

    checks/rows/uploading.py            compares the rows of its own in the driver's file, and their answers
    checks/rows/uploading.py --write    puts the rows there, in place of those under its headings, or at the end

The random lists are answered once more by a model that knows only what is shown: a map of paths to bytes, or to None for
a directory. An upload changes the map at its commit alone, to all its pieces; a hidden name is seen by who lists its
directory, and by nobody else. Who has a file open goes on with the bytes that it had when it was opened. What the module
of the driver wants has to be the same.
"""
import os
import random
import sys

sys.dont_write_bytecode = True
HERE = os.path.dirname(os.path.abspath(__file__))
TOP = os.path.dirname(os.path.dirname(HERE))
sys.path.insert(0, HERE)
import upload_rows  # noqa: E402
from calls import FS_TEXTS  # noqa: E402

LISTS, AGED_LISTS = 300, 60
STEPS = 30
HEADING = "# Random lists of uploads and readers."
AGED_HEADING = "# Random lists with sweeps by age."
FAULTS_HEADING = "# Each call fails in turn."
SCENE = [("/d", None), ("/d/h", "in d"), ("/f.txt", "0123456789"), ("/g", "a longer text, of some pieces")]
TARGETS = ["/f.txt", "/f.txt", "/f.txt", "/g", "/n", "/d/h", "/d/n"]
ODD = ["/", "/d", "/d/", "/no/x", "/f.txt/x", "/.upload-x", "/d/.upload-0000000000000001", "/.uploadx"]
FIELDS = ["", "", "", "", "", " if-match:*", " if-none-match:*"]
# Hidden files that killed runs left, and their seconds. No upload of the lists is as old as one of them.
LEFT = [("/.upload-000000000000000a", 1), ("/.upload-000000000000000b", 3), ("/d/.upload-000000000000000c", 2),
        ("/d/.upload-000000000000000d", 3)]
PIECES = ["a", "bc", "def", "0123", "a-longer-piece"]
COUNTS = [1, 2, 3, 4, 5, 64]
FAULTED = [
    "file /f.txt 10 1 old | 1 begin /f.txt 1 | 1 piece ab | get /f.txt | 1 piece cd | 1 commit | get /f.txt | names /",
    "file /f.txt 10 1 old | 1 begin /f.txt 1 | 1 piece ab | 1 abort | get /f.txt | names /",
    "dir /d 9 1 | 1 begin /d/n 1 | 1 piece ab | 2 begin /d/n 2 | 2 piece cd | 1 commit | 2 commit | get /d/n | names /d",
    "file /f 10 1 old | file /.upload-000000000000000c 12 1 c | file /.upload-000000000000000d 13 1 d | sweep / | names /"
    " | get /f",
    "file /f.txt 10 1 0123456789 | 1 begin /f.txt 1 | 1 piece ab | open /f.txt | read 4 | 1 commit | read 4 | read 4 | get /f.txt"
    " | names /",
    "file /f.txt 10 1 0123456789 | open /f.txt | 1 begin /f.txt 1 | 2 begin /f.txt 2 | 1 piece ab | 2 piece cd | read 4"
    " | 1 commit | 2 commit | read 64 | close | open /f.txt | read 64 | names /",
    "file /f 10 1 old | file /.upload-000000000000000c 12 1 c | file /.upload-000000000000000d 13 2 d"
    " | file /.upload-000000000000000e 14 3 e | before / 3 | names / | get /f",
    "file /f 10 1 old | file /.upload-000000000000000c 12 1 c | file /.upload-000000000000000d 13 1 d"
    " | meanwhile / 2 /.upload-000000000000000c | names / | get /f",
]


class Shown:
    """What is shown, and what is under way."""

    def __init__(self):
        self.tree = {"/": None, **dict(SCENE)}
        self.hidden, self.slots, self.reader = {}, {}, None

    def put_refusal(self, path, fields):
        up = path.rstrip("/").rpartition("/")[0] or "/"
        if path.endswith("/"):
            return "refused 405"
        if self.tree.get(up, "") is not None:
            return "refused 409"
        if path in self.tree and self.tree[path] is None:
            return "refused 405"
        if "if-none-match" in fields and path in self.tree or "if-match" in fields and path not in self.tree:
            return "refused 412"
        return None

    def begin(self, slot, words):
        if slot in self.slots:
            return "one is under way"
        path, token, fields = words[1], int(words[2], 16), " ".join(words[3:])
        if path.rpartition("/")[2].startswith(".upload-"):
            return "hidden"
        refused = self.put_refusal(path, fields)
        if refused:
            return refused
        hidden = f"{path.rpartition('/')[0]}/.upload-{token:016x}"
        if hidden in self.hidden:
            return f"busy {hidden.rpartition('/')[2]}"
        self.hidden[hidden] = slot
        self.slots[slot] = path, hidden, []
        return "ok"

    def of_slot(self, slot, words):
        if words[0] == "begin":
            return self.begin(slot, words)
        if slot not in self.slots:
            return "none is under way"
        path, hidden, pieces = self.slots[slot]
        if words[0] == "piece":
            pieces.append(words[1])
            return "ok"
        del self.slots[slot], self.hidden[hidden]
        if words[0] == "abort":
            return "ok"
        refused = self.put_refusal(path, " ".join(words[1:]))
        if refused:
            return refused
        status = "204" if path in self.tree else "201"
        self.tree[path] = "".join(pieces)
        return status

    def names(self, path):
        front = path.rstrip("/")
        names = [p.rpartition("/")[2] for p in [*self.tree, *self.hidden] if p != "/" and p.rpartition("/")[0] == front]
        return f"names {len(names)}" + "".join(f" {name}" for name in sorted(names))

    def of_reader(self, words):
        """What is left of the bytes that stood when the file was opened."""
        if words[0] == "open":
            there = self.tree.get(words[1])
            if self.reader is not None:
                return "one is open"
            if there is None:
                return FS_TEXTS["NotFound"]
            self.reader = there
            return "ok"
        if self.reader is None:
            return "none is open"
        if words[0] == "close":
            self.reader = None
            return "closed"
        given, self.reader = self.reader[:int(words[1])], self.reader[int(words[1]):]
        return f"gives {given}"

    def answer(self, words):
        if words[0] in ("1", "2"):
            return self.of_slot(words[0], words[1:])
        if words[0] in upload_rows.READS:
            return self.of_reader(words)
        if words[0] == "names":
            return self.names(words[1])
        if words[0] == "sweep":
            return "swept 0"
        if words[0] == "rm":
            return "done" if self.tree.pop(words[1], None) is not None else FS_TEXTS["NotFound"]
        there = self.tree.get(words[1])
        return FS_TEXTS["NotFound"] if there is None else f"has {there[:64]}"


class Aged(Shown):
    """What is shown where hidden files were left. A sweep by age takes those that are older than its time, and no other."""

    def __init__(self):
        super().__init__()
        self.left = dict(LEFT)

    def names(self, path):
        shown, front = super().names(path).split(" ")[2:], path.rstrip("/")
        names = shown + [p.rpartition("/")[2] for p in self.left if p.rpartition("/")[0] == front]
        return f"names {len(names)}" + "".join(f" {name}" for name in sorted(names))

    def swept(self, path, limit, other=None):
        gone = [p for p, time in self.left.items() if p.rpartition("/")[0] == path.rstrip("/") and time < limit]
        if other in self.left or self.tree.get(other) is not None:
            (self.left if other in self.left else self.tree).pop(other)
        taken = [p for p in gone if self.left.pop(p, None) is not None]
        return f"swept {len(taken)}"

    def answer(self, words):
        if words[0] in upload_rows.AGED:
            return self.swept(words[1], int(words[2]), *words[3:])
        return self.swept(words[1], 9) if words[0] == "sweep" else super().answer(words)


def read_step(rng, shown):
    """A step of the reader that stays open: most read on in pieces, as long as there is something open."""
    if shown.reader is None and rng.randrange(10):
        return f"open {rng.choice(TARGETS)}"
    return "close" if rng.randrange(5) == 0 else f"read {rng.choice(COUNTS)}"


def step(rng, shown):
    """A step, more often one that goes on with what is under way."""
    kind = rng.randrange(15)
    if kind < 7:
        slot = rng.choice("12")
        if slot not in shown.slots or rng.randrange(20) == 0:
            path = rng.choice(ODD) if rng.randrange(6) == 0 else rng.choice(TARGETS)
            return f"{slot} begin {path} {rng.randrange(1, 4):x}{rng.choice(FIELDS)}"
        end = rng.randrange(8)
        if end < 5:
            return f"{slot} piece {rng.choice(PIECES)}"
        return f"{slot} abort" if end == 5 else f"{slot} commit{rng.choice(FIELDS)}"
    if kind < 10:
        return f"get {rng.choice(TARGETS)}"
    if kind == 10:
        return f"rm {rng.choice(TARGETS)}"
    if kind > 11:
        return read_step(rng, shown)
    return rng.choice(["names /", "names /d"] + ([] if shown.hidden else ["sweep /", "sweep /d/"]))


def aged_step(rng, shown):
    """A step, some of them sweeps by age, in which another client may take a file."""
    kind, sweep = rng.randrange(6), f"{rng.choice(['/', '/d', '/d/'])} {rng.randrange(1, 5)}"
    if kind == 0:
        return f"before {sweep}"
    if kind == 1:
        return f"meanwhile {sweep} {rng.choice([path for path, _ in LEFT] + TARGETS)}"
    return step(rng, shown)


def scene():
    rows = [("dir" if text is None else "file", path, text) for path, text in SCENE if text is None or " " not in text]
    return " | ".join(f"{kind} {path} {10 + at} 1" + (f" {text}" if text is not None else "")
                      for at, (kind, path, text) in enumerate(rows))


def random_list(seed, shown, makes, begins):
    """A list and what it is to be answered, but for how often the disk was asked."""
    rng = random.Random(seed)
    shown.tree = {path: text for path, text in shown.tree.items() if text is None or " " not in text}
    steps, answers = [], []
    for _ in range(STEPS):
        steps.append(makes(rng, shown))
        answers.append(shown.answer(steps[-1].split(" ")))
    return " | ".join([*begins, *steps]), " | ".join(answers) + " | "


def random_lists():
    left = [f"file {path} {50 + at} {seconds} left" for at, (path, seconds) in enumerate(LEFT)]
    return ([random_list(seed, Shown(), step, [scene()]) for seed in range(LISTS)],
            [random_list(1000 + seed, Aged(), aged_step, [scene(), *left]) for seed in range(AGED_LISTS)])


def faulted(row):
    """The list with each of its calls failing, as far as it asks any."""
    asked = int(upload_rows.wanted(row).rpartition(" ")[2])
    return [f"fail {at} | {row}" for at in range(1, asked + 1)]


def own_rows():
    randoms, aged = random_lists()
    for row, wanted in randoms + aged:
        got = upload_rows.wanted(row).rpartition("asked ")[0]
        if got != wanted:
            raise SystemExit(f"the models differ:\n{row}\n{got}\n{wanted}")
    return {HEADING: [row for row, _ in randoms], FAULTS_HEADING: [row for one in FAULTED for row in faulted(one)],
            AGED_HEADING: [row for row, _ in aged]}


def check_faults(rows):
    """Whatever fails, a file that was shown is read whole: as it was, or as all pieces of a commit made it. What is open
    over a commit is read on in one of these."""
    whole = {"old", "abcd", "ab", "cd", "0123456789"}
    for row in rows:
        read = ""
        for answer in upload_rows.wanted(row).split(" | "):
            read = "" if answer == "closed" else read + answer[6:] if answer.startswith("gives ") else read
            if answer.startswith("has ") and answer[4:] not in whole or not any(text.startswith(read) for text in whole):
                raise SystemExit(f"a file is shown in part:\n{row}\n{answer}")


def main():
    stdin = os.path.join(TOP, "crates", "upload_rows", "stdin")
    own = own_rows()
    check_faults(own[FAULTS_HEADING])
    with open(stdin, encoding="utf-8") as file:
        lines = file.read().splitlines()
    kept, skips = [], False
    for line in lines:
        if line.startswith("#"):
            skips = line in own
        if not skips:
            kept.append(line)
    wanted = kept + [line for heading, rows in own.items() for line in [heading, *rows]]
    if "--write" in sys.argv:
        with open(stdin, "w", encoding="utf-8") as file:
            file.write("\n".join(wanted) + "\n")
    elif lines != wanted:
        print("upload_rows: its rows aren't those of uploading.py")
        return 1
    print(f"upload_rows: {sum(map(len, own.values()))} rows of lists, {LISTS + AGED_LISTS} of them answered by two models"
          " alike")
    return 0


if __name__ == "__main__":
    sys.exit(main())
