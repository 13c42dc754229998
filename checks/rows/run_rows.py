"""The wanted rows of `run_rows`: runs of the program over objects in memory."""
from disk import SECOND, Disk
from serve import Sink, Source, run
from texts import bytes_of, number, print_wanted, spelt_in_runs

ROOM = 100_000


def path_of(cell):
    return tuple(bytes_of(name).decode() for name in cell.split("/"))


def change_of(text):
    """A change of the outside, as the model's disk makes it."""
    word, path, *more = text.split(" ", 2)
    third = "".join(more)
    return word, path_of(path), number(third) if word == "cut" else bytes_of(third)


class Scene:
    """The words of a run, and the objects that it runs over."""

    def __init__(self, row):
        self.words, self.input, self.take, self.put, self.room = ["folder", "serve"], b"", ROOM, ROOM, ROOM
        self.source_fails, self.sink_fails, self.gain = set(), set(), 0
        self.disk, self.next = Disk(), 0x20
        self.disk.add(("f.txt",), 0x1a, SECOND, b"0123456789")
        self.disk.add(("e.txt",), 0x1b, SECOND, b"")
        for part in row.split("|"):
            self.set(*part.strip().partition(" ")[::2])

    def set(self, word, text):
        if word == "words":
            self.words = [bytes_of(cell).decode() for cell in text.split(",")] if text else []
        elif word == "in":
            self.input = bytes_of(text)
        elif word in ("take", "put"):
            setattr(self, word, max(1, min(number(text), 1_000_000)))
        elif word == "room":
            self.room = min(number(text), 1_000_000)
        elif word in ("source-fails", "sink-fails"):
            getattr(self, word.replace("-", "_")).add(number(text))
        elif word == "disk-fails":
            self.disk.fails.add(number(text))
        elif word == "gains":
            self.gain = number(text)
        elif word == "cut":
            self.disk.scripts += [[], [], [("cut", ("f.txt",), number(text))]]
        elif word == "long":
            self.disk.add(("long.bin",), 0x1c, SECOND, b"\x07" * number(text))
        elif word == "bare":
            self.disk = Disk()
        elif word in ("dir", "file"):
            path, _, data = text.partition(" ")
            self.disk.add(path_of(path), self.next, SECOND, bytes_of(data) if word == "file" else None)
            self.next += 1
        elif word == "turn":
            self.disk.scripts.append([change_of(change) for change in text.split(",") if change])
        elif word == "docs":
            self.disk.add(("Docs",), 0x1d, SECOND)
            self.disk.add(("Docs", "A.txt"), 0x1e, SECOND, b"0123456789")


def came_of(row, room=None):
    """The status, what was written, and the disk."""
    scene = Scene(row)
    sink = Sink(scene.room if room is None else room, scene.put, scene.sink_fails)
    status = run(scene.words, Source(scene.input, scene.take, scene.source_fails), sink, scene.disk, scene.gain)
    return status, sink.written, scene.disk


def reported(row):
    """What a fetch came to, in words."""
    scene, report = Scene(row), []
    sink = Sink(scene.room, scene.put, scene.sink_fails)
    run(scene.words, Source(scene.input, scene.take, scene.source_fails), sink, scene.disk, scene.gain, report)
    return report[0] if report else "no report"


def rooms(row, whole):
    """With each smaller room: how many runs stop, and how many fill it with the front of what is written."""
    runs = [came_of(row, room) for room in range(len(whole))]
    stopped = sum(status == 4 for status, _, _ in runs)
    filled = sum(written == whole[:room] for room, (_, written, _) in enumerate(runs))
    return f" | {len(whole)} rooms, {stopped} stopped, {filled} filled"


def wanted(row):
    if row.startswith("#"):
        return row
    status, written, disk = came_of(row)
    line = f"{status} {'asked' if disk.asked else 'unasked'} {spelt_in_runs(written)}"
    if row.endswith("| report"):
        line += " | " + reported(row)
    if row.endswith("| listings"):
        line += f" | {disk.listings} listings"
    return line + (rooms(row, written) if row.endswith("| rooms") else "")


def wanted_all(rows):
    return [wanted(row) for row in rows]


if __name__ == "__main__":
    print_wanted(wanted_all)
