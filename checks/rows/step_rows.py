"""The wanted rows of `step_rows`: steps of a player over a disk in memory, and calls of a disk and of a store."""
from calls import on_disk, on_store
from disk import SECOND, YEAR_10000, Disk
from model import METHODS, Fields, Request, Settings, answer, is_plain
from play import Player, told
from store import Memory, Store
from targets import target_path
from texts import Beyond, Unread, bytes_of, digits, number, print_wanted, spelt, word


def names_of(text):
    names = tuple(name for name in text.split("/") if name)
    if any(name in (".", "..") or "\0" in name for name in names):
        raise Unread
    return names


REASONS = "an index file that is no plain name is outside the condition on settings"


def time_of(text):
    """A time. One with too many nanoseconds is none, and one past all that may be set stands for it."""
    secs, _, nanos = text.partition(".")
    nanos = number(nanos, 0, 2**32 - 1) or 0
    return (number(secs, -2**63, 2**63 - 1) or 0) * SECOND + nanos if nanos < SECOND else YEAR_10000


def moment_of(text):
    secs, _, nanos = text.partition(".")
    return min(digits(secs), 1_000_000) * SECOND + min(digits(nanos), SECOND - 1)


def change_of(text):
    kind, _, rest = text.partition(":")
    path, _, third = rest.partition(":")
    thirds = {"file": bytes_of, "cut": digits, "rename": names_of, "dir": str, "remove": str}
    if kind not in thirds:
        raise Unread
    return kind, names_of(path), thirds[kind](third)


def set_disk(disk, words):
    """Sets what a part says of a disk, and tells whether it says something."""
    if words[0] in ("dir", "file"):
        data = bytes_of(word(words, 4)) if words[0] == "file" else None
        disk.add(names_of(word(words, 1)), digits(word(words, 2)), time_of(word(words, 3)), data)
    elif words[0] == "fail":
        disk.fails.update(digits(w) for w in words[1:])
    elif words[0] == "short":
        disk.shorts = [digits(w) for w in words[1:]]
    elif words[0] == "batch":
        disk.scripts.append([change_of(w) for w in words[1:]])
    else:
        return False
    return True


def set_setting(settings, words):
    name, value = word(words, 1), word(words, 2)
    if name == "allow":
        if any(method not in METHODS for method in words[2:]):
            raise Unread
        settings.allow = words[2:]
    elif name in ("hide", "autoindex", "redirect"):
        setattr(settings, name, value == "yes")
    elif name == "buffer":
        settings.buffer = digits(value)
    elif name in ("prefix", "principal", "index"):
        setattr(settings, name, value)
    else:
        raise Unread


def request_of(words):
    target = target_path(word(words, 1))
    if target is None:
        raise Unread
    pairs, body = [], b""
    for text in words[2:]:
        if text.startswith("="):
            body = bytes_of(text[1:])
        else:
            name, _, value = text.partition(":")
            pairs.append((name, bytes_of(value)))
    return Request(words[0], target, Fields(pairs), body)


class Scene:
    """What the parts of a row set, and their steps."""

    def __init__(self, parts):
        self.disk, self.settings, self.room = Disk(), Settings(), (0, 0)
        self.folds = self.macos = False
        self.counted, self.now, self.steps = True, 0, []
        for part in parts:
            self.add(part.strip(), part.strip().split(" "))

    def add(self, part, words):
        if set_disk(self.disk, words):
            return
        if part in ("folds", "macos"):
            setattr(self, part, True)
        elif part == "uncounted":
            self.counted = False
        elif words[:2] == ["set", "memory"]:
            self.room = (digits(word(words, 2)), digits(word(words, 3)))
        elif words[0] == "now":
            self.now = moment_of(word(words, 1))
        elif words[0] == "set":
            set_setting(self.settings, words)
        else:
            self.add_steps(words)

    def add_steps(self, words):
        kind, second = words[0], word(words, 1)
        if kind == "poll":
            count = digits(words[2]) if len(words) > 2 else 1
            self.steps += [("poll", digits(second))] * min(count, 10_000)
        elif kind in ("abandon", "purge", "turn"):
            self.steps.append((kind, moment_of(second) if kind == "purge" else digits(second)))
        else:
            self.steps.append(("request", request_of(words), self.now))


def collected(row):
    """The status of a row's last request, and its body as one."""
    scene = Scene(row.split("|")[1:])
    reply = answer(Store(scene.disk), scene.settings, scene.steps[-1][1])
    body = reply.body.all(scene.disk)
    return f"{reply.status} | {body if body == 'broken' else spelt(body)} | over"


def played(row):
    scene = Scene(row.split("|"))
    if scene.settings.index is not None and not is_plain(scene.settings.index):
        raise Beyond
    store = Store(scene.disk, Memory(*scene.room), scene.folds, scene.macos)
    player = Player(store, scene.settings)
    answers = "".join(told(player.step(step)) + " | " for step in scene.steps)
    asked = f"asked {scene.disk.asked}, " if scene.counted and not scene.folds else ""
    return f"{answers}{asked}failed {scene.disk.faults}"


def wanted(row):
    """The wanted row, or None where the model doesn't reach it."""
    if row.startswith("#"):
        return row
    kind, parts = row.split(" ")[0], row.split("|")[1:]
    try:
        if kind in ("disk", "sure"):
            return on_disk(parts, set_disk, names_of)
        if kind == "store":
            return on_store(parts, set_disk)
        return collected(row) if kind == "collect" else played(row)
    except Unread:
        return "no answer"
    except Beyond:
        return None


def beside(row, line):
    """Each part of a row with the answers to its steps, and what is counted at the end. None for rows of calls."""
    if row.split(" ")[0] in ("#", "collect", "disk", "sure", "store"):
        return None
    scene, answers, pairs = Scene([]), line.split(" | "), []
    for part in row.split("|"):
        before = len(scene.steps)
        scene.add(part.strip(), part.strip().split(" "))
        count = len(scene.steps) - before
        pairs.append((part.strip(), answers[:count]))
        answers = answers[count:]
    return pairs + [("", answers)]


def wanted_all(rows):
    return [wanted(row) for row in rows]


if __name__ == "__main__":
    print_wanted(wanted_all)
