"""The wanted rows of `session_rows`: each session is answered as by itself, over a store that remembers nothing. How
often disks are asked is counted as if the sessions were played one after another over what all of them remember."""
from model import Settings
from play import Player, told
from step_rows import Scene, names_of
from store import Memory, Store
from texts import Unread, print_wanted

ROOM = 64


def settings_of(scenes):
    return (scenes[0].settings, scenes[0].folds, scenes[0].macos) if scenes else (Settings(), False, False)


def scenes_of(text):
    return [Scene(parts.split("|")) for parts in text.split("&")] if text.strip() else []


def played(text, memory, before=lambda scene: None):
    """The answers of all scenes, each with its disk, over a memory or over none."""
    scenes = scenes_of(text)
    settings, folds, macos = settings_of(scenes)
    for scene in scenes:
        before(scene)
        player = Player(Store(scene.disk, memory or Memory(), folds, macos), settings)
        yield "".join(told(player.step(step)) + " | " for step in scene.steps), scene.disk


def asked_and_failed(disk, count):
    return f"{'' if count is None else f'asked {count}, '}failed {disk.faults}"


def joined(scenes, memory, behind=lambda place: "", before=lambda scene: None):
    """What is told of all scenes. How often a disk was asked is told where there is a memory to count it by."""
    alone = list(played(scenes, None))
    counts = [disk.asked for _, disk in played(scenes, memory, before)] if memory else [None] * len(alone)
    return " & ".join(answers + asked_and_failed(disk, count) + behind(place)
                      for place, ((answers, disk), count) in enumerate(zip(alone, counts)))


def wanted(row, memory):
    if not row.startswith("least "):
        first = scenes_of(row)[:1]
        return joined(row, memory if first and first[0].counted else None)
    _, least, scenes = row.split(" ", 2)
    asked = sum(disk.asked for _, disk in played(scenes, memory))
    return f"{joined(scenes, None)}, asked so often {str(asked >= int(least)).lower()}"


def wanted_room(row):
    """One session over caches for so many paths, and for so many directories and names together. As a call of its disk
    may fail, its answers are those over what is remembered."""
    paths, dots, scenes = row.split(" ", 2)
    (answers, disk), = played(scenes, Memory(int(paths), int(dots)))
    return answers + asked_and_failed(disk, disk.asked)


def watch(disk, word):
    """The paths at which a disk is looked at from now on, or with `open:` before the path those that are opened, as far
    as they are this one."""
    name, path = ("open", word.removeprefix("open:")) if word.startswith("open:") else ("meta", word)
    path, seen, call = names_of(path), [], getattr(disk, name)

    def watched(at, *how):
        seen.extend([at] if at == path else [])
        return call(at, *how)
    setattr(disk, name, watched)
    return seen


def wanted_meeting(row):
    """All but the first session are asked as if they were alone behind it: none leaves anything that another finds.
    Where not all come to the meeting, it is played once."""
    times, path, scenes = row.split(" ", 2)
    came = []
    told = joined(scenes, Memory(ROOM, ROOM), lambda place: f", met {str(came[place] != []).lower()}" if place else "",
                  lambda scene: came.append(watch(scene.disk, path)))
    return f"{told}, alike {times if all(came[1:]) else 1}"


STEPS = "GET /d/ | GET /d/._b | GET /d/._a"
TOLD = f"set autoindex yes | macos | dir /d 2 1 | file /d/._a 3 1 a | {STEPS}"
OTHER = f"set autoindex yes | macos | dir /d 2 2 | file /d/._b 3 2 a | {STEPS}"


def wanted_told(counts):
    """So many sessions over the disk of which a book tells, and so many over another one, each as by itself."""
    count, _, others = counts.partition(" ")
    return joined(" & ".join([TOLD] * int(count) + [OTHER] * int(others or 0)), None)


FORMS = {
    "room": wanted_room,
    "meet": wanted_meeting,
    "twice": lambda scenes: joined(scenes, None) + ", purged alike true",
    "told": wanted_told,
}


def wanted_all(rows):
    memory, lines = None, []
    for row in rows:
        form, _, rest = row.partition(" ")
        if row.startswith("#"):
            lines.append(row)
            continue
        if form not in FORMS and form != "again":
            memory = Memory(ROOM, ROOM)
        try:
            lines.append(FORMS[form](rest) if form in FORMS else wanted(row.removeprefix("again "), memory))
        except Unread:
            lines.append("no answer")
    return lines


if __name__ == "__main__":
    print_wanted(wanted_all)
