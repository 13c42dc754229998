"""Rows on disks: without room, read only, with bad blocks, without a right, and with too many files open."""
import os
import resource
import shutil
import subprocess

from rows import AT_ROOT, BIG, F, TREE, carry, judge, names_of, plans, row
from served import Left, Place, Request, copying, is_front, need, set_up

OTHER = 65534  # the number of a user that isn't root


# ---- a disk without room

def small(place, options):
    place.mount("tmpfs", options + ",mode=755")


@row("the disk is full: PUT", "500", "the file, with a front of the bytes; what it had before is gone")
def full_put(server):
    with Place() as place:
        small(place, "size=128k")
        set_up(place.root, {("f.txt",): b"0123456789", ("old.txt",): b"old"})
        before = place.tree()
        came = server.run(place.root, [Request("PUT", "/old.txt", body=BIG), F])
        need(came.statuses() == [500, 200] and came.status == 0, f"{came.statuses()}, {came.status}")
        plan = [("write", ("old.txt",), b""), ("write", ("old.txt",), BIG)]
        need(is_front(before, place.tree(), plan) and 0 < len(place.tree()[("old.txt",)]) < len(BIG), "another tree")
        again = server.run(place.root, [Request("DELETE", "/old.txt"), Request("PUT", "/n.txt", body=b"x" * 9000)])
        need(again.statuses() == [204, 201], f"{again.statuses()} behind it")
    return 2


@row("the disk is full: COPY of a directory", "500",
     "the copy up to there, in the order of names; the last file perhaps in part")
def full_copy(server):
    with Place() as place:
        small(place, "size=512k")
        set_up(place.root, TREE)
        for number in range(6):
            set_up(place.root, {("d", f"m{number}"): BIG[:30_000]})
        before = place.tree()
        came = server.run(place.root, [carry("COPY", "/d", "/e"), F])
        need(came.statuses() == [500, 200] and came.status == 0, f"{came.statuses()}, {came.status}")
        need(is_front(before, place.tree(), copying(before, ("d",), ("e",))), "another tree")
        need(("e", "a.txt") in place.tree(), "nothing was copied")
    return 1


@row("no more files may be made (a quota): PUT, MKCOL", "500", "nothing new")
def quota_make(server):
    with Place() as place:
        small(place, "nr_inodes=4")
        set_up(place.root, {("f.txt",): b"0123456789", ("a",): None, ("b",): None})
        before = place.tree()
        came = server.run(place.root, [Request("PUT", "/n.txt", body=b"hi"), Request("MKCOL", "/e"), F])
        need(came.statuses() == [500, 500, 200] and came.status == 0, f"{came.statuses()}, {came.status}")
        need(place.tree() == before, "another tree")
    return 2


@row("no more files may be made (a quota): COPY of a directory", "500", "the copy up to there, in the order of names")
def quota_copy(server):
    with Place() as place:
        small(place, "nr_inodes=12")
        set_up(place.root, TREE)
        before = place.tree()
        came = server.run(place.root, [carry("COPY", "/d", "/e"), F])
        need(came.statuses() == [500, 200] and came.status == 0, f"{came.statuses()}, {came.status}")
        after = place.tree()
        need(is_front(before, after, copying(before, ("d",), ("e",))) and ("e", "a.txt") in after, "another tree")
    return 1


@row("a file may grow no further (`ulimit -f`), its signal ignored: PUT", "500", "the file, with a front of the bytes")
def file_limit(server):
    with Place(TREE) as place:
        before = place.tree()
        came = server.run(place.root, [Request("PUT", "/n.txt", body=BIG), F],
                          before=["sh", "-c", 'trap "" XFSZ; ulimit -f 100; exec "$@"', ""])
        need(came.statuses() == [500, 200] and came.status == 0, f"{came.statuses()}, {came.status}")
        need(is_front(before, place.tree(), [("write", ("n.txt",), BIG)]), "another tree")
    return 1


@row("a file may grow no further, its signal not ignored: PUT", "none: the machine ends the program",
     "the file, with a front of the bytes")
def file_limit_ends(server):
    with Place(TREE) as place:
        before = place.tree()
        came = server.run(place.root, [Request("PUT", "/n.txt", body=BIG), F],
                          limits=[(resource.RLIMIT_FSIZE, 50_000), (resource.RLIMIT_CORE, 0)])
        need(came.status == -25 and came.out == b"", f"{came.status}, {came.out!r}")
        need(is_front(before, place.tree(), [("write", ("n.txt",), BIG)]), "another tree")
    return 1


# ---- a disk that may not be written, or not be read

@row("the disk is read only: GET", "200", "all as it was")
def read_only_get(server):
    return read_only(server, [F, Request("GET", "/d/")], [200, 200])


@row("the disk is read only: PUT, MKCOL, DELETE, COPY, MOVE", "500", "all as it was")
def read_only_write(server):
    asked = [Request("PUT", "/n.txt", body=b"hi"), Request("PUT", "/f.txt", body=b"hi"), Request("MKCOL", "/e"),
             Request("DELETE", "/f.txt"), Request("DELETE", "/d"), carry("COPY", "/d", "/e"), carry("MOVE", "/d", "/e"),
             carry("MOVE", "/f.txt", "/g.txt")]
    return read_only(server, asked, [500] * len(asked))


def read_only(server, asked, wanted):
    with Place() as place:
        small(place, "size=4m")
        set_up(place.root, TREE)
        before = place.tree()
        subprocess.run(["mount", "-o", "remount,ro", place.root], check=True)
        came = server.run(place.root, [*asked, F])
        need(came.statuses() == [*wanted, 200] and came.status == 0, f"{came.statuses()}, {came.status}")
        need(place.tree() == before, "another tree")
    return len(asked)


def image(place, size, *options):
    """A file with a file system in it."""
    made = os.path.join(place.base, "image")
    with open(made, "wb") as file:
        file.truncate(size)
    if not shutil.which("mkfs.ext4"):
        raise Left("no mkfs.ext4")
    subprocess.run(["mkfs.ext4", "-q", "-E", "lazy_itable_init=0", *options, made], check=True)
    return made


def broken_disk(place):
    """A file system in a file whose end was cut off, so that reads fail there."""
    made = image(place, 16 << 20)
    place.mount("ext4", "loop", made)
    set_up(place.root, {("f.txt",): b"0123456789", ("long.bin",): BIG * 40})
    subprocess.run(["umount", place.root], check=True)
    place.mount("ext4", "loop,ro,noload", made)
    os.truncate(made, 6 << 20)


@row("blocks of the disk can't be read: GET of a file that has them", "200, and the body breaks off: status 5", "")
def bad_blocks(server):
    with Place() as place:
        broken_disk(place)
        came = server.run(place.root, [Request("GET", "/long.bin"), F])
        need(came.statuses() == [200] and came.status == 5, f"{came.statuses()}, {came.status}")
        answer = came.answers[0]
        need(not answer.is_whole and (BIG * 40).startswith(answer.body), "other bytes")
    return 1


# ---- rights

def as_other():
    """The words that run the program as another user than root."""
    if os.geteuid() != 0:
        return ()
    if not shutil.which("setpriv"):
        raise Left("no setpriv, to run as another user than root")
    return ("setpriv", "--reuid", str(OTHER), "--regid", str(OTHER), "--clear-groups")


def owned(place):
    """Gives the folder to the user that the program runs as."""
    if os.geteuid() == 0:
        for folder, _, files in os.walk(place.root):
            for name in [".", *files]:
                os.chown(os.path.join(folder, name), OTHER, OTHER)


def with_rights(server, names, mode, asked, wanted):
    """Asks while a file or directory has these rights, and gives the answers."""
    with Place(TREE) as place:
        owned(place)
        before = place.tree()
        at = os.path.join(place.root, *names)
        had = os.stat(at).st_mode & 0o777
        os.chmod(at, mode)
        came = server.run(place.root, [*asked, F], before=as_other())
        os.chmod(at, had)
        need(came.statuses() == [*wanted, 200] and came.status == 0, f"{came.statuses()}, {came.status}")
        need(place.tree() == before, "another tree")
    return came.answers


@row("a file may not be read: GET", "500", "")
def unreadable_file(server):
    with_rights(server, ("g.txt",), 0, [Request("GET", "/g.txt")], [500])
    return 1


@row("a directory may not be entered: GET of a file in it", "500", "")
def closed_directory(server):
    with_rights(server, ("d",), 0, [Request("GET", "/d/a.txt"), Request("GET", "/d/")], [500, 500])
    return 2


@row("a directory may not be listed: its page, DELETE, COPY", "500", "all as it was; of a COPY the empty directory")
def unlisted_directory(server):
    with_rights(server, ("d",), 0o311, [Request("GET", "/d/"), Request("DELETE", "/d")], [500, 500])
    need(with_rights(server, ("d",), 0o311, [Request("GET", "/d/a.txt")], [200])[0].body == b"aaa", "other bytes")
    with Place(TREE) as place:
        owned(place)
        before = place.tree()
        os.chmod(os.path.join(place.root, "d"), 0o311)
        came = server.run(place.root, [carry("COPY", "/d", "/e")], before=as_other())
        need(came.statuses() == [500] and came.status == 0, f"{came.statuses()}, {came.status}")
        os.chmod(os.path.join(place.root, "d"), 0o755)
        need(is_front(before, place.tree(), copying(before, ("d",), ("e",))), "another tree")
    return 4


@row("a directory may be listed and not entered: its page", "200, a page without rows", "")
def page_without_rows(server):
    answers = with_rights(server, ("d",), 0o400, [Request("GET", "/d/")], [200])
    need(names_of(answers[0].body) == [], "rows")
    return 1


@row("a directory may not be written: PUT, MKCOL, DELETE, MOVE of what is in it", "500", "all as it was")
def unwritable_directory(server):
    asked = [Request("PUT", "/d/n.txt", body=b"x"), Request("MKCOL", "/d/e"), Request("DELETE", "/d/a.txt"),
             carry("MOVE", "/d/a.txt", "/a.txt"), carry("COPY", "/f.txt", "/d/f.txt")]
    with_rights(server, ("d",), 0o555, asked, [500] * len(asked))
    return len(asked)


# ---- few open files

@row("no file may be opened any more (`ulimit -n`)",
     "500 where one has to be: GET, HEAD, a page, PUT, COPY, DELETE of a directory", "what a front of the plan leaves")
def no_files(server):
    wanted = {"GET": {500}, "HEAD": {500}, "PUT": {500}, "COPY": {500}, "DELETE": {500}, "MKCOL": {201}, "MOVE": {201, 204}}
    tries = 0
    for request, plan in plans({**AT_ROOT, **TREE}):
        with Place(TREE) as place:
            before = place.tree()
            talk = server.begin(place.root)
            try:
                need(talk.ask(F).status == 200, "no answer before")
                had = resource.prlimit(talk.process.pid, resource.RLIMIT_NOFILE)
                resource.prlimit(talk.process.pid, resource.RLIMIT_NOFILE, (3, had[1]))
                status = talk.ask(request).status
                resource.prlimit(talk.process.pid, resource.RLIMIT_NOFILE, had)
                need(status in wanted[request.method], f"{status} to {request}")
                need(is_front(before, place.tree(), plan), f"another tree behind {request}")
                need(talk.ask(Request("GET", "/big.bin")).status == 200 and talk.end() == b"", "not as before")
            finally:
                talk.stop()
            tries += 1
    return tries


@row("few files may be open", "as ever, or 500", "what a front of the plan leaves")
def few_files(server):
    tries = 0
    for most in (4, 5, 6):
        for request, plan in plans({**AT_ROOT, **TREE}):
            with Place(TREE) as place:
                before = place.tree()
                came = server.run(place.root, [request], limits=[(resource.RLIMIT_NOFILE, most)])
                judge(server, place, before, request, plan, came)
                tries += 1
    return tries
