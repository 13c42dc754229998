"""Rows on folders that go or are others, and on files that change while they are sent."""
import os
import shutil
import subprocess

from disks import small
from rows import AT_ROOT, BIG, F, TREE, row
from served import Place, Request, need, set_up, tree_of


# ---- a folder that goes, or is another

@row("the folder is removed while it is served", "404; PUT 409", "nothing")
def folder_removed(server):
    with Place(TREE) as place:
        talk = server.begin(place.root)
        try:
            need(talk.ask(F).status == 200, "no answer before")
            shutil.rmtree(place.root)
            asked = [F, Request("GET", "/"), Request("DELETE", "/d"), Request("PUT", "/n.txt", body=b"x")]
            statuses = [talk.ask(request).status for request in asked]
            need(statuses == [404, 404, 404, 409], f"{statuses}")
            os.mkdir(place.root)
            set_up(place.root, {("f.txt",): b"new"})
            need(talk.ask(F).body == b"new", "not what stands there again")
            need(talk.end() == b"", "more is written")
        finally:
            talk.stop()
        need(place.tree() == {(): None, ("f.txt",): b"new"}, "another tree")
    return len(asked)


@row("another folder is put in its place while it is served", "that folder's answers", "the first as it was")
def folder_replaced(server):
    with Place(TREE) as place:
        aside = os.path.join(place.base, "aside")
        talk = server.begin(place.root)
        try:
            need(talk.ask(F).status == 200, "no answer before")
            os.rename(place.root, aside)
            os.mkdir(place.root)
            set_up(place.root, {("f.txt",): b"another"})
            need(talk.ask(F).body == b"another", "not that folder's bytes")
            need(talk.ask(Request("PUT", "/n.txt", body=b"x")).status == 201, "no PUT into it")
            need(talk.end() == b"", "more is written")
        finally:
            talk.stop()
        need(tree_of(aside) == {**AT_ROOT, **TREE}, "the first was touched")
        need(place.tree() == {(): None, ("f.txt",): b"another", ("n.txt",): b"x"}, "another tree")
    return 2


@row("a file stands where the folder was", "403; PUT 409", "that file as it was")
def folder_is_file(server):
    with Place(TREE) as place:
        shutil.rmtree(place.root)
        with open(place.root, "wb") as file:
            file.write(b"kept")
        came = server.run(place.root, [F, Request("DELETE", "/d"), Request("PUT", "/n.txt", body=b"x")])
        need(came.statuses() == [403, 403, 409] and came.status == 0, f"{came.statuses()}, {came.status}")
        with open(place.root, "rb") as file:
            need(file.read() == b"kept", "the file was touched")
        os.remove(place.root)
        os.mkdir(place.root)
    return 3


@row("the disk of the folder is taken away while it is served", "404", "what stands below it, as it was")
def unmounted(server):
    with Place({("under.txt",): b"under"}) as place:
        small(place, "size=4m")
        set_up(place.root, TREE)
        talk = server.begin(place.root)
        try:
            need(talk.ask(F).status == 200, "no answer before")
            subprocess.run(["umount", "-l", place.root], check=True)
            need(talk.ask(F).status == 404 and talk.ask(Request("DELETE", "/d")).status == 404, "not 404")
            need(talk.end() == b"", "more is written")
        finally:
            talk.stop()
        need(place.tree() == {**AT_ROOT, ("under.txt",): b"under"}, "another tree")
    return 2


# ---- a file that changes while it is sent

LONG = BIG * 20


def sending(server, change, judge):
    """Changes a long file once the front of its body was read, and judges the body."""
    with Place({("long.bin",): LONG}) as place:
        file = os.path.join(place.root, "long.bin")
        talk = server.begin(place.root)
        try:
            request = Request("GET", "/long.bin")
            talk.send(request)
            status, fields = talk.head()
            body = talk.process.stdout.read(1000)
            change(file)
            body += talk.process.stdout.read(len(LONG) - 1000)
            need(status == 200 and fields["content-length"] == str(len(LONG)), "another head")
            need(len(body) == len(LONG) and judge(body), "another body")
            need(talk.end() == b"", "more is written")
        finally:
            talk.stop()
    return 1


def overwrite(file, data, mode="wb"):
    with open(file, mode) as it:
        it.write(data)


@row("a file is cut while it is sent", "200, the announced length, zeros for what is gone", "the file as it was cut")
def cut_file(server):
    cut = 2_000_000
    return sending(server, lambda file: os.truncate(file, cut),
                   lambda body: body[:cut] == LONG[:cut] and not any(body[cut:]))


@row("a file is removed, or another put in its place, while it is sent", "200, the bytes that it had", "the other file")
def replaced_file(server):
    def replace(file):
        overwrite(file + ".new", b"another")
        os.rename(file + ".new", file)
    return sending(server, os.remove, LONG.__eq__) + sending(server, replace, LONG.__eq__)


@row("a file grows while it is sent", "200, the announced length", "the longer file")
def grown_file(server):
    return sending(server, lambda file: overwrite(file, BIG, "ab"), LONG.__eq__)


@row("a file is written anew while it is sent", "200, the announced length, bytes of both", "the new bytes")
def rewritten_file(server):
    new = bytes(255 - b for b in LONG)

    def write(file):
        overwrite(file, new, "r+b")
    return sending(server, write, lambda body: all(b in (x, 255 - x) for b, x in zip(body, LONG)))
