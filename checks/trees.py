#!/usr/bin/env python3
"""Plays lists of requests that write and read on a real folder, and compares each answer, and the folder after each
request, with a model that knows only a map of paths. The process masks no mode, and after each request all that stands
there is its owner's alone.

    checks/trees.py [--program PATH] [--lists COUNT] [--steps COUNT] [--seed NUMBER]

The lists are those of the driver `step_rows`, under its headings on lists, whose wanted answers over a disk in memory are
compared as well, and COUNT random ones of the numbers NUMBER, NUMBER + 1 and so on. PATH is the program, built by
`./davserve --help`. The status is 0 where all agree. It wants Python 3 alone, and takes some seconds.
"""
import argparse
import os
import random
import re
import shutil
import subprocess
import sys
import tempfile

TOP = os.path.dirname(os.path.dirname(os.path.abspath(__file__)))
HEADINGS = ("# Lists of two hundred steps that write and read, and then all that was named or stands there.",
            "# Such lists under a prefix.")
METHODS = ("OPTIONS", "HEAD", "GET", "PUT", "MKCOL", "COPY", "MOVE", "DELETE", "MKCALENDAR", "MKADDRESSBOOK")
WITH_BODY = ("PUT", "MKCALENDAR", "MKADDRESSBOOK")


# ---- the model: a map from paths, which are tuples of names, to the bytes of a file, or None for a directory

class Refused(Exception):
    """A request is answered with this status, and nothing more."""

    def __init__(self, status):
        super().__init__(status)
        self.status = status


def refuse_if(fits, status):
    if fits:
        raise Refused(status)


def decoded(text):
    """The bytes that are meant, each %XX as one."""
    return re.sub(rb"%([0-9a-fA-F]{2})", lambda m: bytes([int(m[1], 16)]), text.encode("latin-1"))


def path_of(text, prefix):
    """The names of a path without the prefix, and whether a slash ends it."""
    text = text.split("?")[0]
    refuse_if(not re.fullmatch(r"/[!-~]*", text) or "#" in text, 400)
    parts, kept = text.split("/"), []
    for part in parts:
        if part == "..":
            refuse_if(not kept, 403)
            kept.pop()
        elif part not in ("", "."):
            kept.append(decoded(part))
    for name in kept:
        refuse_if(b"\0" in name or b"/" in name or name in (b".", b".."), 400)
        try:
            name.decode()
        except UnicodeDecodeError:
            raise Refused(404) from None
    front = [part.encode() for part in prefix.split("/") if part]
    refuse_if(kept[:len(front)] != front, 404)
    names = tuple(kept[len(front):])
    return names, parts[-1] in ("", ".", "..") or not names


class Model:
    """What stands in a folder, and what each request is answered with."""

    def __init__(self, prefix=""):
        self.tree = {(): None}
        self.prefix = prefix

    def is_dir(self, names):
        return names in self.tree and self.tree[names] is None

    def members(self, names):
        return [path for path in self.tree if path and path[:-1] == names]

    def look(self, names, slash):
        """Whether a directory stands there. Below a file it is 403, and where nothing stands 404."""
        for count in range(len(names)):
            refuse_if(names[:count] not in self.tree, 404)
            refuse_if(not self.is_dir(names[:count]), 403)
        refuse_if(names not in self.tree, 404)
        refuse_if(slash and not self.is_dir(names), 403)
        return self.is_dir(names)

    def found(self, names, slash):
        """The same, or None where nothing stands."""
        try:
            return self.look(names, slash)
        except Refused as refusal:
            if refusal.status == 404:
                return None
            raise

    def need_parent(self, names):
        refuse_if(not self.is_dir(names[:-1]), 409)

    def need_met(self, fields, stands):
        """Preconditions. Of lists the rows have only `*` and tags that nothing has."""
        match = fields.get("if-match")
        refuse_if(match is not None and not (match == "*" and stands), 412)
        refuse_if(fields.get("if-none-match") == "*" and stands, 412)

    def put(self, names, slash, fields, body):
        refuse_if(slash, 405)
        self.need_parent(names)
        found = self.found(names, False)
        refuse_if(found, 405)
        self.need_met(fields, found is not None)
        self.tree[names] = body
        return 201 if found is None else 204

    def mkcol(self, names, slash, fields):
        refuse_if(self.found(names, slash) is not None, 405)
        self.need_met(fields, False)
        self.need_parent(names)
        self.tree[names] = None
        return 201

    def mkcalendar(self, names, slash):
        try:
            self.look(names, slash)
        except Refused:
            refuse_if(names in self.tree, 405)
            self.look(names[:-1], True)
            self.tree[names] = None
            return 201
        raise Refused(405)

    def remove(self, names):
        self.tree = {path: data for path, data in self.tree.items() if path[:len(names)] != names}

    def delete(self, names, slash, fields):
        refuse_if(not names, 403)
        self.look(names, slash)
        self.need_met(fields, True)
        self.remove(names)
        return 204

    def destination(self, fields):
        text = fields.get("destination")
        refuse_if(text is None, 400)
        if not text.startswith("/"):
            address = re.fullmatch(r"[a-z]+://[^/?#]+(/[^?#]*)?([?#].*)?", text)
            refuse_if(address is None, 400)
            text = address[1] or "/"
        return path_of(text, self.prefix)

    def carry(self, names, slash, fields, moving):
        to, to_slash = self.destination(fields)
        refuse_if(fields.get("overwrite", "T") not in ("T", "F"), 400)
        depth = fields.get("depth", "infinity")
        refuse_if(depth not in (("infinity",) if moving else ("infinity", "0")), 400)
        self.look(names, slash)
        refuse_if(names[:len(to)] == to or to[:len(names)] == names, 403)
        self.need_parent(to)
        self.need_met(fields, True)
        found = self.found(to, to_slash)
        refuse_if(found is not None and fields.get("overwrite") == "F", 412)
        if found is not None:
            self.remove(to)
        reach = len(names) if depth == "0" else None
        carried = {to + path[len(names):]: data for path, data in self.tree.items()
                   if path[:len(names)] == names and (reach is None or len(path) == reach)}
        if moving:
            self.remove(names)
        self.tree.update(carried)
        return 201 if found is None else 204

    def get(self, names, slash, fields, head):
        if not head and names == (b"remote.php", b"webdav") and slash:
            raise AssertionError("no list asks for this")
        if self.look(names, slash):
            return (200 if slash else 302), None
        match = fields.get("if-match")
        refuse_if(match is not None and match != "*", 412)
        refuse_if(fields.get("if-none-match") == "*", 304)
        return 200, self.tree[names]

    def answer(self, method, target, fields, body):
        """The status, and the bytes of a file."""
        try:
            refuse_if(method not in METHODS and method not in ("LOCK", "PROPFIND"), 501)
            names, slash = path_of(target.split("#")[0], self.prefix)
            refuse_if(body and method not in WITH_BODY, 415)
            refuse_if(method not in METHODS, 501)
            if method in ("GET", "HEAD"):
                return self.get(names, slash, fields, method == "HEAD")
            return self.write(method, names, slash, fields, body), None
        except Refused as refusal:
            return refusal.status, None

    def write(self, method, names, slash, fields, body):
        if method == "OPTIONS":
            return 200
        if method == "PUT":
            return self.put(names, slash, fields, body)
        if method == "MKCOL":
            return self.mkcol(names, slash, fields)
        if method == "DELETE":
            return self.delete(names, slash, fields)
        if method in ("COPY", "MOVE"):
            return self.carry(names, slash, fields, method == "MOVE")
        return self.mkcalendar(names, slash)


# ---- lists: what stands there at first, and requests

class Request:
    def __init__(self, method, target, fields=None, body=b""):
        self.method, self.target, self.fields, self.body = method, target, fields or {}, body

    def bytes(self):
        lines = [f"{self.method} {self.target} HTTP/1.1", "Host: localhost"]
        lines += [f"{name}: {value}" for name, value in self.fields.items()]
        if self.body:
            lines.append(f"Content-Length: {len(self.body)}")
        return "\r\n".join(lines + ["", ""]).encode("latin-1") + self.body

    def __str__(self):
        return f"{self.method} {self.target} {self.fields}"


class Steps:
    """A list: the prefix, what stands there at first, the requests, and the wanted answers where they are known."""

    def __init__(self, name, prefix=""):
        self.name, self.prefix = name, prefix
        self.standing, self.requests, self.wanted = [], [], []


def text_of(word):
    """The bytes of a text of the driver: N*TEXT is so many copies, and ^ stands between texts that are joined."""
    whole = b""
    for part in word.split("^"):
        count, star, text = part.partition("*")
        whole += decoded(text) * int(count) if star and count.isdigit() else decoded(part)
    return whole


def request_of(words):
    request = Request(words[0], words[1])
    for word in words[2:]:
        if word.startswith("="):
            request.body = text_of(word[1:])
        else:
            name, _, value = word.partition(":")
            request.fields.setdefault(name, text_of(value).decode("latin-1"))
    return request


def steps_of(name, row, wanted):
    """The list of a row, with its wanted answers."""
    steps = Steps(name)
    for part in row.split("|"):
        words = part.strip().split(" ")
        if words[:2] == ["set", "prefix"]:
            steps.prefix = words[2]
        elif words[0] in ("dir", "file"):
            names = tuple(n.encode() for n in words[1].split("/") if n)
            steps.standing.append((names, None if words[0] == "dir" else text_of(words[4])))
        elif words[0] not in ("set", "poll"):
            steps.requests.append(request_of(words))
    pieces = {}
    for answer in wanted.split(" | ")[:-1]:
        if answer.startswith("piece "):
            pieces.setdefault(len(steps.wanted) - 1, []).append(answer[len("piece "):])
        elif answer[:3].isdigit():
            steps.wanted.append(int(answer[:3]))
    return steps


def lists_of_rows():
    """The lists among the rows of the driver."""
    folder = os.path.join(TOP, "crates", "step_rows")
    with open(os.path.join(folder, "stdin")) as rows, open(os.path.join(folder, "stdout")) as wanted:
        both = list(zip(rows.read().splitlines(), wanted.read().splitlines()))
    lists, taken = [], False
    for number, (row, answers) in enumerate(both, 1):
        if row.startswith("#"):
            taken = row in HEADINGS
        elif taken:
            lists.append(steps_of(f"row {number} of step_rows", row, answers))
    return lists


NAMES = (b"a", b"b", b"c", b"d", b"x.txt", b"y.txt", b"a b", "ü".encode(), b"a-", b"B", b"100%")


def quoted(names):
    return "/" + "/".join("".join(chr(b) if chr(b).isalnum() and b < 128 or chr(b) in "._-~" else f"%{b:02X}" for b in n)
                          for n in names)


class Maker:
    """Makes a random list. The model goes along, so that paths are often such as stand there."""

    def __init__(self, seed, count):
        self.chance = random.Random(seed)
        self.steps = Steps(f"list {seed}")
        self.model = Model()
        for number in range(count):
            request = self.request(number)
            self.model.answer(request.method, request.target, request.fields, request.body)
            self.steps.requests.append(request)

    def path(self, new):
        """The names of a path: a new one below a directory, one that stands there, or any."""
        place = self.chance.random()
        standing = sorted(self.model.tree)
        if place < new:
            dirs = [p for p in standing if self.model.is_dir(p) and len(p) < 5]
            return self.chance.choice(dirs) + (self.chance.choice(NAMES),)
        if place < 0.95:
            return self.chance.choice(standing[1:] or standing)
        return tuple(self.chance.choice(NAMES) for _ in range(self.chance.randrange(4)))

    def text(self, names):
        slash = 0.4 if self.model.is_dir(names) else 0.05
        text = quoted(names)
        if text != "/" and self.chance.random() < slash:
            text += "/"
        if self.chance.random() < 0.03:
            text = self.chance.choice(("/" + text, "/." + text, "/zz/.." + text))
        return text if not text.startswith("//") else "/." + text

    def fields(self):
        if self.chance.random() > 0.12:
            return {}
        return {self.chance.choice(("if-match", "if-none-match")): self.chance.choice(("*", '"x"'))}

    def carrying(self):
        to = self.text(self.path(0.5))
        if self.chance.random() < 0.3:
            to = self.chance.choice(("http://h", "https://h:8080", "http://u@h")) + to
        fields = {"destination": to} if self.chance.random() < 0.98 else {}
        if self.chance.random() < 0.35:
            fields["overwrite"] = self.chance.choice("TFFt")
        if self.chance.random() < 0.25:
            fields["depth"] = self.chance.choice(("0", "infinity", "1"))
        return {**fields, **self.fields()}

    def request(self, number):
        place = self.chance.random()
        if place < 0.22:
            body = self.chance.choice((b"", b"%d" % number, b"z" * number, b"y" * 50_000))
            return Request("PUT", self.text(self.path(0.5)), self.fields(), body)
        if place < 0.34:
            return Request("MKCOL", self.text(self.path(0.7)), self.fields())
        if place < 0.37:
            return Request(self.chance.choice(METHODS[-2:]), self.text(self.path(0.7)), self.fields(), b"x")
        if place < 0.45:
            return Request("DELETE", self.text(self.path(0.05)), self.fields())
        if place < 0.82:
            return Request(self.chance.choice(("COPY", "MOVE")), self.text(self.path(0.02)), self.carrying())
        method = self.chance.choice(("GET", "GET", "GET", "HEAD", "HEAD", "OPTIONS", "LOCK", "BREW"))
        return Request(method, self.text(self.path(0.1)), self.fields())


# ---- the program, on a folder

class Answer:
    def __init__(self, status, fields, body):
        self.status, self.fields, self.body = status, fields, body


class Connection:
    """The program on a pipe, begun anew after an answer that closes."""

    def __init__(self, program, folder, prefix):
        self.words = [program, folder, "serve", "--autoindex"] + (["--prefix", prefix] if prefix else [])
        self.process = None

    def ask(self, request):
        if self.process is None:
            self.process = subprocess.Popen(self.words, stdin=subprocess.PIPE, stdout=subprocess.PIPE)
        self.process.stdin.write(request.bytes())
        self.process.stdin.flush()
        answer = self.read(request.method)
        if answer.fields.get("connection") == "close":
            self.end()
        return answer

    def read(self, method):
        source = self.process.stdout
        status = int(source.readline().split()[1])
        fields = {}
        while (line := source.readline().strip()):
            name, _, value = line.decode("latin-1").partition(": ")
            fields[name] = value
        if method == "HEAD" or status in (204, 304):
            return Answer(status, fields, b"")
        if "content-length" in fields:
            return Answer(status, fields, source.read(int(fields["content-length"])))
        body = b""
        while (size := int(source.readline(), 16)):
            body += source.read(size)
            source.readline()
        source.readline()
        return Answer(status, fields, body)

    def end(self):
        """Ends the input. What the program ends with is to be 0, with nothing more written."""
        process, self.process = self.process, None
        if process is None:
            return
        process.stdin.close()
        rest = process.stdout.read()
        process.stdout.close()
        if process.wait(30) != 0 or rest:
            raise AssertionError(f"the program ended with {process.returncode}, and {rest!r}")

    def stop(self):
        if self.process is not None:
            self.process.kill()
            self.process.wait()


def tree_of(folder):
    """What stands in a folder, as the model has it."""
    tree = {}
    root = os.fsencode(folder)
    for place, _, files in os.walk(root):
        names = tuple(n for n in os.path.relpath(place, root).split(b"/") if n != b".")
        tree[names] = None
        for name in files:
            with open(os.path.join(place, name), "rb") as file:
                tree[names + (name,)] = file.read()
    return tree


def set_up(folder, standing, tree):
    for names, data in standing:
        place = os.path.join(os.fsencode(folder), *names)
        tree[names] = data
        if data is None:
            os.mkdir(place, 0o700)
        else:
            with open(place, "wb") as file:
                file.write(data)
            os.chmod(place, 0o600)


def open_to_others(folder):
    """What stands in a folder and may be read, written or entered by others than its owner."""
    found = []
    for place, dirs, files in os.walk(os.fsencode(folder)):
        whole = [os.path.join(place, name) for name in dirs + files]
        found += [path for path in whole if os.lstat(path).st_mode & 0o077]
    return found


def page_names(page):
    """The links of a page's rows, without their directory."""
    links = re.findall(rb'<tr><td><a href="([^"]*)">', page)
    return sorted(decoded(link.decode()).rstrip(b"/").rsplit(b"/", 1)[-1] for link in links if link != b"..")


def differs(model, request, answer):
    """What differs between an answer and the model's, which makes of the model what is to stand there now."""
    status, data = model.answer(request.method, request.target, request.fields, request.body)
    if answer.status != status:
        return f"status {answer.status}, and the model says {status}"
    if request.method == "GET" and status == 200:
        if data is None:
            names, _ = path_of(request.target, model.prefix)
            shown = sorted(path[-1] for path in model.members(names) if not path[-1].startswith(b"."))
            return "" if page_names(answer.body) == shown else "other names on the page"
        return "" if answer.body == data else "other bytes"
    if request.method == "HEAD" and data is not None and int(answer.fields["content-length"]) != len(data):
        return "another length"
    return ""


def play(program, steps):
    """Plays a list on a folder of its own. Gives the number of requests, or raises what differs."""
    folder = tempfile.mkdtemp(prefix="davserve-trees-")
    model = Model(steps.prefix)
    set_up(folder, steps.standing, model.tree)
    connection = Connection(program, folder, steps.prefix)
    try:
        for number, request in enumerate(steps.requests):
            answer = connection.ask(request)
            fault = differs(model, request, answer)
            if not fault and steps.wanted and steps.wanted[number] != answer.status:
                fault = f"status {answer.status}, and over a disk in memory {steps.wanted[number]} is wanted"
            if not fault and tree_of(folder) != model.tree:
                fault = "another tree"
            if not fault and open_to_others(folder):
                fault = f"open to others: {open_to_others(folder)}"
            if fault:
                raise AssertionError(f"{steps.name}, request {number + 1}: {request}: {fault}")
        connection.end()
    finally:
        connection.stop()
        shutil.rmtree(folder)
    return len(steps.requests)


def main():
    parser = argparse.ArgumentParser(description=__doc__, formatter_class=argparse.RawDescriptionHelpFormatter)
    parser.add_argument("--program", default=os.path.join(TOP, "crates", "davserve", "out", "davserve"))
    parser.add_argument("--lists", type=int, default=20)
    parser.add_argument("--steps", type=int, default=200)
    parser.add_argument("--seed", type=int, default=1)
    given = parser.parse_args()
    if not os.access(given.program, os.X_OK):
        print(f"trees: {given.program} is no program; ./davserve --help builds it", file=sys.stderr)
        return 2
    os.umask(0)
    lists = lists_of_rows()
    lists += [Maker(seed, given.steps).steps for seed in range(given.seed, given.seed + given.lists)]
    asked = failed = 0
    for steps in lists:
        try:
            asked += play(given.program, steps)
        except AssertionError as fault:
            failed += 1
            print(fault, file=sys.stderr)
    print(f"{len(lists)} lists, {asked} requests, {failed} failed")
    return 1 if failed else 0


if __name__ == "__main__":
    sys.exit(main())
