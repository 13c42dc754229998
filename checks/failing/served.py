"""The built program over a folder of its own: what it is asked, what it answers, and what stands there afterwards.

For `faults`. A tree is a map from paths, which are tuples of names, to the bytes of a file, or None for a directory. What
a request makes of a tree is its plan: a list of edits, and a front of them is what a fault may leave.
"""
import os
import re
import resource
import shutil
import subprocess
import tempfile

LIMIT = 30  # seconds of a run; one that takes more hangs


class Fault(Exception):
    """The program did what no row of the table allows."""


class Left(Exception):
    """A tool or a right is missing, so a row is left out."""


def need(holds, text):
    if not holds:
        raise Fault(text)


# ---- trees, and the edits of plans

def tree_of(folder):
    """What stands in a folder. A link is its text, and what may not be read isn't followed."""
    root, tree = os.fsencode(folder), {}
    for place, dirs, files in os.walk(root):
        names = tuple(n.decode() for n in os.path.relpath(place, root).split(b"/") if n != b".")
        tree[names] = None
        for name in files:
            with open(os.path.join(place, name), "rb") as file:
                tree[names + (name.decode(),)] = file.read()
    return tree


def set_up(folder, tree):
    """Makes what stands at first, all of one time."""
    for names, data in sorted(tree.items()):
        place = os.path.join(folder, *names)
        if data is None:
            os.makedirs(place, exist_ok=True)
        else:
            with open(place, "wb") as file:
                file.write(data)
    for names in sorted(tree, reverse=True):
        os.utime(os.path.join(folder, *names), (10**9, 10**9))


def below(tree, names):
    """The paths at and below a path, a directory before its members and these in the order of their names."""
    return sorted(path for path in tree if path[:len(names)] == names)


def edited(tree, edit):
    """A tree after one edit: `make PATH`, `write PATH BYTES`, `drop PATH` or `move PATH PATH`."""
    kind, names = edit[0], edit[1]
    new = dict(tree)
    if kind == "make":
        new[names] = None
    elif kind == "write":
        new[names] = edit[2]
    elif kind == "drop":
        del new[names]
    else:
        for path in below(tree, names):
            new[edit[2] + path[len(names):]] = new.pop(path)
    return new


def dropping(tree, names):
    """The edits of a removal: members in the order of their names, each with its own before it."""
    members = sorted(path for path in tree if len(path) == len(names) + 1 and path[:-1] == names)
    return [edit for path in members for edit in dropping(tree, path)] + [("drop", names)]


def copying(tree, names, to):
    """The edits of a copy: a directory before its members."""
    return [("make", to + path[len(names):]) if tree[path] is None else ("write", to + path[len(names):], tree[path])
            for path in below(tree, names)]


def is_front(before, after, plan):
    """Whether a tree is what a front of the plan leaves, with a front of the bytes of its next edit."""
    tree = before
    for edit in plan + [None]:
        if after == tree:
            return True
        if edit is None:
            return False
        if edit[0] == "write" and is_begun(tree, after, edit):
            return True
        tree = edited(tree, edit)
    return False


def is_begun(tree, after, edit):
    """Whether the file of an edit stands with a front of its bytes, and all else as before it."""
    _, names, data = edit
    there = after.get(names)
    return there is not None and data.startswith(there) and {**tree, names: there} == after


def whole(before, plan):
    for edit in plan:
        before = edited(before, edit)
    return before


# ---- answers

class Answer:
    def __init__(self, status, fields, body, is_whole):
        self.status, self.fields, self.body, self.is_whole = status, fields, body, is_whole

    def said(self):
        """What two runs agree on: a tag and a time are those of a file that was just written."""
        return self.status, self.body, self.is_whole


def head_of(text, place):
    """A head's status and fields, and where its body begins, or none where it isn't whole."""
    end = text.find(b"\r\n\r\n", place)
    if end < 0:
        return None
    lines = text[place:end].decode("latin-1").split("\r\n")
    match = re.fullmatch(r"HTTP/1\.1 (\d\d\d) [ -~]*", lines[0])
    need(match, f"no line of status: {lines[0]!r}")
    return int(match[1]), dict(line.split(": ", 1) for line in lines[1:]), end + 4


def chunked(text, place):
    """The bytes of chunks, where they end, and whether the last one stands there."""
    body = b""
    while True:
        match = re.compile(rb"([0-9a-f]+)\r\n").match(text, place)
        if not match:
            return body, len(text), False
        size = int(match[1], 16)
        if size == 0:
            end = match.end() + 2
            return body, end, text[match.end():end] == b"\r\n"
        body += text[match.end():match.end() + size]
        place = match.end() + size + 2
        if place > len(text):
            return body, len(text), False


def answers_of(text, methods):
    """The answers that stand in a text, the last one perhaps cut, to requests of these methods."""
    answers, place = [], 0
    for method in methods:
        head = head_of(text, place)
        if head is None:
            break
        status, fields, place = head
        if method == "HEAD" or status in (204, 304):
            answers.append(Answer(status, fields, b"", True))
        elif "content-length" in fields:
            size = int(fields["content-length"])
            body = text[place:place + size]
            place += size
            answers.append(Answer(status, fields, body, len(body) == size))
        else:
            body, place, is_whole = chunked(text, place)
            answers.append(Answer(status, fields, body, is_whole))
    return answers


# ---- requests

class Request:
    def __init__(self, method, target, fields=(), body=b"", chunks=False):
        self.method, self.target, self.fields, self.body, self.chunks = method, target, fields, body, chunks

    def bytes(self):
        lines = [f"{self.method} {self.target} HTTP/1.1", "Host: h", *self.fields]
        if self.chunks:
            lines.append("Transfer-Encoding: chunked")
            body = b"%x\r\n%s\r\n0\r\n\r\n" % (len(self.body), self.body)
        else:
            lines += [f"Content-Length: {len(self.body)}"] if self.body else []
            body = self.body
        return "\r\n".join(lines + ["", ""]).encode() + body

    def __str__(self):
        return f"{self.method} {self.target}"


def bytes_of(requests):
    return b"".join(request.bytes() for request in requests)


# ---- runs

class Came:
    """What came of a run."""

    def __init__(self, status, out, requests):
        self.status, self.out = status, out
        self.answers = answers_of(out, [request.method for request in requests])

    def statuses(self):
        return [answer.status for answer in self.answers]


class Server:
    """The program, and how it is begun: behind these words, as this user, under these limits."""

    def __init__(self, program, options=("--autoindex",)):
        self.program, self.options = program, list(options)

    def words(self, folder):
        return [self.program, folder, "serve", *self.options]

    def run(self, folder, requests, before=(), text=None, limits=(), **streams):
        """Runs it on an input to its end, behind the words of another tool."""
        def limit():
            for kind, value in limits:
                resource.setrlimit(kind, (value, value))
        streams = {"stdout": subprocess.PIPE, "stderr": subprocess.PIPE, **streams}
        given = {} if "stdin" in streams else {"input": bytes_of(requests) if text is None else text}
        try:
            ran = subprocess.run([*before, *self.words(folder)], preexec_fn=limit if limits else None,
                                 timeout=LIMIT, **given, **streams)
        except subprocess.TimeoutExpired:
            raise Fault(f"it hangs at {', '.join(map(str, requests))}") from None
        return Came(ran.returncode, ran.stdout or b"", requests)

    def begin(self, folder, before=()):
        return Talk(subprocess.Popen([*before, *self.words(folder)], stdin=subprocess.PIPE, stdout=subprocess.PIPE,
                                     stderr=subprocess.PIPE))


class Talk:
    """A run that is asked request by request, so that the machine may change between them."""

    def __init__(self, process):
        self.process = process

    def send(self, request):
        self.process.stdin.write(request.bytes())
        self.process.stdin.flush()

    def ask(self, request):
        self.send(request)
        return self.answer(request)

    def head(self):
        text = b""
        while not text.endswith(b"\r\n\r\n"):
            line = self.process.stdout.readline()
            need(line, f"the answer ends in its head: {text!r}")
            text += line
        status, fields, _ = head_of(text, 0)
        return status, fields

    def answer(self, request):
        status, fields = self.head()
        if request.method == "HEAD" or status in (204, 304):
            return Answer(status, fields, b"", True)
        if "content-length" in fields:
            size = int(fields["content-length"])
            body = self.process.stdout.read(size)
            return Answer(status, fields, body, len(body) == size)
        return self.chunks(status, fields)

    def chunks(self, status, fields):
        body = b""
        while (line := self.process.stdout.readline()):
            size = int(line, 16)
            body += self.process.stdout.read(size)
            self.process.stdout.readline()
            if size == 0:
                return Answer(status, fields, body, True)
        return Answer(status, fields, body, False)

    def end(self, wanted=0):
        """Ends the input, and gives what is written behind the last answer."""
        try:
            rest, _ = self.process.communicate(timeout=LIMIT)
        except subprocess.TimeoutExpired:
            raise Fault("it hangs at the end of its input") from None
        need(self.process.returncode == wanted, f"it ends with {self.process.returncode}, and not with {wanted}")
        return rest

    def stop(self):
        if self.process.poll() is None:
            self.process.kill()
        self.process.communicate()


class Shim:
    """A library in front of the C library, by which reads and writes are short, or memory is refused."""

    def __enter__(self):
        self.folder = tempfile.TemporaryDirectory(prefix="davserve-shim-")
        self.library = os.path.join(self.folder.name, "shim.so")
        source = os.path.join(os.path.dirname(os.path.abspath(__file__)), "shim.c")
        words = ["cc", "-shared", "-fPIC", "-O1", "-fno-builtin", "-o", self.library, source, "-ldl"]
        if not shutil.which("cc") or subprocess.run(words, check=False).returncode:
            self.folder.cleanup()
            raise Left("no cc, to make reads and writes short and to refuse memory")
        return self

    def __exit__(self, *_):
        self.folder.cleanup()

    def words(self, **settings):
        return ["env", f"LD_PRELOAD={self.library}", *(f"{name}={value}" for name, value in settings.items())]


class Place:
    """A folder that is served, beside one that isn't, in a place of its own that goes when it is left."""

    def __init__(self, tree=None):
        self.base = tempfile.mkdtemp(prefix="davserve-faults-")
        self.mounts = False
        os.chmod(self.base, 0o755)
        self.root = os.path.join(self.base, "root")
        set_up(self.base, {("keep", "kept.txt"): b"kept", ("keep",): None})
        os.mkdir(self.root)
        set_up(self.root, tree or {})

    def __enter__(self):
        return self

    def __exit__(self, *_):
        if self.mounts:
            subprocess.run(["umount", "-l", self.root], stderr=subprocess.DEVNULL, check=False)
        for place, _, _ in os.walk(self.base):
            os.chmod(place, 0o755)
        shutil.rmtree(self.base)

    def mount(self, kind, options, source="none"):
        """Puts a file system of its own at the folder. It goes with the name space of mounts, if not before."""
        words = ["mount", "-t", kind, "-o", options, source, self.root]
        if subprocess.run(words, stderr=subprocess.DEVNULL, check=False).returncode:
            raise Left(f"no mount of {kind} with {options}")
        self.mounts = True

    def tree(self):
        need(tree_of(os.path.join(self.base, "keep")) == {(): None, ("kept.txt",): b"kept"}, "a file outside was touched")
        return tree_of(self.root)
