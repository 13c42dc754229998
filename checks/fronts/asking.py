"""What a way is asked, by curl."""
import re
import subprocess

NAMES = {"100%25.txt": "100%.txt", "Gr%C3%BC%C3%9Fe.txt": "Grüße.txt", "why%3F.txt": "why?.txt", "a%23b.txt": "a#b.txt",
         "a;b.txt": "a;b.txt", "with%20spaces/a%20b.txt": "with spaces/a b.txt"}
# Spellings of names that begin with a dot, as a destination.
HIDDEN = ("/.x", "/%2ex", "/%2Ex", "/folder/.x", "/folder/%2Ex", "https://files.example/.x", "https://files.example/folder/%2ex")


class Asker:
    """Asks one address by curl, and gives the status, the head and the body of the answer."""

    def __init__(self, work, url, words):
        self.url, self.words, self.room = work.own(url), [work.own(it) for it in words], work.at / "tmp"

    def __call__(self, path, *words, given=None):
        body, head = self.room / "body", self.room / "head"
        body.write_bytes(b"")
        curl = ["curl", "-s", "-m", "120", "--path-as-is", "-o", body, "-D", head, "-w", "%{http_code}", *self.words, *words]
        ran = subprocess.run([*curl, self.url + path], stdin=given or subprocess.DEVNULL, stdout=subprocess.PIPE, text=True)
        return ran.stdout, head.read_text(errors="replace").lower() if head.exists() else "", body


def try_reading(ask, folder, tally):
    """Reads, refusals to read, and ranges."""
    status, head, body = ask("/ten.txt")
    tally(f"{ask.url}: GET", status == "200" and body.read_bytes() == b"0123456789", status)
    tag = re.search(r'etag: (".*?")', head)
    tally(f"{ask.url}: 304", ask("/ten.txt", "-H", f"If-None-Match: {tag[1] if tag else ''}")[0] == "304")
    status, head, _ = ask("/ten.txt", "-I")
    tally(f"{ask.url}: HEAD", status == "200" and "content-length: 10" in head, status)
    tally(f"{ask.url}: 404", ask("/missing")[0] == "404")
    status, _, body = ask("/ten.txt", "-r", "2-5")
    tally(f"{ask.url}: one range", status == "206" and body.read_bytes() == b"2345", status)
    status, head, _ = ask("/ten.txt", "-r", "0-0,2-3")
    tally(f"{ask.url}: two ranges", status == "206" and "multipart/byteranges" in head, status)
    tally(f"{ask.url}: a range behind the end", ask("/ten.txt", "-r", "20-")[0] == "416")
    status, _, body = ask("/")
    tally(f"{ask.url}: a page", status == "200" and b"ten.txt" in body.read_bytes(), status)
    for link, name in NAMES.items():
        status, _, body = ask(f"/{link}")
        tally(f"{ask.url}: {link}", status == "200" and body.read_bytes() == (folder / name).read_bytes(), status)


def try_guards(ask, tally):
    """Many ranges, and names that begin with a dot."""
    many = ",".join(["0-9"] * 17)
    tally(f"{ask.url}: 17 ranges are none", ask("/ten.txt", "-r", many)[0] == "200")
    tally(f"{ask.url}: 16 ranges are heard", ask("/ten.txt", "-r", many[4:])[0] == "206")
    for link in ("/.hidden", "/folder/%2ehidden"):
        tally(f"{ask.url}: {link} isn't served", ask(link)[0] in ("403", "404"))


def try_hiding(ask, tally):
    """Names that begin with a dot aren't made by COPY and MOVE, and others are."""
    for name in HIDDEN:
        found = ask("/ten.txt", "-X", "COPY", "-H", f"Destination: {name}")[0]
        tally(f"{ask.url}: COPY to {name} is refused", found == "403", found)
    found = ask("/ten.txt", "-X", "COPY", "-H", "Destination: https://files.example/plain.x")[0]
    tally(f"{ask.url}: COPY to a plain name", found == "201", found)
    tally(f"{ask.url}: what was copied is removed", ask("/plain.x", "-X", "DELETE")[0] == "204")


def try_users(ask, small, tally):
    """Who isn't known is refused. An upload that expects to be told to go on isn't kept waiting. Pages that somebody has put
    there are shown without the rights of the address."""
    known, ask.words = ask.words, ask.words[:-2]
    tally(f"{ask.url}: 401 without a password", ask("/ten.txt")[0] == "401")
    ask.words = known
    found = ask("/plain.x", "-T", small, "-H", "Expect: 100-continue", "-m", "20")[0]
    tally(f"{ask.url}: PUT with expect", found == "201", found)
    ask("/plain.x", "-X", "DELETE")
    head = ask("/ten.txt")[1]
    tally(f"{ask.url}: a page is in a sandbox", "content-security-policy: sandbox allow-scripts" in head, head)


def try_slash(ask, tally):
    """The path of a folder without its slash is sent on."""
    status, head, _ = ask("")
    tally(f"{ask.url}: sent on to its slash", status == "301" and re.search(r"location: \S*/files/\s", head), f"{status} {head}")


def try_writing(ask, work, tally):
    """Uploads, copies, removals and refusals, and a file of 300 MB."""
    def gives(what, wanted, path, *words, given=None):
        found = ask(path, *words, given=given)[0]
        tally(f"{ask.url}: {what}", found == wanted, found)

    small, large = work.at / "demo/ten.txt", work.at / "tmp/large"
    gives("MKCOL", "201", "/col/", "-X", "MKCOL")
    gives("MKCOL again", "405", "/col/", "-X", "MKCOL")
    gives("PUT", "201", "/col/a", "-T", small)
    gives("PUT again", "204", "/col/a", "-T", small)
    gives("PUT that is to be new", "412", "/col/a", "-T", small, "-H", "If-None-Match: *")
    gives("PUT without a directory", "409", "/none/a", "-T", small)
    there = f"Destination: https://files.example{path_of(ask)}/col/"
    gives("COPY by https", "201", "/col/a", "-X", "COPY", "-H", f"{there}b")
    gives("COPY over it", "412", "/col/a", "-X", "COPY", "-H", "Overwrite: F", "-H", f"{there}b")
    gives("MOVE by https", "201", "/col/b", "-X", "MOVE", "-H", f"{there}c")
    gives("what was moved", "404", "/col/b")
    status, _, body = ask("/col/c")
    tally(f"{ask.url}: what it was moved to", status == "200" and body.read_bytes() == small.read_bytes(), status)
    gives("PROPFIND", "501", "/", "-X", "PROPFIND")
    gives("a body without a use", "415", "/col/a", "-X", "DELETE", "-d", "x")
    with open(large, "rb") as it:
        gives("300 MB in chunks", "201", "/col/chunks", "-T", "-", given=it)
    gives("300 MB by length", "201", "/col/large", "-T", large)
    for name in ("chunks", "large"):
        status, _, body = ask(f"/col/{name}")
        same = subprocess.run(["cmp", "-s", body, large]).returncode == 0
        tally(f"{ask.url}: {name} as it was sent", status == "200" and same, status)
    gives("DELETE", "204", "/col/", "-X", "DELETE")
    gives("DELETE again", "404", "/col/", "-X", "DELETE")


def try_refusing(ask, work, tally):
    """A way that is to be read alone. By HTTP/2 a refusal may come before the body went, and curl may then tell no status."""
    for words in (("--http1.1", "-T", work.at / "demo/ten.txt"), ("-X", "DELETE"), ("-X", "MKCOL"),
                  ("-X", "MOVE", "-H", "Destination: /x")):
        found = ask("/ten.txt", *words)[0]
        tally(f"{ask.url}: {words[1] if words[0] == '-X' else 'PUT'} is refused", found in ("403", "405"), found)
    tally(f"{ask.url}: the file stands", ask("/ten.txt")[0] == "200")


def path_of(ask):
    """What stands before each path of this address."""
    return re.sub(r"^https?://[^/]*", "", ask.url)


