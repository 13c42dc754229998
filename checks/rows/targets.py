"""Targets of requests and absolute URIs, by the grammar that the kit's crate `http_uri` states."""
import re

MOST = 65_534
SCHEME = re.compile(rb"[+.0-9A-Za-z~-]{0,64}")
AUTHORITY_BYTE = re.compile(rb"[!$-.0-;=@-\[\]_a-z~]")
PATH = re.compile(rb'[!"$-;=@-_a-~\x80-\xff]*')
QUERY = re.compile(rb"[!$-;=?-~\x80-\xff]*")


class Uri:
    def __init__(self, scheme, path):
        self.scheme, self.path = scheme, path


def uri_of(text):
    """A URI in one of the forms of a request's target (RFC 9112, section 3.2), or None. Its path is without query."""
    if not text or len(text) > MOST:
        return None
    if text == b"*" or text.startswith(b"/"):
        return None if not is_kept(text.partition(b"#")[0]) else Uri(None, path_text(text))
    scheme = SCHEME.match(text)[0]
    if text[len(scheme):len(scheme) + 3] != b"://" or len(text) <= 3:
        return Uri(None, b"") if is_authority(text) else None
    rest = text[len(scheme) + 3:]
    end = next((at for at, b in enumerate(rest) if b in b"/?#"), len(rest))
    if not is_authority(rest[:end]) or not is_kept(rest[end:].partition(b"#")[0]):
        return None
    return Uri(scheme, path_text(rest[end:]) or b"/")


def path_text(text):
    return text.partition(b"#")[0].partition(b"?")[0]


def is_kept(text):
    """A path and a query, without fragment."""
    path, _, query = text.partition(b"?")
    if path not in (b"", b"*") and not path.startswith(b"/"):
        return False
    try:
        text.decode()
    except UnicodeDecodeError:
        return False
    return PATH.fullmatch(path) is not None and QUERY.fullmatch(query) is not None


def last_piece(text):
    """What follows the last `@` or `]`."""
    return re.split(rb"[@\]]", text)[-1]


def may_follow(front, byte):
    """Whether a byte may follow the front of an authority."""
    if byte == b":":
        return last_piece(front).count(b":") < 8
    if byte == b"[":
        return b"[" not in front and b"%" not in last_piece(front)
    if byte == b"]":
        return b"[" in front and b"]" not in front
    return byte == b"%" or AUTHORITY_BYTE.fullmatch(byte) is not None


def is_authority(text):
    """Userinfo, host and port; one pair of brackets may hold an address."""
    return (text != b"" and all(may_follow(text[:at], text[at:at + 1]) for at in range(len(text)))
            and text.count(b"[") == text.count(b"]") and last_piece(text).count(b":") <= 1
            and b"%" not in last_piece(text) and not text.endswith(b"@"))


def target_path(text):
    """The path of a request's target as text, or None where there is no such URI."""
    uri = uri_of(text.encode() if isinstance(text, str) else text)
    return None if uri is None else uri.path.decode("latin-1")
