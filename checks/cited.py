#!/usr/bin/env python3
"""Looks whether each name that the documents cite stands somewhere in the repository.

    checks/cited.py      prints each name that nothing bears, with its place; ends with 1 if there is one, and else with 0

Looked at is each text between backticks in README.md and in the pages of docs/ and bench/ that is one name, or several joined by
`::` or a dot. It has to be a path or the name of a file, or each part of it a word of a source, a definition or a script. Words of
other programs stand in `OF_OTHERS`, and one of these that no page cites any more is told as well.

Names behind that of a function and a colon, or in brackets behind it, are its clauses, and so is a name that is said to be `of` it:
each has to be one of those that `checks/clauses.py` prints, or a function or a crate itself. And each crate of crates.txt has to stand
in README.md and in docs/MAP.md.
"""
import collections
import os
import re
import subprocess
import sys

sys.dont_write_bytecode = True
import clauses

ROOT = os.path.dirname(os.path.dirname(os.path.abspath(__file__)))
SELF = "checks/cited.py"

# Words of other programs, of the machine and of the Rust crates, which nothing here bears.
OF_OTHERS = set("""
arrayvec as_rel_ospath fsync getdents64 glusterd jiff LimitFSIZE logrotate MemFs MemLs noac
nocto openat Packages pip pread64 Release roundrobin RRULE smallvec stat_at statx to_lowercase writev xmltree
""".split())

PAGE = re.compile(r"README\.md|(?:docs|bench)/.*\.md")
CITED = re.compile(r"`([^`\n]+)`")
WORD = re.compile(r"[A-Za-z_][A-Za-z0-9_]*")
NAME = re.compile(r"[A-Za-z_][A-Za-z0-9_]*(?:(?:::|\.)[A-Za-z_][A-Za-z0-9_]*)*")
CLAUSE = re.compile(r"(?:requires|ensures)\*? (\w+)")
CLAUSES = re.compile(r"`(\w+)`(?:: | \()((?:`\w+`(?:, | and )?)+)")
CLAUSE_OF = re.compile(r"`(\w+)` of `(\w+)`")


def tracked_files():
    """The files of the repository, those that aren't committed yet among them."""
    listed = ["git", "-C", ROOT, "ls-files", "--cached", "--others", "--exclude-standard"]
    paths = subprocess.run(listed, check=True, capture_output=True, encoding="utf-8").stdout.split("\n")
    return [path for path in paths if path and os.path.isfile(os.path.join(ROOT, path))]


def text_of(path):
    with open(os.path.join(ROOT, path), encoding="utf-8", errors="replace") as it:
        return it.read()


def borne_by(paths):
    """All words and all names of files that a page may cite."""
    borne = set()
    for path in paths:
        borne.add(path)
        for part in path.split("/"):
            borne |= {part, os.path.splitext(part)[0]}
        if path != SELF and not path.endswith(".md"):
            borne |= set(WORD.findall(text_of(path)))
    return borne


def cited_in(page):
    """Each name that a page cites, with the number of its line."""
    for number, line in enumerate(text_of(page).split("\n"), 1):
        for text in CITED.findall(line):
            name = text.strip().removesuffix("()")
            if NAME.fullmatch(name):
                yield number, name


def lost_parts(name, borne):
    if name in borne:
        return []
    return [part for part in re.split(r"::|\.", name) if part not in borne]


def clauses_by_function():
    """The names of the clauses of all functions of one name, without their module."""
    named = collections.defaultdict(set)
    for name, promise in clauses.promises(clauses.of_folder(), []).items():
        named[promise.name] |= {it[1] for it in map(CLAUSE.match, promise.clauses) if it}
    return named


def lost_clauses(page, named):
    """Each clause that a page gives to a function that has none of this name, with its line."""
    crates = set(os.listdir(os.path.join(ROOT, "crates")))
    for number, line in enumerate(text_of(page).split("\n"), 1):
        pairs = [(it[1], clause) for it in CLAUSES.finditer(line) for clause in re.findall(r"\w+", it[2].replace(" and ", " "))]
        for function, clause in pairs + [(it[2], it[1]) for it in CLAUSE_OF.finditer(line)]:
            if function in named and clause not in named[function] and clause not in named and clause not in crates:
                yield number, function, clause


def lost_crates():
    """Each crate that one of the two pages of all crates doesn't name, with the page."""
    crates = [line.split(":")[0].split()[0] for line in text_of("crates.txt").split("\n") if ":" in line]
    for page in ("README.md", "docs/MAP.md"):
        text = text_of(page)
        yield from ((page, crate) for crate in crates if f"`{crate}`" not in text)


def main():
    paths = tracked_files()
    borne, named = borne_by(paths), clauses_by_function()
    count, met = 0, set()
    for page in filter(PAGE.fullmatch, paths):
        for number, name in cited_in(page):
            lost = lost_parts(name, borne)
            met |= set(lost)
            for part in lost:
                if part not in OF_OTHERS:
                    count += 1
                    print(f"{page}:{number}: {name}: nothing bears {part}")
        for number, function, clause in lost_clauses(page, named):
            count += 1
            print(f"{page}:{number}: {function}: it has no clause {clause}")
    for page, crate in lost_crates():
        count += 1
        print(f"{page}: it doesn't name the crate {crate}")
    for word in sorted(OF_OTHERS - met):
        count += 1
        print(f"{SELF}: {word}: no page cites it, or something bears it")
    return 1 if count else 0


if __name__ == "__main__":
    sys.exit(main())
