#!/usr/bin/env python3
"""Looks whether the page on changes names each file that a further method touches.

    checks/methods.py      prints each file in which the word of a method stands and that the page doesn't name; ends with 1
                           if there is one, and else with 0

Looked for is MKCALENDAR in its spellings, in the code and the definitions of each crate but drivers and examples: where
it stands, a further method that writes has a place. The page is the part "A method" of docs/CHANGING.md, which names files
below crates/.
"""
import os
import re
import sys

ROOT = os.path.dirname(os.path.dirname(os.path.abspath(__file__)))
WORD = re.compile(r"MkCalendar|MKCALENDAR|mkcalendar")
ASIDE = re.compile(r".*_rows|example_.*|dav_scenes")
CITED = re.compile(r"`([a-z_]+)/((?:src|specs)/[\w/.]+)`|`([\w/]+\.(?:rt|antt))`")


def text_of(path):
    with open(os.path.join(ROOT, path), encoding="utf-8") as it:
        return it.read()


def files_with_the_word():
    crates = os.path.join(ROOT, "crates")
    for crate in sorted(os.listdir(crates)):
        for kind in ("src", "specs") if not ASIDE.fullmatch(crate) else ():
            for at, _, names in sorted(os.walk(os.path.join(crates, crate, kind))):
                for name in sorted(names):
                    path = os.path.relpath(os.path.join(at, name), crates)
                    if WORD.search(text_of(os.path.join("crates", path))):
                        yield path


def named_on_the_page():
    """The files that the part names. A name without a folder goes on from the one before it."""
    part = text_of("docs/CHANGING.md").split("\n## A method\n", 1)[1].split("\n## ", 1)[0]
    named, folder = set(), ""
    for crate, below, alone in CITED.findall(part):
        path = f"{crate}/{below}" if crate else os.path.join(folder, alone)
        named.add(path)
        folder = os.path.dirname(path)
    return named


def main():
    named = named_on_the_page()
    lost = [path for path in files_with_the_word() if path not in named]
    for path in lost:
        print(f"docs/CHANGING.md: a method stands in crates/{path}, which the page doesn't name")
    return 1 if lost else 0


if __name__ == "__main__":
    sys.exit(main())
