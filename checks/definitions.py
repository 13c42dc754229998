#!/usr/bin/env python3
"""Prints where the definitions of right answers stand: each file of `crates/*/specs` with its first comment, by crate, behind
those that it uses.

    python3 checks/definitions.py [CRATE..]           as a page: all crates, or these
    python3 checks/definitions.py --all [CRATE..]     the files of code and of proofs as well, those that have a first comment
    python3 checks/definitions.py NAME..              where these names are defined: file, line, and the comment above

A name is that of a definition, of a field of a record, of a case of data, or of a public function, a law among them. One that is
defined nowhere ends it with 1.
"""
import os
import re
import sys

ROOT = os.path.dirname(os.path.dirname(os.path.abspath(__file__)))
CRATES = os.path.join(ROOT, "crates")
DEFINITION = re.compile(r"^(?:unfoldable |abbrev )*(?:pub )?(?:(?:record|data) )?(?:pub )?(\w+)\b[^:=]*:")
PART = re.compile(r"^  (?:pub )?(\w+) :")
USED = re.compile(r"^use Rattle\.(\w+)\.specs\.(\w+)\.", re.M)


def files_below(crate, folder, ending):
    found = []
    for top, _, files in os.walk(os.path.join(CRATES, crate, folder)):
        found += [os.path.join(top, file) for file in files if file.endswith(ending)]
    return sorted(found)


def files_of(crate):
    """The files of definitions of a crate, without the list of its parts."""
    return [path for path in files_below(crate, "specs", ".antt") if os.path.basename(path) != "Lib.antt"]


def in_order(crate):
    """The files of definitions of a crate, each behind those of the crate that it uses."""
    by_name = {os.path.basename(path)[:-5]: path for path in files_of(crate)}
    placed = []

    def place(name, above):
        if name in by_name and by_name[name] not in placed and name not in above:
            for used in USED.findall("\n".join(lines_of(by_name[name]))):
                if used[0] == crate:
                    place(used[1], above | {name})
            placed.append(by_name[name])

    for name in by_name:
        place(name, frozenset())
    return placed + [path for path in files_of(crate) if path not in placed]


def lines_of(path):
    with open(path, encoding="utf-8") as it:
        return it.read().split("\n")


def first_comment(path):
    """The first paragraph of the comment at the head of a file."""
    said = []
    for line in lines_of(path):
        begun = re.match(r"(?:--|//[/!]?) (.*)", line)
        if not begun:
            break
        said.append(begun[1].strip())
    return " ".join(said)


def comment_above(lines, at, mark):
    said = []
    while at > 0 and lines[at - 1].strip().startswith(mark):
        at -= 1
        said.insert(0, lines[at].strip()[len(mark):].strip())
    return " ".join(said)


def places_of(name):
    """Each place where a name is defined: the path, the line's number, what it is a part of, and its comment."""
    for crate in sorted(os.listdir(CRATES)):
        for path in files_of(crate):
            lines, owner = lines_of(path), None
            for at, line in enumerate(lines):
                top, part = DEFINITION.match(line), PART.match(line)
                owner = top[1] if top else owner
                if top and top[1] == name:
                    yield os.path.relpath(path, ROOT), at + 1, None, comment_above(lines, at, "--")
                elif part and part[1] == name:
                    yield os.path.relpath(path, ROOT), at + 1, owner, comment_above(lines, at, "--")


def functions_of(name):
    """The same of each function that is public, or a method of a trait."""
    head = re.compile(rf"^(?:pub |    pub |    )(?:const )?fn {name}\b")
    for crate in sorted(os.listdir(CRATES)):
        for path in files_below(crate, "src", ".rt"):
            lines = lines_of(path)
            for at, line in enumerate(lines):
                if head.match(line):
                    yield os.path.relpath(path, ROOT), at + 1, None, comment_above(lines, at, "///")


def print_places(name):
    count = 0
    for path, line, owner, comment in [*places_of(name), *functions_of(name)]:
        count += 1
        part = f" of {owner}" if owner else ""
        print(f"{path}:{line}: {name}{part}{': ' + comment if comment else ''}")
    if not count:
        print(f"{name}: defined nowhere below crates", file=sys.stderr)
    return count > 0


def print_files(crate, folder, paths):
    for path in paths:
        name = os.path.relpath(path, os.path.join(CRATES, crate, folder))
        print(f"- `{name}`: {first_comment(path) or '(no comment)'}")


def print_crates(crates, with_all):
    print("# Where the definitions stand\n")
    print("Made by `checks/definitions.py`, from the first comment of each file.")
    for crate in crates:
        if files_of(crate) or with_all:
            print(f"\n## {crate}\n")
        print_files(crate, "specs", in_order(crate))
        for folder, ending in (("src", ".rt"), ("proofs", ".antt")) if with_all else ():
            paths = [path for path in files_below(crate, folder, ending) if first_comment(path)]
            if paths:
                print(f"\n### {folder}\n")
            print_files(crate, folder, paths)


def main():
    if {"-h", "--help"} & set(sys.argv[1:]):
        print(__doc__)
        return 0
    all_of = sorted(os.listdir(CRATES))
    words = [word for word in sys.argv[1:] if word != "--all"]
    crates = [word for word in words if word in all_of]
    names = [word for word in words if word not in all_of]
    if crates or not words:
        print_crates(crates or all_of, "--all" in sys.argv[1:])
    return 0 if all([print_places(name) for name in names]) else 1


if __name__ == "__main__":
    sys.exit(main())
