#!/usr/bin/env python3
"""Tells what is proved again where a crate changes, and how long that takes.

    checks/again.py [CRATE..]      these crates, or all libraries
    checks/again.py --table        the minutes of all libraries in groups, as docs/CHANGING.md has them
    checks/again.py --uncited      of each crate the libraries that its line names and that no file of it cites

For each crate: the libraries on and above it, with their processor minutes; the programs above it, with theirs; and the longest
chain, of which each has to wait for the one before. It reads crates.txt and the table of minutes in docs/MAP.md, without edits. A
crate that the table lacks counts as nothing, and is named. A library that no file cites may be needed all the same, where a
contract of another one speaks of its types: a check without it tells.
"""
import argparse
import os
import re
import sys

ROOT = os.path.dirname(os.path.dirname(os.path.abspath(__file__)))
ROW = re.compile(r"\| `(\w+)` \| ([\d.]+)[ *]*\|")
# Between which minutes a change counts as cheap or dear.
BOUNDS = (10, 30, 70)


def lines_of(path):
    with open(os.path.join(ROOT, path), encoding="utf-8") as it:
        return it.read().split("\n")


def libraries_named():
    """Of each crate the libraries that its line names."""
    listed = [line.split(":", 1) for line in lines_of("crates.txt") if ":" in line and not line.startswith("#")]
    return {head.split()[0]: below.split() for head, below in listed}


def crates_below():
    """Of each crate those that its line names, as far as they are crates of the repository."""
    named = libraries_named()
    return {crate: [it for it in below if it in named] for crate, below in named.items()}


def minutes_of():
    return {row[1]: float(row[2]) for row in map(ROW.match, lines_of("docs/MAP.md")) if row}


def is_program(crate):
    return os.path.exists(os.path.join(ROOT, "crates", crate, "src", "main.rt"))


def on_and_above(crate, below):
    """The crate, and all that stand on it, by whatever way."""
    found = {crate}
    while True:
        more = {it for it, named in below.items() if found & set(named)} - found
        if not more:
            return found
        found |= more


def longest_chain(crate, found, below, minutes):
    """The minutes of the longest chain that begins with the crate."""
    above = [it for it in found if crate in below[it]]
    return minutes.get(crate, 0) + max((longest_chain(it, found, below, minutes) for it in above), default=0)


def words_of(crate):
    """All words of the code, the definitions and the proofs of a crate."""
    found = set()
    for part in ("src", "specs", "proofs"):
        for folder, _, files in os.walk(os.path.join(ROOT, "crates", crate, part)):
            for file in files:
                found |= set(re.findall(r"\w+", "\n".join(lines_of(os.path.join(folder, file)))))
    return found


def print_uncited():
    for crate, named in libraries_named().items():
        cited = words_of(crate)
        lost = [it for it in named if it not in cited]
        if lost:
            print(f"{crate}: {' '.join(lost)}")


def print_table(below, minutes):
    """The libraries by the minutes of all that is proved again where one changes."""
    sums = [(sum(minutes.get(it, 0) for it in on_and_above(crate, below)), crate) for crate in below if not is_program(crate)]
    print("| processor minutes in all | a change of |\n|---|---|")
    for least, most in zip((0, *BOUNDS), (*BOUNDS, None)):
        group = [f"`{crate}` {minutes_of_one:.0f}" for minutes_of_one, crate in sorted(sums)
                 if least < minutes_of_one and (most is None or minutes_of_one <= most)]
        print(f"| {f'more than {least}' if most is None else f'at most {most}'} | {', '.join(group)} |")


def told_of(crates, minutes, word):
    return f"{len(crates)} {word}, {sum(minutes.get(it, 0) for it in crates):.0f} minutes"


def main():
    parser = argparse.ArgumentParser(description=__doc__, formatter_class=argparse.RawDescriptionHelpFormatter)
    parser.add_argument("--table", action="store_true", help="the minutes of all libraries in groups")
    parser.add_argument("--uncited", action="store_true", help="libraries that a line names and no file cites")
    parser.add_argument("crates", metavar="CRATE", nargs="*")
    args, below, minutes = parser.parse_args(), crates_below(), minutes_of()
    if args.table or args.uncited:
        print_table(below, minutes) if args.table else print_uncited()
        return 0
    crates = args.crates or [it for it in below if not is_program(it)]
    unknown = [it for it in crates if it not in below]
    if unknown:
        print(f"crates.txt has no {', '.join(unknown)}", file=sys.stderr)
        return 1
    for crate in crates:
        found = on_and_above(crate, below)
        programs = {it for it in found if is_program(it)}
        chain = longest_chain(crate, found, below, minutes)
        print(f"{crate}: {told_of(found - programs, minutes, 'libraries')}; {told_of(programs, minutes, 'programs')}; chain {chain:.0f}")
    lacking = [it for it in below if it not in minutes]
    if lacking:
        print(f"without minutes: {', '.join(lacking)}")
    return 0


if __name__ == "__main__":
    sys.exit(main())
