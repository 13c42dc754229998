#!/usr/bin/env python3
"""Prints what the crates promise: each `pub fn`, each method of a trait and each ghost member of one, with its clauses, and
each method by which a type has a trait, where it has clauses of its own.

    python3 checks/clauses.py [CRATE..]                   all of them, in the order of their names
    python3 checks/clauses.py --markdown [CRATE..]        the same as a page: a part for each crate, with the comments of the crate
                                                          and of each function; those without a clause are named together
    python3 checks/clauses.py --against REV [CRATE..]     those whose clauses are others than at REV: `-` before, `+` now

Words stand one space apart, so that a clause that was only wrapped anew stays the same. Two lists may be compared by `diff`.
"""
import argparse
import collections
import os
import re
import subprocess
import sys

ROOT = os.path.dirname(os.path.dirname(os.path.abspath(__file__)))
PATH = re.compile(r"crates/([a-z0-9_]+)/src/(.+)\.rt$")
# What has no clauses in it: comments, strings and characters. A lifetime is no character.
BLANK = re.compile(r'//[^\n]*|/\*.*?\*/|b?"(?:\\.|[^"\\])*"|b?\'(?:\\.[^\']*|[^\'\\\n])\'', re.S)
ITEM = re.compile(r"\b(impl|trait|fn|ghost)\b")
CLAUSE = re.compile(r"\b(requires|ensures|ghost)\b(\*?)\s*(\w*)\s*(:?)\s*\{")
CLOSING = {"{": "}", "(": ")", "[": "]"}

# What a function promises: what stands before its clauses, these, its comment, and whether it is a law (it does nothing).
Promise = collections.namedtuple("Promise", "owner name signature clauses comment is_law")


def without(text, is_left_out):
    """The text with blanks in place of the comments, strings and characters that are left out, of the same length."""
    return BLANK.sub(lambda it: re.sub(r"[^\n]", " ", it[0]) if is_left_out(it[0]) else it[0], text)


class Source:
    """A file twice: `text` has blanks for all in which a bracket or a word means nothing, `shown` for its comments alone."""

    def __init__(self, whole):
        self.whole = whole
        self.text = without(whole, lambda it: True)
        self.shown = without(whole, lambda it: it.startswith("/"))

    def words(self, start, end):
        return " ".join(self.shown[start:end].split())

    def comment_above(self, at):
        """The sentences that stand right above the line of this place, past attributes."""
        said = []
        for line in reversed(self.whole[:self.whole.rfind("\n", 0, at) + 1].split("\n")[:-1]):
            line = line.strip()
            if line.startswith("///"):
                said.insert(0, line[3:].strip())
            elif not line.startswith("#["):
                break
        return " ".join(" ".join(said).split())


def end_of(text, start):
    """The place behind the bracket that closes the one at `start`."""
    opening, depth = text[start], 0
    for at in range(start, len(text)):
        if text[at] == opening:
            depth += 1
        elif text[at] == CLOSING[opening]:
            depth -= 1
            if depth == 0:
                return at + 1
    raise ValueError(f"no end of {text[start:start + 40]!r}")


def behind_generics(text, at):
    """The place behind `<..>` at `at`, if it stands there. The `>` of an arrow closes nothing."""
    if at >= len(text) or text[at] != "<":
        return at
    depth = 0
    for place in range(at, len(text)):
        if text[place] == "<":
            depth += 1
        elif text[place] == ">" and text[place - 1] not in "-=":
            depth -= 1
            if depth == 0:
                return place + 1
    raise ValueError("no end of type parameters")


def clauses_of(source, at):
    """The clauses from `at` on, what stands before them, and the place of the body or of the semicolon."""
    said, start, before = [], at, None
    while True:
        stop = re.compile(r"[{;]").search(source.text, at).start()
        clause = CLAUSE.search(source.text, at)
        if not clause or clause.start() > stop:
            return said, source.words(start, stop) if before is None else before, stop
        before = source.words(start, clause.start()) if before is None else before
        at = end_of(source.text, clause.end() - 1)
        head = f"{clause[1]}{clause[2]} {clause[3]}".strip() + clause[4]
        said.append(f"{head} {source.words(clause.end() - 1, at)}")


def function(source, owner, at):
    """The promise of the function whose name begins at `at`, and the place of its body."""
    name = re.compile(r"\s*(\w+)\s*").match(source.text, at)
    generics = behind_generics(source.text, name.end())
    open_at = source.text.index("(", generics)
    close_at = end_of(source.text, open_at)
    said, result, body = clauses_of(source, close_at)
    signature = source.words(name.end(), close_at) + (f" {result}" if result else "")
    is_law = source.text[body] == "{" and not source.text[body + 1:end_of(source.text, body) - 1].strip()
    return Promise(owner, name[1], signature, said, source.comment_above(name.start()), is_law), body


def members_of_block(source, item, found):
    """Adds the functions of an implementation or a trait, and gives its end; None where the word stands for something else."""
    text, at = source.text, item.end()
    line = text.rfind("\n", 0, item.start()) + 1
    if not re.fullmatch(r"\s*(pub(\([^)]*\))?\s+)?(unsafe\s+)?", text[line:item.start()]):
        return None
    open_at = text.index("{", at)
    close_at = end_of(text, open_at)
    start = behind_generics(text, at)
    head = re.split(r"\bwhere\b", source.words(start, open_at))[0].strip()
    members(source, open_at + 1, close_at - 1, head, item[1] == "trait", found)
    return close_at


def members(source, at, end, owner, in_trait, found):
    """Adds the functions from `at` to `end` to what was found."""
    text = source.text
    while True:
        item = ITEM.search(text, at, end)
        if not item:
            return
        at = item.end()
        if item[1] in ("impl", "trait"):
            at = members_of_block(source, item, found) or at
        elif item[1] == "ghost":
            member = re.compile(r"\s*(\w+)\s*:\s*\{").match(text, at)
            if in_trait and member:
                at = end_of(text, member.end() - 1)
                said = [source.words(member.end() - 1, at)]
                found.append(Promise(owner, f"ghost {member[1]}", "", said, source.comment_above(item.start()), False))
        else:
            line = max(text.rfind(it, 0, item.start()) for it in "\n;}{") + 1
            is_public = re.search(r"\bpub\s+(const\s+|unsafe\s+)*$", text[line:item.start()])
            promise, body = function(source, owner, at)
            if in_trait or is_public or " for " in owner and promise.clauses:
                found.append(promise)
            at = end_of(text, body) if text[body] == "{" else body


def promises(sources, crates):
    """The promises of these files, by the whole name of each function."""
    all_of = {}
    for path, text in sorted(sources.items()):
        place = PATH.search(path)
        if not place or crates and place[1] not in crates:
            continue
        module = [it for it in place[2].split("/") if it not in ("lib", "main", "mod")]
        found = []
        members(Source(text), 0, len(text), "", False, found)
        for promise in found:
            owner = [promise.owner] if promise.owner else []
            all_of.setdefault("::".join([place[1], *module, *owner, promise.name]), promise)
    return all_of


def of_folder():
    sources = {}
    for folder, _, files in os.walk(os.path.join(ROOT, "crates")):
        for file in files:
            path = os.path.relpath(os.path.join(folder, file), ROOT)
            if PATH.search(path):
                with open(os.path.join(ROOT, path), encoding="utf-8") as it:
                    sources[path] = it.read()
    return sources


def git(*args):
    return subprocess.run(["git", "-C", ROOT, *args], check=True, capture_output=True, encoding="utf-8").stdout


def of_revision(revision):
    paths = git("ls-tree", "-r", "--name-only", revision, "--", "crates").splitlines()
    return {path: git("show", f"{revision}:{path}") for path in paths if PATH.search(path)}


def lines_of(promise):
    return ([promise.signature] if promise.signature else []) + promise.clauses


def print_all(now):
    for name in sorted(now):
        print(f"{name}{now[name].signature}")
        for clause in now[name].clauses:
            print(f"    {clause}")


def print_promise(name, promise):
    print(f"\n### {name.partition('::')[2]}{', a law' if promise.is_law and promise.clauses else ''}\n")
    if promise.comment:
        print(f"{promise.comment}\n")
    print(f"```\n{promise.name}{promise.signature}")
    for clause in promise.clauses:
        print(f"    {clause}")
    print("```")


def comment_of_crate(sources, crate):
    """The first paragraph of the comment at the head of a crate."""
    said = []
    for line in (sources.get(f"crates/{crate}/src/lib.rt") or sources.get(f"crates/{crate}/src/main.rt") or "").split("\n"):
        if not line.startswith("//! "):
            break
        said.append(line[4:].strip())
    return " ".join(said)


def print_markdown(sources, now):
    print("# What is promised, crate by crate\n")
    print("Made by `checks/clauses.py --markdown`. How a clause is read stands in `docs/THEOREM.md`.")
    for crate in sorted({name.partition("::")[0] for name in now}):
        own = [name for name in sorted(now) if name.partition("::")[0] == crate]
        print(f"\n## {crate}\n\n{comment_of_crate(sources, crate)}")
        for name in own:
            if now[name].clauses:
                print_promise(name, now[name])
        bare = [f"`{name.partition('::')[2]}`" for name in own if not now[name].clauses]
        if bare:
            print(f"\nWithout a clause: {', '.join(bare)}.")


def print_changed(was, now):
    count = 0
    for name in sorted({*was, *now}):
        before, after = (lines_of(it[name]) if name in it else [] for it in (was, now))
        if before == after:
            continue
        count += 1
        print(name)
        for mark, these, others in (("-", before, after), ("+", after, before)):
            for line in these:
                if line not in others:
                    print(f"  {mark} {line}")
    print(f"{count} changed, {len(was)} before and {len(now)} now")


def main():
    parser = argparse.ArgumentParser(description=__doc__, formatter_class=argparse.RawDescriptionHelpFormatter)
    parser.add_argument("--against", metavar="REV", help="a revision of the repository to compare with")
    parser.add_argument("--markdown", action="store_true", help="as a page, with comments")
    parser.add_argument("crates", metavar="CRATE", nargs="*", help="the crates; all of them where none is named")
    args = parser.parse_args()
    sources = of_folder()
    now = promises(sources, args.crates)
    if args.against:
        print_changed(promises(of_revision(args.against), args.crates), now)
    elif args.markdown:
        print_markdown(sources, now)
    else:
        print_all(now)


if __name__ == "__main__":
    sys.exit(main())
