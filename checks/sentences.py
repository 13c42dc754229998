#!/usr/bin/env python3
"""Tells the sentences of the documents that have more than thirty words, and how long the documents are.

    checks/sentences.py [PAGE..]      each longer sentence, with its place and its words; ends with 1 if there is one, else with 0
    checks/sentences.py --words       the words of each page, and of all but the record of older figures (bench/HISTORY.md)

Pages are README.md and those of docs/ and bench/. A sentence ends with a full stop, a question or an exclamation mark, or where its
paragraph, its entry of a list or its cell of a table ends. Code that stands apart has none. A word stands between blanks and has a
letter or a digit, so the bars of a table are none; in a sentence a text between backticks is one word.
"""
import argparse
import os
import re
import sys

ROOT = os.path.dirname(os.path.dirname(os.path.abspath(__file__)))
MOST_WORDS = 30
APART = "bench/HISTORY.md"
FENCE = re.compile(r"\s*```")
CODE = re.compile(r"`[^`]*`")
TARGET = re.compile(r"\]\([^)]*\)")
ENTRY = re.compile(r"^\s*(?:[-*]|\d+\.) ")
RULE = re.compile(r"\|[-| :]*")
END = re.compile(r"(?<=[.?!])[)\"*]*(?=\s)")


def pages():
    found = ["README.md"]
    for folder in ("docs", "bench"):
        found += [f"{folder}/{it}" for it in sorted(os.listdir(os.path.join(ROOT, folder))) if it.endswith(".md")]
    return found


def lines_of(page):
    with open(os.path.join(ROOT, page), encoding="utf-8") as it:
        return it.read().split("\n")


def words_in(text):
    return [it for it in text.split() if re.search(r"\w", it)]


def blocks_of(page):
    """Each paragraph, entry and cell that is prose, with the number of its first line."""
    at, said, in_code = 1, [], False
    for number, line in enumerate([*lines_of(page), ""], 1):
        fence = FENCE.match(line) is not None
        apart = fence or in_code or not line.strip() or line.startswith(("    ", "#", "|")) or ENTRY.match(line)
        if apart and said:
            yield at, " ".join(said)
            said = []
        in_code ^= fence
        if fence or in_code or not line.strip() or line.startswith(("    ", "#")) or RULE.fullmatch(line):
            continue
        if line.startswith("|"):
            yield from ((number, cell) for cell in CODE.sub(lambda it: it[0].replace("|", " "), line).strip("|").split("|"))
            continue
        at = at if said else number
        said.append(ENTRY.sub("", line, count=1))


def long_sentences(page):
    for number, block in blocks_of(page):
        plain = TARGET.sub("]", CODE.sub(lambda it: "a" + "".join(re.findall(r"[.?!]`$", it[0])), block))
        for sentence in END.split(plain):
            if len(words_in(sentence)) > MOST_WORDS:
                yield number, len(words_in(sentence)), " ".join(sentence.split())


def print_words():
    count = 0
    for page in pages():
        words = sum(len(words_in(line)) for line in lines_of(page))
        count += words if page != APART else 0
        print(f"{words:7,} {page}")
    print(f"{count:7,} without {APART}")


def main():
    parser = argparse.ArgumentParser(description=__doc__, formatter_class=argparse.RawDescriptionHelpFormatter)
    parser.add_argument("--words", action="store_true", help="the words of each page")
    parser.add_argument("pages", metavar="PAGE", nargs="*", help="the pages; all of them where none is named")
    args = parser.parse_args()
    if args.words:
        print_words()
        return 0
    count = 0
    for page in args.pages or pages():
        for number, words, sentence in long_sentences(page):
            count += 1
            print(f"{page}:{number}: {words} words: {sentence}")
    return 1 if count else 0


if __name__ == "__main__":
    sys.exit(main())
