"""The wanted rows of `text_rows`: texts that are escaped, pages, and paths. A path's row has `|` behind its first word."""
import entity_rows
import page_rows
import path_rows
from texts import print_wanted

PAGES = ("size", "read", "heading", "page", "back")


def wanted(row):
    word = row.split(" ")[0]
    model = path_rows if "|" in word else page_rows if word in PAGES else entity_rows
    return model.wanted(row)


def wanted_all(rows):
    return [wanted(row) for row in rows]


if __name__ == "__main__":
    print_wanted(wanted_all)
