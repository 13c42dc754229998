"""The wanted rows of `memory_rows`: disks in memory, and caches, whose rows have colons in their first word."""
import cache_rows
import disk_rows
from texts import print_wanted

REASONS = disk_rows.REASONS


def wanted(row):
    model = cache_rows if ":" in row.split(" ")[0] else disk_rows
    return model.wanted(row)


def wanted_all(rows):
    return [wanted(row) for row in rows]


if __name__ == "__main__":
    print_wanted(wanted_all)
