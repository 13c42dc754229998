"""The wanted rows of `report_rows`, whose parts begin with a row `# WORD`: elements, calendars, and selections."""
import calendar_rows
import element_rows
import selection_rows
from texts import print_wanted

# What a part begins with: rows of elements stand each by itself.
MODELS = {"elements": lambda: element_rows, "calendars": calendar_rows.Model, "selections": selection_rows.Model}


def answered(rows):
    """Each row that has an answer, with its answer."""
    model = element_rows
    for row in rows:
        first, _, part = row.partition(" ")
        if first == "#":
            model, line = MODELS[part](), row
        else:
            line = model.wanted(row)
        if line is not None:
            yield row, line


def wanted_all(rows):
    return [line for _, line in answered(rows)]


if __name__ == "__main__":
    print_wanted(wanted_all)
