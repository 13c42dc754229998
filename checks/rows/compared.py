"""The wanted rows of a driver beside those of the model."""
import importlib
import os

HERE = os.path.dirname(os.path.abspath(__file__))
TOP = os.path.dirname(os.path.dirname(HERE))
DRIVERS = ("step_rows", "run_rows", "handle_rows", "local_rows", "memory_rows", "condition_rows", "text_rows",
           "wire_rows", "report_rows", "host_rows", "upload_rows", "mirror_rows", "session_rows", "readcache_rows")


def file_of(driver, name):
    return os.path.join(TOP, "crates", driver, name)


def lines_of(driver, name):
    with open(file_of(driver, name), newline="\n", encoding="utf-8") as file:
        return file.read().split("\n")[:-1]


class Compared:
    """The wanted lines that stand, and those of the model, which has None for a line beyond it."""

    def __init__(self, driver):
        module = importlib.import_module(driver)
        rows, self.driver, self.old = lines_of(driver, "stdin"), driver, lines_of(driver, "stdout")
        self.new = module.wanted_all(rows)
        self.rows = [row for row, _ in module.answered(rows)] if hasattr(module, "answered") else rows
        self.reasons = getattr(module, "REASONS", "")
        self.beside = getattr(module, "beside", lambda row, line: None)
        self.beyond = [at for at, line in enumerate(self.new) if line is None]
        both = enumerate(zip(self.old, self.new))
        self.differ = [at for at, (old, new) in both if new is not None and old != new]

    def fits(self):
        """Whether each line that the model has is that which stands."""
        return not self.differ and len(self.old) == len(self.new)

    def summary(self):
        same = len(self.new) - len(self.beyond) - len(self.differ)
        reasons = f": {self.reasons}" if self.beyond else ""
        return (f"{self.driver}: {same} of {len(self.old)} lines, {len(self.differ)} differ, "
                f"{len(self.beyond)} beyond the model{reasons}")

    def differences(self):
        """Where each line differs first."""
        for at in self.differ:
            old, new = self.old[at], self.new[at]
            place = next((n for n, (a, b) in enumerate(zip(old, new)) if a != b), min(len(old), len(new)))
            cut = slice(max(0, place - 40), place + 80)
            yield f"{at + 1}: at {place}\n  stands {old[cut]!r}\n  wanted {new[cut]!r}"

    def write(self):
        """Writes the wanted rows anew. Lines beyond the model stay as they are."""
        stands = self.old + [""] * (len(self.new) - len(self.old))
        lines = [old if new is None else new for old, new in zip(stands, self.new)]
        with open(file_of(self.driver, "stdout"), "w", newline="\n", encoding="utf-8") as file:
            file.write("\n".join(lines) + "\n")
