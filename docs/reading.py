"""What the commands that hold documents to the sources have in common: files and tables."""
import re
from pathlib import Path

ROOT = Path(__file__).resolve().parent.parent
SHOWN = 20


def source(path):
    """The text of a file of the repository, empty where there is none."""
    file = ROOT / path
    return file.read_text(encoding="utf-8") if file.is_file() else ""


def quoted(cell):
    """The backquoted parts of a cell."""
    return re.findall(r"`([^`]*)`", cell)


def first(cell):
    """The first backquoted part of a cell, empty where there is none."""
    return (quoted(cell) + [""])[0]


def tables(text):
    """Each row of each table: the heading above the table, its column heads, the row's cells."""
    heading, heads = "", None
    for line in text.splitlines():
        if line.startswith("#"):
            heading = line.lstrip("# ").strip()
        if not line.startswith("|"):
            heads = None
            continue
        cells = [c.strip() for c in line.strip("|").split("|")]
        if heads is None:
            heads = cells
        elif set(line) - set("|-"):
            yield heading, heads, cells


def report(command, wrong, what, shown=SHOWN):
    """Prints the first faults and the closing line; the exit status."""
    for line in wrong[:shown]:
        print("%s: %s" % (command, line))
    print("%s: %s, %d wrong" % (command, what, len(wrong)))
    return 1 if wrong else 0
