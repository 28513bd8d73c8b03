"""The papers of a file: one, or several that are parted by blank lines or by
lines `paper : NAME`; and the files of a folder."""

import os
from pathlib import Path
from typing import NamedTuple

from files import STANDARD, shown, text_of
from statements import NameLine, looks_like_trees, scanned

SUFFIX = ".paper"


class Part(NamedTuple):
    """One paper of a text. Its text has the lines before it blank, so that each
    line keeps its number."""

    # Empty where no line names it.
    name: str
    # Where its first statement stands, from 1.
    line: int
    text: str


class Entry(NamedTuple):
    """One paper to be marked."""

    file: str
    part: Part
    # Whether its file has no other.
    alone: bool

    @property
    def label(self):
        place = self.file if self.alone else f"{self.file}:{self.part.line}"
        return f"{place}, {self.part.name}" if self.part.name else place


def split(text):
    """The papers of a text, at least one. Two trees begin another paper where a
    blank line stands before them."""
    lines = text.split("\n")
    # Of each paper its name and its first statement's line; of the last one
    # also whether it has its trees.
    begun, has_trees, last = [], False, 0
    for statement in scanned(lines):
        named = isinstance(statement, NameLine)
        trees = not named and looks_like_trees(statement)
        apart = any(not line.strip() for line in lines[last:statement.line - 1])
        if named or not begun or (trees and has_trees and apart):
            begun.append((statement.name if named else "", statement.line))
            has_trees = trees
        has_trees = has_trees or trees
        last = statement.last_line
    begun = begun or [("", 1)]
    ends = [line - 1 for _, line in begun[1:]] + [len(lines)]
    return [Part(name, line, "\n" * (line - 1) + "\n".join(lines[line - 1:end]))
            for (name, line), end in zip(begun, ends)]


def files_of(names):
    """The files, those of folders among them; standard input where none is
    named. Says also which folders have other files besides papers."""
    files, others = [], []
    for name in names or [STANDARD]:
        if name == STANDARD or not os.path.isdir(name):
            files.append(name)
            continue
        inside = inside_of(name)
        papers = [file for file in inside if file.suffix.lower() == SUFFIX]
        # A folder without papers stands for one that can't be read.
        files += map(str, papers or [Path(name) / f"*{SUFFIX}"])
        left = len(inside) - len(papers)
        if left:
            others.append(f"{name}: {left} other{'s' * (left > 1)} left alone, "
                          f"only *{SUFFIX} are read")
    return files, others


def inside_of(name):
    """What is in a folder, by name."""
    try:
        return sorted(Path(name).iterdir())
    except OSError:
        return []


def entries_of(name):
    """The papers of a file."""
    parts = split(text_of(name))
    return [Entry(shown(name), part, len(parts) == 1) for part in parts]
