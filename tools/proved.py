"""Runs the proved programs on bytes."""

import os
import re
import subprocess
from pathlib import Path
from typing import NamedTuple

from refusals import Refused

ROOT = Path(__file__).resolve().parent.parent
# The programs' place in a packed folder; the repository has none.
PACKED = ROOT / "bin"
REFUSED = re.compile(rb"refused ([0-9]{1,3})\n")


class NoAnswer(Exception):
    """The program is missing or does not answer."""


class Program(NamedTuple):
    # Its crate.
    name: str
    # The variable of the environment that names another program in its place.
    variable: str
    # What messages call it, and its answer.
    called: str
    answer: str

    def path(self):
        """Where the variable says; or beside the tools, in a folder that
        `tools/pack` made; or where `tools/build` has it."""
        named = os.environ.get(self.variable)
        return Path(named) if named else PACKED / self.name if PACKED.is_dir() else self.built

    @property
    def built(self):
        """Where `tools/build` has it."""
        return ROOT / "crates" / self.name / "out" / self.name

    def run(self, data, *words):
        """What it does with the data; raises NoAnswer where it can't be run."""
        path = self.path()
        if not path.is_file():
            cure = ("this folder is not whole, pack it anew" if PACKED.is_dir() else
                    f"run `tools/build {self.name}` in the repository's root")
            raise NoAnswer(f"{self.called} {path} is missing: {cure}, or set {self.variable} to "
                           "the program's path")
        try:
            return subprocess.run([str(path.resolve()), *words], input=data, check=False,
                                  stdout=subprocess.PIPE, stderr=subprocess.PIPE)
        except OSError as error:
            raise NoAnswer(f"{self.called} {path} does not run: {error.strerror}") from error

    def written(self, data, without=None):
        """The run in which it writes bytes, None where it says in these words that
        there are none; raises Refused where it refuses the data, NoAnswer where it
        does none of the three."""
        run = self.run(data)
        if run.returncode != 0 or bool(run.stdout) == bool(run.stderr):
            raise self.no_answer(run)
        if run.stdout:
            return run
        refused = REFUSED.fullmatch(run.stderr)
        if refused:
            raise Refused(int(refused.group(1)), f"{self.called} refuses it")
        if run.stderr != without:
            raise self.no_answer(run)
        return None

    def no_answer(self, run):
        """The fault of a run that answers in no known form."""
        return NoAnswer(
            f"{self.called} {self.path()} gives no {self.answer}: exit status {run.returncode}, "
            f"output {run.stdout[:40]!r}, messages {run.stderr[:40]!r}"
        )


MARKER = Program("marker", "MARKER", "the marking program", "mark")
JOIN = Program("join", "JOIN", "the joining program", "tree")
DESCRIBE = Program("describe", "DESCRIBE", "the describing program", "description")
TIDY = Program("tidy", "TIDY", "the tidying program", "tree")
ITEM = Program("item", "ITEM", "the program for items", "tree")
FILL = Program("fill", "FILL", "the filling program", "sheet")
FILL_BY = Program("fill_by", "FILL_BY", "the program for filling by a table of types", "sheet")
PROGRAMS = (MARKER, JOIN, DESCRIBE, TIDY, ITEM, FILL, FILL_BY)
