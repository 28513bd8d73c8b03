"""Runs the proved marking program on the bytes of a sheet, or of many."""

import re
from typing import NamedTuple, Optional

from layout import encode_many
from proved import MARKER
from words import in_words

ANSWER = re.compile(rb"(passes|undecided|(fails|refused) ([0-9]{1,3}))\n")
# Asks for the marks of many sheets.
MANY = "--many"


class Mark(NamedTuple):
    # passes, undecided, fails or refused
    word: str
    number: Optional[int]

    def __str__(self):
        return self.word if self.number is None else f"{self.word} {self.number}"

    def in_words(self):
        return f"{self}: {in_words(self.word, self.number)}"


def mark(data):
    """The mark of a sheet; raises NoAnswer where the program gives none."""
    return marks_of(MARKER.run(data), 1)[0]


def mark_many(sheets):
    """The marks of sheets, by one run of the program; raises NoAnswer where it
    does not give one for each."""
    return marks_of(MARKER.run(encode_many(sheets), MANY), len(sheets)) if sheets else []


def marks_of(run, count):
    lines = run.stdout.splitlines(keepends=True)
    answers = [ANSWER.fullmatch(line) for line in lines]
    if run.returncode != 0 or run.stderr or len(answers) != count or not all(answers):
        raise MARKER.no_answer(run)
    return [mark_in(*answer.groups()) for answer in answers]


def mark_in(word, with_number, number):
    if number is None:
        return Mark(word.decode(), None)
    return Mark(with_number.decode(), int(number))
