"""A fault in a paper: the place, what was expected there and what was found."""

from typing import NamedTuple

LONGEST_WORD = 40
# How much of a line is shown before and after the place.
BEFORE, AFTER = 50, 25


class Token(NamedTuple):
    # Empty at the end of the line.
    text: str
    # Both from 1.
    line: int
    column: int

    @property
    def cut(self):
        """The text, not too long."""
        more = "..." if len(self.text) > LONGEST_WORD else ""
        return f"{printable(self.text[:LONGEST_WORD])}{more}"

    def shown(self):
        return f"'{self.cut}'" if self.text else "the end of the line"


class PaperError(Exception):
    """Something else was expected at a token."""

    def __init__(self, token, expected, found=None, hint=None):
        super().__init__(f"expected {expected}, found {found or token.shown()}")
        self.line = token.line
        self.column = token.column
        # What to write instead, where it can be guessed.
        self.hint = hint

    def said_of(self, what):
        """Says first what the fault is one of."""
        self.args = (f"{what}: {self}",)

    def report(self, file, text):
        """The message, the line, a caret below the column, and the hint."""
        line = text.split("\n")[self.line - 1].rstrip()
        hint = f"\nhint: {self.hint}" if self.hint else ""
        return f"{file}:{self.line}:{self.column}: {self}\n{pointer(line, self.column - 1)}{hint}"

    def in_a_line(self):
        hint = f"; hint: {self.hint}" if self.hint else ""
        return f"{self.line}:{self.column}: {self}{hint}"


def pointer(line, place):
    """The part of the line about a place (from 0), and a caret below the place."""
    start = max(0, place - BEFORE)
    end = max(place + AFTER, BEFORE + AFTER)
    front = "..." if start else ""
    back = "..." if end < len(line) else ""
    blank = "".join(c if c == "\t" else " " for c in front + line[start:place])
    return f"  {front}{printable(line[start:end])}{back}\n  {blank}^"


def printable(text):
    return "".join(c if c.isprintable() or c == "\t" else "?" for c in text)
