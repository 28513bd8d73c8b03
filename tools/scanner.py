"""The tokens of one statement of a paper: of a line, and of the lines after it
that belong to it.

A scanner remembers what was looked for at the present token, so that an error
lists everything that could have stood there."""

import re

from faults import PaperError, Token
from hints import END, hint_at

# A word (a letter with its number, a keyword, or a type's name), a number, a sign;
# any other character is a token by itself, which nothing expects.
WORD = r"[A-Za-z][A-Za-z0-9_.-]*"
TOKEN = re.compile(rf"{WORD}|[0-9]+|\S")
COMMENT = "#"
OPENING, CLOSING = "[", "]"
# Signs between trees: a statement does not end in one, and none begins with one.
BETWEEN_TREES = ("|", "+")
# A number of more digits is too large for every field.
MOST_DIGITS = 20


class Scanner:
    def __init__(self, text, line):
        self.tokens = []
        # How many brackets are open at the end.
        self.opened = 0
        self.at = 0
        self.tried = []
        self.go_on(text, line)

    def go_on(self, text, line):
        """Takes another line into the statement."""
        text = text.split(COMMENT, 1)[0].rstrip()
        found = [Token(match.group(), line, match.start() + 1) for match in TOKEN.finditer(text)]
        # The statement ends where its last token does.
        if found or not self.tokens:
            self.tokens[-1:] = [*found, Token("", line, len(text) + 1)]
        words = [token.text for token in found]
        self.opened += words.count(OPENING) - words.count(CLOSING)

    @property
    def line(self):
        return self.tokens[0].line

    @property
    def last_line(self):
        return self.tokens[-1].line

    @property
    def is_open(self):
        """Whether the next line belongs to it whatever it is."""
        return self.opened > 0 or (len(self.tokens) > 1 and self.tokens[-2].text in BETWEEN_TREES)

    def goes_on_in(self, text):
        """Whether a line goes on with it by its first sign."""
        return text.lstrip().startswith(BETWEEN_TREES)

    @property
    def token(self):
        """The present token."""
        return self.tokens[self.at]

    @property
    def before(self):
        """The token before the present one."""
        return self.tokens[self.at - 1]

    @property
    def is_blank(self):
        return len(self.tokens) == 1

    def has(self, text):
        """Whether this token stands anywhere in the statement."""
        return any(token.text == text for token in self.tokens)

    def take(self):
        """The present token; the next one becomes the present one."""
        token = self.token
        self.at += 1
        self.tried = []
        return token

    def skip(self, text):
        """Whether the present token is this one, which is then taken."""
        if self.token.text == text:
            self.take()
            return True
        self.tried.append(f"'{text}'")
        return False

    def expect(self, text):
        if not self.skip(text):
            self.fail()

    def expect_end(self):
        if self.token.text:
            self.fail(END)

    def number(self, most):
        """A number from 0 to ``most``."""
        number = as_number(self.token.text)
        if number is None:
            self.fail("a number")
        if number > most:
            raise PaperError(self.token, f"a number up to {most}")
        self.take()
        return number

    def fail(self, *more, hint=None):
        """The present token is none of those tried, and not what ``more`` says."""
        wanted = self.tried + list(more)
        *early, last = wanted
        expected = f"{', '.join(early)} or {last}" if early else last
        before = self.before if self.at else None
        raise PaperError(self.token, expected, hint=hint or hint_at(self.token, before, wanted))


def as_number(text):
    """The number that the digits stand for; None where the text has others."""
    if not (text.isascii() and text.isdigit()):
        return None
    return int((text.lstrip("0") or "0")[:MOST_DIGITS])
