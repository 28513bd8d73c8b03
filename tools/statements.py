"""The statements of a paper, one to a line after the trees:

    paper : Anna              the paper's name, before the trees
    leaves : a, b, w          every leaf, in the order of the leaf numbers
    a, b : name 7             local name number
    w : lax                   process contents
    a, b : type integer       type, by name or number
    a | b, c : undecided      verdict in both tables, or first ..., second ...

What they mean for the sheet is the matter of draft.py; a line with < declares rows
of a table of types, and is the matter of typerows.py."""

import re
from typing import List, NamedTuple, Optional, Union

from faults import PaperError, Token
from hints import A_LEAF, hint_for_type, type_first
from notation import leaf_kind
from scanner import CLOSING, COMMENT, OPENING, Scanner, as_number
from sheet import MOST_NAME, OK, PROCESS_CONTENTS, SET_REASONS, UNDECIDED, is_verdict

VERDICT_WORDS = {"ok": OK, "undecided": UNDECIDED}
A_REASON = f"a reason from {SET_REASONS[0]} to {SET_REASONS[-1]}"
NAME_LINE = re.compile(r"\s*paper\s*:([^#]*)")
DECLARES = "<"


class NameLine(NamedTuple):
    """A line that names the paper after it; any text may be a name."""

    name: str
    line: int

    @property
    def last_line(self):
        return self.line


class LeafList(NamedTuple):
    word: Token
    leaves: List[Token]
    # What stands after the last leaf.
    end: Token


class NameNumber(NamedTuple):
    leaves: List[Token]
    number: int


class ElementType(NamedTuple):
    leaves: List[Token]
    number: int


class ProcessContents(NamedTuple):
    leaves: List[Token]
    process: int


class Verdicts(NamedTuple):
    derived: List[Token]
    base: List[Token]
    # None leaves the table as it is.
    first: Optional[int]
    second: Optional[int]


Statement = Union[LeafList, NameNumber, ElementType, ProcessContents, Verdicts]


def scanned(lines):
    """The statements and the lines that name a paper. A statement is a line, and
    those after it while it is open or they go on with it."""
    found, before = [], ""
    for number, line in enumerate(lines, 1):
        last, before, above = found[-1] if found else None, line, before
        if isinstance(last, Scanner) and (
                last.goes_on_in(line) or (last.is_open and not begins_paper(line, above))):
            last.go_on(line, number)
            continue
        name = NAME_LINE.match(line)
        statement = NameLine(name.group(1).strip(), number) if name else Scanner(line, number)
        if name or not statement.is_blank:
            found.append(statement)
    return found


def begins_paper(line, above):
    """Whether a line begins a paper even where a bracket before it is open, so
    that one that was forgotten does not take the papers after it along: it names
    one, or stands after a blank line and has a | in no bracket of its own."""
    if NAME_LINE.match(line):
        return True
    opened = 0
    for sign in line.split(COMMENT, 1)[0]:
        opened += (sign == OPENING) - (sign == CLOSING)
        if opened < 0 or (sign == "|" and opened == 0):
            return sign == "|" and not above.strip() and ":" not in line
    return False


def declares_rows(scanner):
    """Whether a statement declares rows of a table of types: it has the sign, and
    none of trees or verdicts."""
    return scanner.has(DECLARES) and not (scanner.has("|") or scanner.has(OPENING))


def looks_like_trees(scanner):
    """Whether a statement has no sign of those after the trees."""
    return not scanner.has(":") and not declares_rows(scanner)


def read_statement(scanner, table) -> Statement:
    """A statement that declares no rows; its types are those of the table."""
    start = scanner.token
    if scanner.skip("leaves"):
        statement = leaf_list(scanner, start)
    else:
        statement = about_leaves(scanner, table)
    scanner.expect_end()
    return statement


def leaf_list(scanner, word):
    scanner.expect(":")
    leaves = read_leaves(scanner)
    return LeafList(word, leaves, scanner.token)


def about_leaves(scanner, table):
    leaves = read_leaves(scanner)
    if scanner.skip("|"):
        base = read_leaves(scanner)
        scanner.expect(":")
        return Verdicts(leaves, base, *verdicts(scanner))
    scanner.expect(":")
    if scanner.skip("name"):
        return NameNumber(leaves, scanner.number(MOST_NAME))
    if scanner.skip("type"):
        return ElementType(leaves, type_number(scanner, table))
    for process, word in enumerate(PROCESS_CONTENTS):
        if scanner.skip(word):
            return ProcessContents(leaves, process)
    return scanner.fail(hint=type_first(scanner.token, table))


def read_leaves(scanner):
    leaves = []
    while True:
        if leaf_kind(scanner.token.text) is None:
            scanner.fail(A_LEAF)
        leaves.append(scanner.take())
        if not scanner.skip(","):
            return leaves


def type_number(scanner, table):
    """A type's number in the table, which its name may stand for."""
    word = scanner.token.text
    if as_number(word) is not None:
        return scanner.number(table.most)
    if word not in table.numbers:
        what = "a row of the paper's table of types" if table.declared else "a built-in type"
        wanted = f"{what}, by its name or by its number from 0 to {table.most}"
        raise PaperError(scanner.token, wanted, hint=hint_for_type(scanner.token, table))
    scanner.take()
    return table.numbers[word]


def verdicts(scanner):
    """The first and the second table's verdict."""
    if scanner.skip("first"):
        first = verdict(scanner)
        if not scanner.skip(","):
            return first, None
        scanner.expect("second")
        return first, verdict(scanner)
    if scanner.skip("second"):
        return None, verdict(scanner)
    both = verdict(scanner)
    return both, both


def verdict(scanner):
    for word, number in VERDICT_WORDS.items():
        if scanner.skip(word):
            return number
    number = as_number(scanner.token.text)
    if number is None or not is_verdict(number):
        scanner.fail(A_REASON)
    scanner.take()
    return number
