"""The lines of a paper that declare its own table of types (document 02 §7):

    title < anySimpleType     row 2, whose parent is row 1
    GM, IM < title            rows 3 and 4, whose parent is row 2

Each name before < becomes the next row. Rows 0 and 1 are `anyType` and
`anySimpleType`, which no line declares. A fault says of which row it is one."""

import re
from contextlib import contextmanager
from typing import NamedTuple

from faults import PaperError, Token
from hints import END, ROW_LINE, hint_for_name
from scanner import WORD
from statements import DECLARES
from typenames import BUILTIN, GIVEN, MOST_TYPES, TypeTable

NAME = re.compile(WORD)
A_NAME = "a type's name (letters, digits, _, - and ., a letter first)"
A_PARENT = "anyType, anySimpleType or an earlier row as its parent"
GIVEN_NAMES = [name for name, _ in GIVEN]
RESERVED = " and ".join(GIVEN_NAMES)


class Row(NamedTuple):
    number: int
    name: Token
    parent: Token


def table_of(scanners):
    """The table that these lines declare; the built-in list where there are none."""
    rows = []
    for scanner in scanners:
        rows += read_line(scanner, len(GIVEN) + len(rows))
    return checked_table(rows) if rows else BUILTIN


def read_line(scanner, number):
    """The rows of a line, the first of which has this number."""
    names = []
    while not names or scanner.skip(","):
        with fault_of(number + len(names)):
            names.append(read_name(scanner))
    with fault_of(number + len(names) - 1, names[-1]):
        if not scanner.skip(DECLARES):
            scanner.fail(hint=ROW_LINE)
    with fault_of(number, names[0]):
        parent = read_name(scanner)
        if scanner.token.text:
            scanner.fail(END, hint=ROW_LINE)
    return [Row(row, name, parent) for row, name in enumerate(names, number)]


def read_name(scanner):
    if not NAME.fullmatch(scanner.token.text):
        scanner.fail(A_NAME, hint=ROW_LINE)
    return scanner.take()


@contextmanager
def fault_of(number, name=None):
    """Says of a fault that it is this row's."""
    try:
        yield
    except PaperError as error:
        error.said_of(f"row {number} ({name.cut})" if name else f"row {number}")
        raise


def checked_table(rows):
    """The table of these rows, each checked against those before it."""
    first = {row.name.text: row for row in reversed(rows)}
    numbers = {name: number for number, name in enumerate(GIVEN_NAMES)}
    given = list(GIVEN)
    for row in rows:
        with fault_of(row.number, row.name):
            check_name(row, first)
            check_parent(row, numbers, first)
        given.append((row.name.text, numbers[row.parent.text]))
        numbers[row.name.text] = row.number
    return TypeTable(given, declared=True)


def check_name(row, first):
    """``first`` has the first row of each name."""
    name, before = row.name, first[row.name.text]
    if row.number == MOST_TYPES:
        raise PaperError(name, f"at most {MOST_TYPES} rows, {RESERVED} among them",
                         f"{name.shown()}, one more")
    if name.text in GIVEN_NAMES:
        raise PaperError(name, f"a name other than {RESERVED}, which every table has")
    if before is not row:
        raise PaperError(name, "each name once", f"{name.shown()} again, which is row "
                         f"{before.number} in line {before.name.line}")


def check_parent(row, numbers, first):
    """``numbers`` has those of the rows before it, by name."""
    parent, shown = row.parent.text, row.parent.shown()
    if parent in numbers:
        return
    if parent == row.name.text:
        found = f"{shown}, its own name"
        hint = f"a row that is below no other is declared as {parent} < anySimpleType"
    elif parent in first:
        found = f"{shown}, which comes later, as row {first[parent].number}"
        hint = f"the line that declares {parent} must stand above this one"
    else:
        found, hint = f"{shown}, which is no row", hint_for_name(parent, [*numbers, *first])
    raise PaperError(row.parent, A_PARENT, found, hint)
