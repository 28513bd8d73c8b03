"""What an exam sheet says (document 01, 'The exam sheet'): leaves, two tables
of verdicts, a derived and a base tree. Its bytes are the matter of layout.py,
its text form that of notation.py, draft.py and printed.py."""

import enum
from typing import List, NamedTuple, Optional

MOST_LEAVES = 64
MOST_RECORDS = 1000
MOST_DEPTH = 12
MOST_LEVELS = 17
MOST_OCCURS = 4294967295
MOST_NAME = 65535

OK = 0
UNDECIDED = 1
# The reasons that a paper sets.
SET_REASONS = range(140, 153)
# What a table says of two leaves that are not the same, unless told otherwise.
USUAL_REASON = 140


class Kind(enum.IntEnum):
    """A record's kind; the first two are a leaf's kind too."""

    ELEMENT = 0
    WILDCARD = 1
    SEQUENCE = 2
    CHOICE = 3
    ALL = 4

    @property
    def is_leaf(self):
        return self in (Kind.ELEMENT, Kind.WILDCARD)


# In the order of their numbers, from 0 skip.
PROCESS_CONTENTS = ("skip", "lax", "strict")


class Leaf(NamedTuple):
    kind: Kind
    # A place in PROCESS_CONTENTS; 0 for an element.
    process: int
    # The local name number; 0 for a wildcard.
    name: int


class Tree(NamedTuple):
    kind: Kind
    # A place in the sheet's leaves; 0 for a group.
    leaf: int
    minimum: int
    # None is unbounded.
    maximum: Optional[int]
    items: List["Tree"]

    @property
    def records(self):
        """How many groups and leaves it has."""
        return 1 + sum(item.records for item in self.items)

    @property
    def depth(self):
        return 1 + max((item.depth for item in self.items), default=0)


class Sheet(NamedTuple):
    leaves: List[Leaf]
    # A table is a list of rows: row derived, column base.
    first: List[List[int]]
    second: List[List[int]]
    derived: Tree
    base: Tree


def is_verdict(number):
    return number in (OK, UNDECIDED) or number in SET_REASONS


def usual_leaf(kind, place):
    """What a paper says of the leaf at a place unless told otherwise: an
    element has its place as its name number, a wildcard has skip."""
    return Leaf(kind, 0, place if kind == Kind.ELEMENT else 0)


def usual_verdict(derived, base):
    """What both tables say of two leaves unless told otherwise."""
    return OK if derived == base else USUAL_REASON


def usual_table(count):
    return [[usual_verdict(row, column) for column in range(count)] for row in range(count)]
