"""A chain of trees that extend one another (document 02 §1): read from a line,
and joined. Its bytes are the matter of layout.py."""

from typing import List, NamedTuple, Optional

from faults import PaperError, Token
from notation import TreeReader
from sheet import MOST_DEPTH, MOST_LEVELS, MOST_RECORDS, Kind, Tree

BETWEEN = "+"
ABSENT = "-"


class Chain(NamedTuple):
    # Root type first; None is absent.
    levels: List[Optional[Tree]]
    # The first token of the first level, and the last of the last level.
    first: Token
    last: Token

    @property
    def is_empty(self):
        return all(tree is None for tree in self.levels)


def read_chain(scanner, names):
    """The chain whose joined tree is within a tree's limits."""
    starts, levels = [], []
    while not levels or scanner.skip(BETWEEN):
        starts.append(scanner.token)
        if len(starts) > MOST_LEVELS:
            raise PaperError(starts[-1], f"at most {MOST_LEVELS} levels", "one more")
        levels.append(None if scanner.skip(ABSENT) else TreeReader(scanner, names).tree())
    check_limits(starts, levels)
    return Chain(levels, starts[0], scanner.before)


def check_limits(starts, levels):
    """Faults the first level with which the joined tree is over a limit."""
    whole = None
    for start, tree in zip(starts, levels):
        whole = extended(whole, tree)
        if whole and whole.records > MOST_RECORDS:
            most = f"a joined tree of at most {MOST_RECORDS} groups and leaves"
            raise PaperError(start, most, f"{whole.records} with this level")
        if whole and whole.depth > MOST_DEPTH:
            most = f"a joined tree of a depth of at most {MOST_DEPTH}"
            raise PaperError(start, most, f"depth {whole.depth} with this level")


def join(levels):
    """The joined tree; None where every level is absent."""
    whole = None
    for tree in levels:
        whole = extended(whole, tree)
    return whole


def extended(inherited, own):
    """Both present make a (1,1) sequence of the two."""
    if inherited is None or own is None:
        return own if inherited is None else inherited
    return Tree(Kind.SEQUENCE, 0, 1, 1, [inherited, own])
