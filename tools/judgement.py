"""Judgements: what the rules of the mark (docs/KEY.md, M1 to M15) say of two
particles, and what is below it. This is a reading of the rules apart from the
proved one: it gives reasons in words, and the mark that counts is the marking
program's."""

from typing import List, NamedTuple, Optional, Tuple

import filling
from marker import Mark
from notation import cut_text
from sheet import OK, UNDECIDED, Kind, Sheet, Tree
from typenames import BUILTIN, TypeTable

PASSES = Mark("passes", None)
OPEN = Mark("undecided", None)

KIND_WORDS = {
    Kind.ELEMENT: "element", Kind.WILDCARD: "wildcard", Kind.SEQUENCE: "sequence",
    Kind.CHOICE: "choice", Kind.ALL: "all-group",
}
# A particle's text is cut after so many characters.
LONGEST = 60


def fails(reason):
    return Mark("fails", reason)


class Outcome(NamedTuple):
    """What a rule comes to."""

    mark: Mark
    # What of the particles decides it; in a table's case a whole sentence.
    detail: str = ""
    steps: List["Step"] = []
    # The step whose mark this one is; None where the rule itself decides.
    decides: Optional[int] = None
    # The rule by which that step makes it undecided.
    carried: str = ""
    # The rules by which types give the verdict.
    by: Tuple[str, ...] = ()


class Node(NamedTuple):
    """A judgement on two particles."""

    derived: Tree
    base: Tree
    # The rule's number in docs/KEY.md.
    rule: str
    outcome: Outcome
    # What stands between the two.
    between: str = " | "

    @property
    def mark(self):
        return self.outcome.mark

    @property
    def decisive(self):
        """The step whose mark this one's is; None where there is none below."""
        at = self.outcome.decides
        return None if at is None else self.outcome.steps[at]


class Step(NamedTuple):
    """Something that a rule did."""

    # None where the rule only notes something.
    node: Optional[Node]
    # How the two particles came to be compared, where that has to be said.
    label: str = ""
    # What the rule makes of it.
    after: str = ""
    # Which particle was put in a group for it; empty where none was.
    wrapped: str = ""
    # Whether the base item was skipped after a failure.
    skips: bool = False


class Subject(NamedTuple):
    """A sheet with the words for it: its leaves' names, and which verdicts the
    paper sets, as (table, derived leaf, base leaf)."""

    sheet: Sheet
    names: List[str]
    is_set: frozenset
    # Whether the base was a chain.
    is_joined: bool = False
    # A type number for each leaf, in which table, and which verdicts of the second
    # table follow from two of these, as (derived leaf, base leaf).
    types: List[int] = []
    table: TypeTable = BUILTIN
    filled: frozenset = frozenset()

    def text(self, tree, longest=LONGEST):
        return cut_text(tree, self.names, longest)

    def verdict(self, which, derived, base):
        """A verdict of a table as an outcome."""
        table = self.sheet.first if which == "first" else self.sheet.second
        number = table[derived][base]
        word = {OK: "ok", UNDECIDED: "undecided"}.get(number, number)
        said = f"{self.names[derived]} against {self.names[base]} in the {which} table is {word}"
        because = self.because(derived, base) if which == "second" else ""
        if because:
            return Outcome(mark_of(number), f"{said}: {because}", by=self.table.rules)
        default = "" if (which, derived, base) in self.is_set else ", by default"
        return Outcome(mark_of(number), f"{said}{default}")

    def because(self, derived, base):
        """Why the types give their verdict in the second table; empty where they
        give none."""
        if (derived, base) not in self.filled:
            return ""
        return filling.in_words(self.types[derived], self.types[base], self.table)


def mark_of(verdict):
    if verdict == OK:
        return PASSES
    return OPEN if verdict == UNDECIDED else fails(verdict)


def pair_text(minimum, maximum):
    return f"({minimum},{'*' if maximum is None else maximum})"


def is_within(minimum, maximum, base):
    """Whether a range is within the base particle's pair (P3)."""
    if minimum < base.minimum:
        return False
    return base.maximum is None or (maximum is not None and maximum <= base.maximum)


def range_outcome(reason, minimum, maximum, base):
    """Passes where a range is within the base particle's pair."""
    if is_within(minimum, maximum, base):
        return Outcome(PASSES)
    pair = pair_text(base.minimum, base.maximum)
    return Outcome(fails(reason), f"{pair_text(minimum, maximum)} isn't within {pair}")


def path(node):
    """The steps from a judgement down to the one that decides its mark."""
    found = [Step(node)]
    while found[-1].node.decisive:
        found.append(found[-1].node.decisive)
    return found
