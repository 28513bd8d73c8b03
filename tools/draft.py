"""The sheet that a paper's text describes: document 01's defaults (equal
letters ok, others 140), changed by the statements, and by types filled."""

from typing import FrozenSet, List, NamedTuple, Optional, Tuple

import chain
import filling
import typerows
from faults import PaperError, Token
from hints import ROW_LINE, SEVERAL, TREES_FIRST, VERDICT, VERDICT_WORDS, type_missing
from judgement import Subject
from notation import LeafNames, TreeReader, leaf_kind
from scanner import OPENING, Scanner
from sheet import UNDECIDED, Kind, Leaf, Sheet, Tree, usual_leaf, usual_table
from statements import (
    DECLARES, ElementType, LeafList, NameNumber, ProcessContents, Verdicts, declares_rows,
    looks_like_trees, read_statement, scanned,
)
from typenames import ANY_TYPE, TypeTable

# The leaf of a paper whose trees have none: a sheet has at least one.
ONLY_LEAF = "a"
TWO_TREES = "two trees, DERIVED | BASE"
TABLES = ("first", "second")


class Paper(NamedTuple):
    """What a text says, before the levels in the base place are joined and types
    decide."""

    # The leaves' letters and numbers, in the order of the leaf numbers.
    names: List[str]
    leaves: List[Leaf]
    first: List[List[int]]
    second: List[List[int]]
    # None where the text has no derived tree.
    derived: Optional[Tree]
    chain: chain.Chain
    # The verdicts that a line sets: the table, the derived and the base leaf.
    is_set: FrozenSet[Tuple[str, int, int]]
    # A type number for each leaf, 0 where none is read; None where no line sets a
    # type.
    types: Optional[List[int]]
    # The table of types that these are numbers of.
    table: TypeTable

    def subject(self, join, fill=filling.fill):
        """What is marked: its base joined so where it is a chain, and its second
        table filled so where there are types."""
        levels = self.chain.levels
        base = levels[0] if len(levels) == 1 else join(self)
        sheet = Sheet(self.leaves, self.first, self.second, self.derived, base)
        subject = Subject(sheet, self.names, self.is_set, len(levels) > 1)
        if self.types is None:
            return subject
        return subject._replace(sheet=fill(sheet, self.types, self.table), types=self.types,
                                table=self.table,
                                filled=frozenset(filling.undecided_elements(sheet)))


def parse(text, join=lambda paper: chain.join(paper.chain.levels), fill=filling.fill):
    """The sheet, joined so where its base is a chain, filled so where it has types;
    raises PaperError at the first fault."""
    return read(text).subject(join, fill).sheet


def read(text, alone=False):
    """What the text says; ``alone`` lets it leave out the derived tree. Raises
    PaperError at the first fault."""
    lines = text.split("\n")
    scanners = [found for found in scanned(lines) if isinstance(found, Scanner)]
    wanted = f"a chain, or {TWO_TREES}" if alone else TWO_TREES
    if not scanners:
        raise PaperError(Token("", len(lines), 1), wanted, "the end of the paper")
    if declares_rows(scanners[0]):
        raise PaperError(scanners[0].token, wanted, hint=TREES_FIRST)
    names = LeafNames()
    derived, base = read_trees(scanners[0], names, alone)
    table, statements = read_statements(scanners[1:])
    draft = Draft(leaf_order(statements, names), table)
    for statement in statements:
        draft.apply(statement)
    types = draft.left_to_types(statements)
    order = [draft.numbers[name] for name in names.numbers]
    base = base._replace(levels=[renumbered(tree, order) for tree in base.levels])
    is_set = frozenset(key for key in draft.set_by if key[0] in TABLES)
    return Paper(list(draft.numbers), draft.leaves, draft.first, draft.second,
                 renumbered(derived, order), base, is_set, types, table)


def read_statements(scanners):
    """The table of types, and the statements after the trees. The table's rows are
    read before all else, so that their lines may stand anywhere."""
    rows = [scanner for scanner in scanners if declares_rows(scanner)]
    table = typerows.table_of(rows)
    return table, [statement_of(scanner, table) for scanner in scanners if scanner not in rows]


def statement_of(scanner, table):
    """A statement after the trees that declares no rows. What looks like rows or
    trees is none, or a verdict without its ':'."""
    try:
        return read_statement(scanner, table)
    except PaperError as error:
        if looks_like_trees(scanner):
            a_verdict = any(map(scanner.has, VERDICT_WORDS))
            error.hint = VERDICT if a_verdict else SEVERAL
        if scanner.has(DECLARES) and not scanner.has(OPENING):
            error.hint = ROW_LINE
        raise


def read_trees(scanner, names, alone):
    """The derived tree, None where it is left out, and the chain in the base
    place."""
    derived = None
    if not alone or scanner.has("|"):
        derived = TreeReader(scanner, names).tree()
        scanner.expect("|")
    base = chain.read_chain(scanner, names)
    scanner.expect_end()
    if derived and base.is_empty:
        raise PaperError(base.first, "a base tree", "no content: every level is absent")
    return derived, base


def renumbered(tree, order):
    """The tree, if there is one, with the leaf k as ``order`` has it at place k."""
    if tree is None:
        return None
    leaf = order[tree.leaf] if tree.kind.is_leaf else 0
    return tree._replace(leaf=leaf, items=[renumbered(item, order) for item in tree.items])


def leaf_order(statements, names):
    """The leaves in the order of their numbers: as listed, or as they turn up
    in the trees."""
    listed = [statement for statement in statements if isinstance(statement, LeafList)]
    if not listed:
        return list(names.numbers) or [ONLY_LEAF]
    if len(listed) > 1:
        raise second_time(listed[1].word, "one list of leaves", listed[0].word.line)
    order = LeafNames()
    for leaf in listed[0].leaves:
        if leaf.text in order.numbers:
            raise PaperError(leaf, "each leaf once", f"'{leaf.text}' again")
        order.number(leaf)
    for name in names.numbers:
        if name not in order.numbers:
            raise PaperError(listed[0].end, f"'{name}' too, which the trees have")
    return list(order.numbers)


def second_time(token, expected, line):
    return PaperError(token, expected, f"another; line {line} has the first")


class Draft:
    """Leaves and tables, and which line has set what."""

    def __init__(self, order, table):
        self.table = table
        self.numbers = {name: number for number, name in enumerate(order)}
        self.leaves = [usual_leaf(leaf_kind(name), number) for number, name in enumerate(order)]
        self.first = usual_table(len(order))
        self.second = usual_table(len(order))
        # By the numbers of the elements that have one.
        self.types = {}
        self.set_by = {}

    def apply(self, statement):
        if isinstance(statement, LeafList):
            return
        if isinstance(statement, NameNumber):
            for token in statement.leaves:
                number = self.leaf(token, Kind.ELEMENT, "name number")
                self.leaves[number] = self.leaves[number]._replace(name=statement.number)
        elif isinstance(statement, ElementType):
            for token in statement.leaves:
                self.types[self.leaf(token, Kind.ELEMENT, "type")] = statement.number
        elif isinstance(statement, ProcessContents):
            for token in statement.leaves:
                number = self.leaf(token, Kind.WILDCARD, "setting of process contents")
                self.leaves[number] = self.leaves[number]._replace(process=statement.process)
        else:
            self.set_verdicts(statement)

    def leaf(self, token, kind, what):
        """The number of a leaf of this kind, of which something is set."""
        number = self.number(token)
        if self.leaves[number].kind != kind:
            wanted = "an element" if kind == Kind.ELEMENT else "a wildcard"
            raise PaperError(token, f"{wanted} for a {what}")
        self.claim(token, (what, number), f"one {what} for '{token.text}'")
        return number

    def number(self, token):
        if token.text not in self.numbers:
            raise PaperError(token, "a leaf of the trees or of a line 'leaves : ...'")
        return self.numbers[token.text]

    def set_verdicts(self, statement):
        tables = [(self.first, "first", statement.first), (self.second, "second", statement.second)]
        for derived in statement.derived:
            for base in statement.base:
                row, column = self.number(derived), self.number(base)
                for table, which, verdict in tables:
                    if verdict is not None:
                        pair = f"'{derived.text} | {base.text}'"
                        once = f"one verdict for {pair} in the {which} table"
                        self.claim(derived, (which, row, column), once)
                        table[row][column] = verdict

    def left_to_types(self, statements):
        """A type number for each leaf, None where no line sets one. Two elements
        that have types are undecided where no line sets their verdict in the second
        table; and whichever are undecided there must have types."""
        if not self.types:
            return None
        for row in self.types:
            for column in self.types:
                if ("second", row, column) not in self.set_by:
                    self.second[row][column] = UNDECIDED
        for statement in statements:
            if isinstance(statement, Verdicts) and statement.second == UNDECIDED:
                self.check_typed(statement)
        return [self.types.get(number, ANY_TYPE) for number in range(len(self.leaves))]

    def check_typed(self, statement):
        """Faults an element without a type in a pair of elements."""
        derived, base = (
            [token for token in tokens if leaf_kind(token.text) == Kind.ELEMENT]
            for tokens in (statement.derived, statement.base))
        for token in derived + base if derived and base else ():
            if self.number(token) not in self.types:
                raise PaperError(
                    token, f"a type for '{token.text}' too: types decide every undecided pair of "
                    "elements in the second table", "none", type_missing(token.text, self.table))

    def claim(self, token, key, once):
        """Notes that the token's line sets something, which may be set once."""
        if key in self.set_by:
            raise second_time(token, once, self.set_by[key])
        self.set_by[key] = token.line
