"""Reads the bytes of a sheet, or finds document 01's first refusal and the
place that shows it. The order is 1, 3, 4, base tree, derived tree. Reads the bytes
of a table of types likewise."""

import layout
from notation import leaf_names, unfinished_text
from sheet import (
    MOST_DEPTH, MOST_LEAVES, MOST_RECORDS, PROCESS_CONTENTS, Kind, Sheet, Tree, is_verdict,
)
from typenames import GIVEN, MOST_TYPES

CONTENTS = 1
LEAF = 3
VERDICT = 4
# The lowest of a tree's five numbers; the faults below are added to it.
BASE = 5
DERIVED = 10
FIELDS, PAIR, ALL_GROUP, DEPTH, COUNTS = range(5)
TYPE_TABLE = 18

# So many characters of a tree are shown before the place of its fault.
MOST_SHOWN = 60


class Refused(Exception):
    def __init__(self, number, place):
        super().__init__(place)
        self.number = number
        self.place = place


def read(data):
    """The sheet of bytes that are accepted; raises Refused for others."""
    contents = checked_contents(data)
    places = layout.places(contents)
    leaves = layout.leaves_of(data[places.leaves:places.first])
    for number, leaf in enumerate(leaves):
        check_leaf(number, leaf)
    first = layout.rows_of(data[places.first:places.second], contents.leaves)
    second = layout.rows_of(data[places.second:places.derived], contents.leaves)
    check_table("first", first)
    check_table("second", second)
    base = TreeCheck(data, places.base, places.end, leaves, BASE).whole()
    derived = TreeCheck(data, places.derived, places.base, leaves, DERIVED).whole()
    return Sheet(leaves, first, second, derived, base)


def read_tree(data, leaves):
    """The tree of bytes that are accepted alone, over these leaves."""
    records, broken = divmod(len(data), layout.RECORD.size)
    if broken:
        raise Refused(DERIVED + COUNTS, f"{len(data)} bytes, and the last record is broken")
    if records > MOST_RECORDS:
        raise Refused(DERIVED + COUNTS, f"{records} records, and a tree has at most {MOST_RECORDS}")
    return TreeCheck(data, 0, len(data), leaves, DERIVED).whole()


def read_type_table(data):
    """The parent's row of each row of a table of types in bytes that are accepted."""
    def check(good, place):
        if not good:
            raise Refused(TYPE_TABLE, place)

    check(data, "no rows")
    check(len(data) <= MOST_TYPES, f"{len(data)} rows, at most {MOST_TYPES}")
    for row, parent in enumerate(data):
        if row < len(GIVEN):
            must, good = f"row {GIVEN[row][1]}", parent == GIVEN[row][1]
        else:
            must, good = "an earlier row", parent < row
        check(good, f"row {row}: its parent must be {must}, found {parent}")
    return list(data)


def checked_contents(data):
    def check(good, place):
        if not good:
            raise Refused(CONTENTS, place)

    size = layout.CONTENTS.size
    check(len(data) >= size, f"{len(data)} bytes, and the contents alone have {size}")
    contents = layout.contents_of(data)
    counts = (
        ("leaf count", contents.leaves, MOST_LEAVES),
        ("derived record count", contents.derived, MOST_RECORDS),
        ("base record count", contents.base, MOST_RECORDS),
    )
    for field, count, most in counts:
        check(1 <= count <= most, f"the {field} is {count}, not 1 to {most}")
    check(contents.zero == 0,
          f"byte {layout.CONTENTS_AT.zero} (from 0) of the contents is {contents.zero}, not 0")
    total = layout.places(contents).end
    check(
        contents.total == total, f"the total field is {contents.total}, the counts make {total}"
    )
    check(len(data) == total, f"there are {len(data)} bytes, the counts make {total}")
    return contents


def check_leaf(number, leaf):
    def check(good, place):
        if not good:
            raise Refused(LEAF, f"leaf {number} (from 0): {place}")

    check(leaf.kind in (Kind.ELEMENT, Kind.WILDCARD), f"kind {leaf.kind}, not 0 or 1")
    if leaf.kind == Kind.ELEMENT:
        check(leaf.process == 0, f"an element with process contents {leaf.process}")
        return
    most = len(PROCESS_CONTENTS) - 1
    check(leaf.process <= most, f"process contents {leaf.process}, not 0 to {most}")
    check(leaf.name == 0, f"a wildcard with local name number {leaf.name}")


def check_table(which, rows):
    for row, verdicts in enumerate(rows):
        for column, verdict in enumerate(verdicts):
            if not is_verdict(verdict):
                place = f"row {row}, column {column} (from 0) of the {which} table: {verdict}"
                raise Refused(VERDICT, place)


class TreeCheck:
    """Reads one tree's records in order and stops at the first fault."""

    def __init__(self, data, start, end, leaves, lowest):
        self.records = layout.records_of(data[start:end])
        self.start = start
        self.leaves = leaves
        self.lowest = lowest
        # The records before this one are read and in order.
        self.at = 0

    def whole(self):
        tree = self.item(1, False)
        if self.at < len(self.records):
            self.refuse(COUNTS, "a record more than the item counts need")
        return tree

    def item(self, depth, in_all):
        if self.at == len(self.records):
            self.refuse(COUNTS, "the item counts need more records")
        record = self.records[self.at]
        self.check(record, depth, in_all)
        self.at += 1
        items = [self.item(depth + 1, record.kind == Kind.ALL) for _ in range(record.count)]
        return self.head(record)._replace(items=items)

    def head(self, record):
        maximum = None if record.mark else record.maximum
        return Tree(Kind(record.kind), record.leaf, record.minimum, maximum, [])

    def check(self, record, depth, in_all):
        fault = self.fields_fault(record)
        if fault:
            self.refuse(FIELDS, fault)
        if record.mark == 0 and record.minimum > record.maximum:
            self.refuse(PAIR, f"minimum {record.minimum}, maximum {record.maximum}")
        if record.kind == Kind.ALL and record.maximum != 1:
            maximum = "unbounded" if record.mark else record.maximum
            self.refuse(ALL_GROUP, f"an all-group with maximum {maximum}")
        if in_all and record.kind != Kind.ELEMENT:
            kind = Kind(record.kind).name.lower()
            self.refuse(ALL_GROUP, f"an item of an all-group of kind {record.kind}, {kind}")
        if depth > MOST_DEPTH:
            self.refuse(DEPTH, f"depth {depth}")

    def fields_fault(self, record):
        """What is wrong with the fields; None where they are in order."""
        if record.kind > Kind.ALL:
            return f"kind {record.kind}, not 0 to {int(Kind.ALL)}"
        if Kind(record.kind).is_leaf:
            if record.leaf >= len(self.leaves):
                return f"leaf number {record.leaf}, and there are {len(self.leaves)} leaves"
            if record.kind != self.leaves[record.leaf].kind:
                kind = self.leaves[record.leaf].kind
                return f"kind {record.kind}, and leaf {record.leaf} is of kind {kind}"
            if record.count:
                return f"a leaf with item count {record.count}"
        elif record.leaf:
            return f"a group with leaf number {record.leaf}"
        if record.mark > 1:
            return f"unbounded mark {record.mark}, not 0 or 1"
        if record.mark and record.maximum:
            return f"maximum {record.maximum} beside the unbounded mark"
        for at, value in enumerate(record.zeros, layout.RECORD_AT.zeros):
            if value:
                return f"byte {at} (from 0) of the record is {value}, not 0"
        return None

    def refuse(self, fault, what):
        byte = self.start + layout.RECORD.size * self.at
        tree = "base" if self.lowest == BASE else "derived"
        place = f"record {self.at} (from 0) of the {tree} tree, at byte {byte}"
        heads = [(self.head(record), record.count) for record in self.records[:self.at]]
        if heads:
            before = unfinished_text(heads, leaf_names(self.leaves))
            cut = "..." if len(before) > MOST_SHOWN else ""
            place += f", after {cut}{before[-MOST_SHOWN:]}"
        raise Refused(self.lowest + fault, f"{place}: {what}")
