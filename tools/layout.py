"""The bytes of an exam sheet (document 01, 'The exam sheet', with the records of
document 02 §4) and of a chain (document 02 §1). The layout of sheet, leaf,
record and chain stands here only. Numbers are little-endian."""

import re
import struct
from typing import NamedTuple

from sheet import Leaf

CONTENTS = struct.Struct("<BBHHH")
LEAF = struct.Struct("<BBH")
RECORD = struct.Struct("<BBHB3sII")
# A chain's number of levels, and the record count of a level.
CHAIN = struct.Struct("<B")
LEVEL = struct.Struct("<H")
# The length of a sheet among many, the number of an item before its tree, and how
# many type numbers, or rows of a table of types, stand before a sheet, as
# `marker --many`, `item`, `fill` and `fill_by` read them.
LENGTH = struct.Struct("<H")
ITEM = struct.Struct("<H")
TYPES = struct.Struct("<H")
# The greatest number in two bytes.
MOST_COUNT = 65535


class Contents(NamedTuple):
    leaves: int
    zero: int
    derived: int
    base: int
    total: int


class Record(NamedTuple):
    kind: int
    leaf: int
    count: int
    # 1 is unbounded.
    mark: int
    # Bytes that have no meaning and must be 0.
    zeros: bytes
    minimum: int
    maximum: int


def starts(layout, fields):
    """Where each field starts, in the fields' own form."""
    codes = re.findall("[0-9]*[A-Za-z]", layout.format)
    return fields(*(struct.calcsize("<" + "".join(codes[:k])) for k in range(len(codes))))


CONTENTS_AT = starts(CONTENTS, Contents)
LEAF_AT = starts(LEAF, Leaf)
RECORD_AT = starts(RECORD, Record)
# What an accepted record holds in its zero bytes.
ZEROS = bytes(RECORD_AT.minimum - RECORD_AT.zeros)


class Places(NamedTuple):
    """Where each body starts, and where the last one ends."""

    leaves: int
    first: int
    second: int
    derived: int
    base: int
    end: int


def places(contents):
    leaves = CONTENTS.size
    first = leaves + LEAF.size * contents.leaves
    second = first + contents.leaves ** 2
    derived = second + contents.leaves ** 2
    base = derived + RECORD.size * contents.derived
    end = base + RECORD.size * contents.base
    return Places(leaves, first, second, derived, base, end)


def contents_of(data):
    """The contents of at least CONTENTS.size bytes."""
    return Contents(*CONTENTS.unpack_from(data))


def leaves_of(body):
    return [Leaf(*fields) for fields in LEAF.iter_unpack(body)]


def records_of(body):
    return [Record(*fields) for fields in RECORD.iter_unpack(body)]


def rows_of(body, count):
    """A table's rows of so many verdicts each."""
    return [list(body[at:at + count]) for at in range(0, len(body), count)]


def encode(sheet):
    """The bytes of a sheet."""
    derived = encode_tree(sheet.derived)
    base = encode_tree(sheet.base)
    counts = Contents(
        leaves=len(sheet.leaves), zero=0, derived=len(derived) // RECORD.size,
        base=len(base) // RECORD.size, total=0,
    )
    contents = counts._replace(total=places(counts).end)
    leaves = b"".join(LEAF.pack(*leaf) for leaf in sheet.leaves)
    tables = b"".join(bytes(row) for row in sheet.first + sheet.second)
    return CONTENTS.pack(*contents) + leaves + tables + derived + base


def encode_tree(tree):
    """A tree's records: a group precedes its items."""
    unbounded = tree.maximum is None
    maximum = 0 if unbounded else tree.maximum
    record = Record(
        kind=tree.kind, leaf=tree.leaf, count=len(tree.items), mark=unbounded, zeros=ZEROS,
        minimum=tree.minimum, maximum=maximum,
    )
    return RECORD.pack(*record) + b"".join(encode_tree(item) for item in tree.items)


def encode_chain(levels):
    """The bytes of a chain: an absent level, None, has the count 0 and no record."""
    trees = [b"" if tree is None else encode_tree(tree) for tree in levels]
    counts = b"".join(LEVEL.pack(len(tree) // RECORD.size) for tree in trees)
    return CHAIN.pack(len(levels)) + counts + b"".join(trees)


def encode_many(sheets):
    """The bytes of many sheets: each after its length."""
    return b"".join(LENGTH.pack(len(sheet)) + sheet for sheet in sheets)


def encode_item(k, tree):
    """What `item` reads: the item's number, and the tree."""
    return ITEM.pack(k) + encode_tree(tree)


def encode_filling(types, sheet):
    """What `fill` reads: the number of type numbers, these, and a sheet's bytes."""
    return TYPES.pack(len(types)) + bytes(types) + sheet


def encode_filling_by(parents, types, sheet):
    """What `fill_by` reads: the number of rows of a table of types, these, and what
    `fill` reads."""
    return TYPES.pack(len(parents)) + bytes(parents) + encode_filling(types, sheet)
