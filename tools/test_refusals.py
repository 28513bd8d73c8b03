"""Refused sheets and trees: the number, and the place that shows it."""

import random
import unittest

import layout
import marker
import refusals
from draft import parse
from proved import DESCRIBE
from sheet import MOST_DEPTH, MOST_LEAVES, MOST_RECORDS, Kind, Leaf, Tree
from support import largest_sheet, needs_describer, needs_marker, random_sheet, row

# Two leaves, three derived records and one base record.
SHEET = layout.encode(parse("S[a(1,2),w] | w"))
HEAD, LEAF, RECORD, SIZE = (
    layout.CONTENTS_AT, layout.LEAF_AT, layout.RECORD_AT, layout.RECORD.size
)
AT = layout.places(layout.contents_of(SHEET))
WILDCARD, ITEM = AT.leaves + layout.LEAF.size, AT.derived + SIZE


def low_first(number):
    """A number of 16 bits."""
    return list(number.to_bytes(2, "little"))


def changed(data, changes):
    """The bytes with others from each of these places on."""
    data = bytearray(data)
    for at, values in changes.items():
        values = values if isinstance(values, list) else [values]
        data[at:at + len(values)] = values
    return bytes(data)


def group(at, kind, count=0):
    """The changes that make the record there a group of so many items."""
    return {at + RECORD.kind: kind, at + RECORD.leaf: 0, at + RECORD.count: low_first(count)}


# Changed bytes, the refusal, and what its place says.
SPOILED = [
    ({HEAD.leaves: 0}, 1, f"the leaf count is 0, not 1 to {MOST_LEAVES}"),
    ({HEAD.leaves: MOST_LEAVES + 1}, 1,
     f"the leaf count is {MOST_LEAVES + 1}, not 1 to {MOST_LEAVES}"),
    ({HEAD.derived: 0}, 1, f"the derived record count is 0, not 1 to {MOST_RECORDS}"),
    ({HEAD.base: 0}, 1, f"the base record count is 0, not 1 to {MOST_RECORDS}"),
    ({HEAD.derived: low_first(MOST_RECORDS + 1)}, 1,
     f"the derived record count is {MOST_RECORDS + 1}, not 1 to {MOST_RECORDS}"),
    ({HEAD.base: low_first(65535)}, 1, f"the base record count is 65535, not 1 to {MOST_RECORDS}"),
    ({HEAD.base: low_first(257)}, 1,
     f"the total field is {AT.end}, the counts make {AT.end + 256 * SIZE}"),
    ({HEAD.derived: [0, 3]}, 1, f"the counts make {AT.end + 765 * SIZE}"),
    ({HEAD.zero: 7}, 1, f"byte {HEAD.zero} (from 0) of the contents is 7, not 0"),
    ({HEAD.total: low_first(AT.end + 1)}, 1,
     f"the total field is {AT.end + 1}, the counts make {AT.end}"),
    ({HEAD.base: 2, HEAD.total: low_first(AT.end + SIZE)}, 1,
     f"there are {AT.end} bytes, the counts make {AT.end + SIZE}"),
    # The counts exchanged: the total stays, and so does the length.
    ({HEAD.derived: low_first(1), HEAD.base: low_first(3)}, 9,
     f"record 1 (from 0) of the base tree, at byte {ITEM + SIZE}, after a(1,2): "
     "a record more than the item counts need"),
    ({AT.leaves: 2}, 3, "leaf 0 (from 0): kind 2, not 0 or 1"),
    ({AT.leaves + LEAF.process: 1}, 3, "leaf 0 (from 0): an element with process contents 1"),
    ({WILDCARD + LEAF.process: 3}, 3, "leaf 1 (from 0): process contents 3, not 0 to 2"),
    ({WILDCARD + LEAF.name: low_first(256)}, 3,
     "leaf 1 (from 0): a wildcard with local name number 256"),
    ({AT.first + 1: 2}, 4, "row 0, column 1 (from 0) of the first table: 2"),
    ({AT.second + 2: 153}, 4, "row 1, column 0 (from 0) of the second table: 153"),
    ({AT.base: 5}, 5, f"record 0 (from 0) of the base tree, at byte {AT.base}: kind 5, not 0 to 4"),
    ({AT.base + RECORD.leaf: 2}, 5, "leaf number 2, and there are 2 leaves"),
    ({AT.base + RECORD.leaf: 0}, 5, "kind 1, and leaf 0 is of kind 0"),
    ({AT.base + RECORD.count: 1}, 5, "a leaf with item count 1"),
    ({AT.base + RECORD.count: low_first(256)}, 5, "a leaf with item count 256"),
    ({AT.base + RECORD.mark: 2}, 5, "unbounded mark 2, not 0 or 1"),
    ({AT.base + RECORD.mark: 1}, 5, "maximum 1 beside the unbounded mark"),
    ({AT.base + RECORD.minimum: 2}, 6, "minimum 2, maximum 1"),
    ({**group(AT.base, Kind.ALL), AT.base + RECORD.maximum: 2}, 7, "an all-group with maximum 2"),
    (group(AT.base, Kind.SEQUENCE, 1), 9,
     f"record 1 (from 0) of the base tree, at byte {AT.end}, after S[: "
     "the item counts need more records"),
    (group(AT.base, Kind.SEQUENCE, 256), 9, "the item counts need more records"),
    ({AT.derived + RECORD.leaf: 1}, 10, "a group with leaf number 1"),
    ({ITEM + RECORD.minimum: 3}, 11,
     f"record 1 (from 0) of the derived tree, at byte {ITEM}, after S[: minimum 3, maximum 2"),
    ({AT.derived: Kind.ALL, AT.derived + RECORD.mark: 1, AT.derived + RECORD.maximum: 0}, 12,
     "an all-group with maximum unbounded"),
    ({AT.derived: Kind.ALL}, 12, "after A[a(1,2),: an item of an all-group of kind 1, wildcard"),
    ({AT.derived + RECORD.count: 1}, 14,
     f"record 2 (from 0) of the derived tree, at byte {ITEM + SIZE}, after S[a(1,2)]: "
     "a record more than the item counts need"),
    # The count's bytes exchanged.
    ({AT.derived + RECORD.count: low_first(2)[::-1]}, 14,
     f"record 3 (from 0) of the derived tree, at byte {AT.base}, after S[a(1,2),w,: "
     "the item counts need more records"),
]
# Each zero byte of each record: the first derived one, the second, the base one.
SPOILED += [
    ({start + RECORD.zeros + k: value}, number,
     f", at byte {start}{after}: byte {RECORD.zeros + k} (from 0) of the record is {value}, not 0")
    for start, number, after in ((AT.derived, 10, ""), (ITEM, 10, ", after S["), (AT.base, 5, ""))
    for k in range(len(layout.ZEROS)) for value in (1, 255)
]


def refusal(data):
    """The number of the refusal and its place; None where there is none."""
    try:
        refusals.read(data)
    except refusals.Refused as refused:
        return refused.number, refused.place
    return None


def too_deep():
    """By refusal, sheets with a tree that is one too deep, which no paper describes."""
    sheet = parse("a | a")
    tree = sheet.base
    for _ in range(MOST_DEPTH):
        tree = Tree(Kind.SEQUENCE, 0, 1, 1, [tree])
    return {
        8: layout.encode(sheet._replace(base=tree)),
        13: layout.encode(sheet._replace(derived=tree)),
    }


def too_long():
    """Sheets with a tree of a record too many."""
    sheet = parse("a | a")
    return [layout.encode(sheet._replace(base=row(MOST_RECORDS + 1))),
            layout.encode(sheet._replace(derived=row(MOST_RECORDS + 1)))]


def trees_alone():
    """Trees alone, each with its refusal, None where it is accepted, and what
    the place says."""
    one, wide = layout.encode_tree(row(1)), layout.encode_tree(row(257))
    leaf = layout.encode_tree(parse("a | a").base)
    for records in (1, 2, 256, 257, 700, MOST_RECORDS):
        yield layout.encode_tree(row(records)), None, ""
    more = f"{MOST_RECORDS + 1} records, and a tree has at most {MOST_RECORDS}"
    yield layout.encode_tree(row(MOST_RECORDS + 1)), 14, more
    # A count of 256 without its items; with its bytes exchanged it is 1.
    yield changed(one, {RECORD.count: low_first(256)}), 14, "the item counts need more records"
    yield changed(one, {RECORD.count: low_first(1)}) + leaf, None, ""
    yield changed(wide, {RECORD.count: low_first(1)}), 14, "a record more than the item counts need"
    yield wide[:-1], 14, f"{len(wide) - 1} bytes, and the last record is broken"
    yield b"", 14, "the item counts need more records"
    for k in range(len(layout.ZEROS)):
        at = RECORD.zeros + k
        fault = f"byte {at} (from 0) of the record is 1, not 0"
        yield changed(leaf, {at: 1}), 10, fault
        yield changed(wide, {256 * SIZE + at: 1}), 10, fault


class Places(unittest.TestCase):
    def check(self, data, number, place):
        found = refusal(data)
        self.assertIsNotNone(found)
        self.assertEqual(found[0], number)
        self.assertTrue(found[1].endswith(place), found[1])

    def test_one_fault(self):
        self.assertIsNone(refusal(SHEET))
        for changes, number, place in SPOILED:
            with self.subTest(changes=changes):
                self.check(changed(SHEET, changes), number, place)

    def test_length(self):
        alone = f"and the contents alone have {layout.CONTENTS.size}"
        self.check(b"", 1, f"0 bytes, {alone}")
        short = layout.CONTENTS.size - 1
        self.check(SHEET[:short], 1, f"{short} bytes, {alone}")
        self.check(SHEET + b"\n", 1, f"there are {AT.end + 1} bytes, the counts make {AT.end}")

    def test_depth(self):
        for number, data in too_deep().items():
            self.check(data, number, f"depth {MOST_DEPTH + 1}")

    def test_records(self):
        for data in too_long():
            self.check(data, 1, f"record count is {MOST_RECORDS + 1}, not 1 to {MOST_RECORDS}")

    def test_the_largest_sheet(self):
        data = layout.encode(largest_sheet())
        self.assertIsNone(refusal(data))
        self.check(data + b"\0", 1, f"there are {len(data) + 1} bytes, the counts make {len(data)}")

    def test_the_first_refusal_counts(self):
        data = bytearray(SHEET)
        for at, number in ((AT.derived, 10), (AT.base, 5), (AT.first, 4), (AT.leaves, 3)):
            data[at] = 9
            with self.subTest(number=number):
                self.assertEqual(refusal(bytes(data))[0], number)

    def test_long_trees_are_cut(self):
        data = layout.encode(parse(f"S[{'a,' * 998}b] | a"))
        number, place = refusal(changed(data, {len(data) - 2 * SIZE: 7}))
        self.assertEqual(number, 10)
        self.assertIn(", after ...a,a,", place)
        self.assertLess(len(place), 160)


class Alone(unittest.TestCase):
    def test_trees(self):
        leaves = [Leaf(Kind.ELEMENT, 0, 0)]
        for data, number, place in trees_alone():
            with self.subTest(number=number, place=place):
                if number is None:
                    self.assertEqual(layout.encode_tree(refusals.read_tree(data, leaves)), data)
                else:
                    with self.assertRaises(refusals.Refused) as raised:
                        refusals.read_tree(data, leaves)
                    self.assertEqual(raised.exception.number, number)
                    self.assertTrue(raised.exception.place.endswith(place))

    @needs_describer
    def test_the_describing_program_too(self):
        for data, number, place in trees_alone():
            with self.subTest(number=number, place=place):
                given = DESCRIBE.run(data).stdout.decode()
                if number is None:
                    self.assertTrue(given.startswith("total "), given)
                else:
                    self.assertEqual(given, f"refused {number}\n")


@needs_marker
class SameAsTheMarker(unittest.TestCase):
    """The marking program refuses the same sheets by the same numbers."""

    COUNT = 2000

    def test_damaged_sheets(self):
        seen = set()
        for seed in range(self.COUNT):
            data = damaged(seed)
            found = refusal(data)
            given = marker.mark(data)
            with self.subTest(seed=seed, place=found):
                if found:
                    self.assertEqual(given, marker.Mark("refused", found[0]))
                else:
                    self.assertNotEqual(given.word, "refused")
            seen.add(found[0] if found else None)
        # All but 2, which no sheet shows, and the depths, for which see below.
        self.assertEqual(seen, {None, 1, 3, 4, 5, 6, 7, 9, 10, 11, 12, 14})

    def test_one_fault(self):
        for changes, number, _ in SPOILED:
            with self.subTest(changes=changes):
                given = marker.mark(changed(SHEET, changes))
                self.assertEqual(given, marker.Mark("refused", number))

    def test_limits(self):
        for number, data in [*too_deep().items(), *((1, data) for data in too_long())]:
            self.assertEqual(marker.mark(data), marker.Mark("refused", number))
        data = layout.encode(largest_sheet())
        self.assertEqual(marker.mark(data), marker.Mark("passes", None))
        self.assertEqual(marker.mark(data + b"\0"), marker.Mark("refused", 1))


def damaged(seed):
    """A small sheet with up to three bytes changed or exchanged with the next,
    sometimes of another length."""
    rng = random.Random(seed)
    data = bytearray(layout.encode(random_sheet(seed, leaves=3, records=12, depth=5)))
    for _ in range(rng.randint(1, 3)):
        at = rng.randrange(layout.CONTENTS.size if rng.random() < 0.9 else 0, len(data))
        if rng.random() < 0.2:
            data[at:at + 2] = data[at:at + 2][::-1]
        else:
            data[at] = rng.choice([0, 1, 2, 3, 4, 5, rng.randrange(256)])
    if rng.random() < 0.05:
        del data[rng.randrange(len(data)):]
    return bytes(data)


if __name__ == "__main__":
    unittest.main()
