"""The layout, byte by byte: document 01's sheet and document 02's chain and
record, written out here once more."""

import unittest

import layout
from draft import parse, read
from sheet import MOST_LEVELS, MOST_RECORDS
from support import largest_sheet, row

# kind, leaf number, item count, unbounded mark, three zero bytes, minimum, maximum
SEQUENCE = [2, 0, 1, 0, 0, 0, 0, 0, 1, 0, 0, 0, 1, 0, 0, 0]
B = [0, 1, 0, 0, 0, 0, 0, 0, 1, 0, 0, 0, 1, 0, 0, 0]
A_UNBOUNDED = [0, 0, 0, 0, 1, 0, 0, 0, 2, 1, 0, 0, 0, 0, 0, 0]
# a zero byte after the leaf count; record counts and total length in two bytes
CONTENTS = [2, 0, 2, 0, 1, 0, 72, 0]


class Bytes(unittest.TestCase):
    def test_sheet(self):
        data = layout.encode(parse("S[b] | a(258,*)\nleaves : a, b\nb : name 259"))
        leaves, table = [0, 0, 0, 0, 0, 0, 3, 1], [0, 140, 140, 0]
        self.assertEqual(list(data), CONTENTS + leaves + table * 2 + SEQUENCE + B + A_UNBOUNDED)

    def test_chain(self):
        levels = read("- + S[b] + - + a(258,*)\nleaves : a, b", alone=True).chain.levels
        head = [4, 0, 0, 2, 0, 0, 0, 1, 0]
        self.assertEqual(list(layout.encode_chain(levels)), head + SEQUENCE + B + A_UNBOUNDED)

    def test_types(self):
        self.assertEqual(list(layout.encode_filling([34, 0, 4], b"sheet")),
                         [3, 0, 34, 0, 4, *b"sheet"])
        self.assertEqual(list(layout.encode_filling_by([0, 0, 1, 2], [3, 0], b"sheet")),
                         [4, 0, 0, 0, 1, 2, 2, 0, 3, 0, *b"sheet"])

    def test_counts_of_two_bytes(self):
        tree = layout.encode_tree(row(259))
        self.assertEqual(list(tree[:8]), [2, 0, 2, 1, 0, 0, 0, 0])
        self.assertEqual(list(layout.encode_chain([row(259)])[:3]), [1, 3, 1])
        sheet = parse("a | a")._replace(derived=row(259), base=row(700))
        # 15358 bytes
        self.assertEqual(list(layout.encode(sheet)[:8]), [1, 0, 3, 1, 188, 2, 254, 59])


class Places(unittest.TestCase):
    def test_fields(self):
        self.assertEqual(layout.CONTENTS_AT, (0, 1, 2, 4, 6))
        self.assertEqual(layout.LEAF_AT, (0, 1, 2))
        self.assertEqual(layout.RECORD_AT, (0, 1, 2, 4, 5, 8, 12))
        self.assertEqual(layout.ZEROS, b"\0\0\0")

    def test_what_is_written_is_read(self):
        data = layout.encode(parse("S[b] | a(258,*)\nleaves : a, b"))
        contents = layout.contents_of(data)
        self.assertEqual(contents, (2, 0, 2, 1, len(data)))
        body = data[layout.places(contents).derived:]
        self.assertEqual(layout.records_of(body)[2], (0, 0, 0, 1, layout.ZEROS, 258, 0))

    def test_the_largest(self):
        self.assertEqual(len(layout.encode(largest_sheet())), 40456)
        self.assertEqual(len(layout.encode_tree(row(MOST_RECORDS))), 16000)
        absent = [None] * (MOST_LEVELS - 1)
        self.assertEqual(len(layout.encode_chain([*absent, row(MOST_RECORDS)])), 16035)


if __name__ == "__main__":
    unittest.main()
