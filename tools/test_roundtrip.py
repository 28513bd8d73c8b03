"""Sheets become papers and papers sheets, without loss."""

import unittest

import layout
import refusals
from draft import parse, read
from printed import WIDTH, folded, paper_text
from sheet import MOST_DEPTH, MOST_LEAVES, MOST_OCCURS, MOST_RECORDS
from support import SAMPLES, largest_sheet, random_paper, random_sheet, row

SHEETS = 3000
PAPERS = 2000
# The samples that are a tree's bytes, and the tree.
TREES = {"entry": "S[a,C(0,*)[b,c]]", "total-too-large": "S(65536,65536)[a(65536,65536)]"}


def written(text):
    return layout.encode(parse(text))


def read_back(data):
    return paper_text(refusals.read(data))


class RoundTrip(unittest.TestCase):
    def test_every_random_sheet_comes_back(self):
        reached = []
        for seed in range(SHEETS):
            sheet = random_sheet(seed)
            data = layout.encode(sheet)
            with self.subTest(seed=seed):
                self.assertEqual(refusals.read(data), sheet)
                self.assertEqual(written(read_back(data)), data)
            contents = layout.contents_of(data)
            wide = max(record.count for record in layout.records_of(
                data[layout.places(contents).base:]))
            reached.append((contents.leaves, contents.base, sheet.base.depth, wide))
        # Random sheets that never came to the limits would show little.
        *most, widest = (max(column) for column in zip(*reached))
        self.assertEqual(most, [MOST_LEAVES, MOST_RECORDS, MOST_DEPTH])
        self.assertGreater(widest, 255)

    def test_a_paper_may_be_written_in_many_ways(self):
        for seed in range(PAPERS):
            sheet = random_sheet(seed, leaves=7, records=30)
            with self.subTest(seed=seed):
                self.assertEqual(parse(random_paper(seed, sheet)), sheet)

    def test_long_trees(self):
        for records in (255, 256, 257, 700, MOST_RECORDS):
            tree = row(records)
            data = layout.encode(parse("a | a")._replace(derived=tree, base=tree))
            self.assertEqual(written(read_back(data)), data)
        data = layout.encode(largest_sheet())
        self.assertEqual(written(read_back(data)), data)


class Samples(unittest.TestCase):
    def test_printed_sheet_of_document_01(self):
        data = (SAMPLES / "smallest.sheet").read_bytes()
        self.assertEqual(written("a | a(0,1)"), data)
        self.assertEqual(read_back(data), "a | a(0,1)\n")

    def test_trees(self):
        self.assertEqual({file.stem for file in SAMPLES.glob("*.tree")}, set(TREES))
        for name, text in TREES.items():
            tree = read(text, alone=True).chain.levels[0]
            self.assertEqual((SAMPLES / f"{name}.tree").read_bytes(), layout.encode_tree(tree))

    def test_the_season_is_long(self):
        sheet = parse((SAMPLES / "season.paper").read_text(encoding="utf-8"))
        self.assertEqual((sheet.derived.records, sheet.base.records), (682, 692))
        self.assertEqual(parse(paper_text(sheet)), sheet)


class Printed(unittest.TestCase):
    """The text is short: only what differs from the defaults."""

    def assert_comes_back(self, text, expected=None):
        self.assertEqual(read_back(written(text)), expected or text)

    def test_trees_alone(self):
        self.assert_comes_back("S[a,b] | S[a,c(0,1),b]\n")
        self.assert_comes_back("A(0,1)[a] | C(0,*)[w,S[],w1(2,3)]\n")
        self.assert_comes_back("C[] | S[]\n")

    def test_blanks_and_comments_go(self):
        self.assert_comes_back("# c\n\n S [ a , b ] | w ( 0 , * ) # d", "S[a,b] | w(0,*)\n")

    def test_letters_follow_the_leaf_numbers(self):
        self.assert_comes_back("S[x,w5,y1] | w2", "S[a,w,b] | w1\n")

    def test_leaves_in_another_order_and_unused_ones(self):
        self.assert_comes_back("S[b,a] | w\nleaves : a, w, b, c\n")
        self.assert_comes_back("C[] | C[]\nleaves : w\n")

    def test_leaf_settings(self):
        self.assert_comes_back("S[a,b,w] | w1\na, b : name 65535\nw : lax\nw1 : strict\n")

    def test_usual_settings_are_not_printed(self):
        text = "S[a,b] | w\na : name 0\nw : skip\na | a : ok\na | b : 140\n"
        self.assert_comes_back(text, "S[a,b] | w\n")

    def test_verdicts(self):
        self.assert_comes_back("a | S[b,w]\na | a : first undecided\na, b | w : ok\n")
        self.assert_comes_back("a | b\na | b : first undecided, second 152\n")
        self.assert_comes_back("C[] | C[]\na | a : second 141\n")

    def test_numbers_at_the_limit(self):
        self.assert_comes_back(f"a({MOST_OCCURS},{MOST_OCCURS}) | a({MOST_OCCURS},*)\n")

    def test_names_past_the_letters(self):
        sixty = [f"{letter}{number}" for number in ("", "1", "2")
                 for letter in "abcdefghijklmnopqrstuvxyz"][:60]
        text = f"S[{','.join(sixty)}] | S[w,w1,w2,w3]"
        self.assert_comes_back(f"{text}\n", f"{folded(text)}\n")

    def test_long_trees_go_on_in_other_lines(self):
        text = f"S[{','.join(['a(0,1)', 'S[b,c]'] * 200)}] | S[{','.join(['a', 'S(2,*)[b]'] * 90)}]"
        lines = folded(text).split("\n")
        self.assertGreater(len(lines), 40)
        self.assertLessEqual(max(map(len, lines)), WIDTH)
        self.assertEqual("".join(line.strip() for line in lines), text)
        self.assert_comes_back(f"{text}\n", f"{folded(text)}\n")
        self.assertEqual(folded("S[a(0,1),b] | C[]"), "S[a(0,1),b] | C[]")
        most = f"({MOST_OCCURS},{MOST_OCCURS})"
        self.assert_comes_back(f"{f'S{most}[' * 9}a{']' * 9} | a\n")


if __name__ == "__main__":
    unittest.main()
