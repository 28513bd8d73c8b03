"""Total ranges: this aid's own reading, the words, and the describing program
held to the reading."""

import random
import unittest

import describer
from draft import read
from sheet import MOST_DEPTH, MOST_RECORDS, Kind, Leaf
from support import Command, Grower, needs_describer, needs_joiner, random_leaf, run
from total import TOO_LARGE, UNBOUNDED, total

ELEMENT = Leaf(Kind.ELEMENT, 0, 0)
LARGE = "S(65536,65536)[a(65536,65536)]"

# A tree, and its total range.
TOTALS = [
    ("a", "1, 1"),
    ("w(0,*)", "0, unbounded"),
    ("S[]", "0, 0"),
    ("C[]", "0, 0"),
    ("A[a,b(0,3)]", "1, 4"),
    ("S(65535,65535)[a(65537,65537)]", "4294967295, 4294967295"),
    (LARGE, "too large, too large"),
    ("S[a(4294967294,4294967294),b]", "4294967295, 4294967295"),
    ("S[a(4294967294,4294967295),b]", "4294967295, too large"),
    (f"C[{LARGE},b(5,5)]", "5, too large"),
    (f"C[{LARGE},b(5,*)]", "5, unbounded"),
    (f"S(0,0)[{LARGE}]", "0, 0"),
    (f"S(0,1)[{LARGE}]", "0, too large"),
    (f"S(0,*)[{LARGE}]", "0, unbounded"),
    (f"S(1,*)[{LARGE}]", "too large, unbounded"),
    ("S(0,0)[a(0,*)]", "0, 0"),
    ("S(4294967295,*)[a(0,0)]", "0, 0"),
]

# What `tools/paper total` says of a text.
SAID = [
    ("a", "total 1, 1: at least 1 name, at most 1 name; not emptiable"),
    ("C[a,S[]] # one or none", "total 0, 1: at least 0 names, at most 1 name; emptiable"),
    ("S(2,*)[a,b]", "total 4, unbounded: at least 4 names, no upper bound; not emptiable"),
    (LARGE, "total too large, too large: more than 4294967295 names, "
            "bounded by a number above 4294967295; not emptiable"),
]
RULES = " (docs/KEY.md, T4, W4, E2)\n"


def tree_of(text):
    return read(text, alone=True).chain.levels[0]


class Reading(unittest.TestCase):
    def test_totals(self):
        for text, stated in TOTALS:
            with self.subTest(text=text):
                self.assertEqual(str(total(tree_of(text))), stated)


@needs_describer
class SameAsTheProgram(unittest.TestCase):
    """The describing program's total range is this aid's, and a tree is
    emptiable where it begins at 0."""

    COUNT = 1000

    def test_random_trees(self):
        seen = set()
        for seed in range(self.COUNT):
            with self.subTest(seed=seed):
                rng = random.Random(seed)
                leaves = [ELEMENT, *(random_leaf(rng, 0.3) for _ in range(rng.randint(0, 7)))]
                records = rng.choice([1, 3, 8, 60, MOST_RECORDS])
                tree = Grower(rng, leaves, records, rng.choice([2, 6, MOST_DEPTH])).tree()
                here, given = total(tree), describer.describe(tree)
                self.assertEqual(given, (here, here.minimum == 0))
                seen |= {end for end in here if isinstance(end, str)}
        self.assertEqual(seen, {TOO_LARGE, UNBOUNDED})


@needs_describer
class Uses(Command):
    def test_trees(self):
        for text, said in SAID:
            self.check(run("total", data=text.encode()), 0, (said + RULES).encode(), "")

    def test_both_trees_of_a_paper(self):
        derived, base = SAID[0][1] + RULES, SAID[1][1] + RULES
        self.check(run("total", data=b"a | C[a,S[]]"), 0,
                   f"derived: {derived}base: {base}".encode(), "")

    @needs_joiner
    def test_chains(self):
        said = "total 2, unbounded: at least 2 names, no upper bound; not emptiable" + RULES
        self.check(run("total", data=b"S[a,b] + - + c(0,*)"), 0, said.encode(), "")
        self.check(run("total", data=b"- + -"), 0, b"no content\n", "")

    def test_wrong_notation(self):
        self.check(run("total", data=b"S[a"), 1, b"", "<stdin>:1:4: expected")

    def test_another_answer(self):
        other = self.program("total 1, 2\\nemptiable no\\n")
        self.check(run("total", data=b"a", describer=other), 1, b"",
                   "the total range is 1, 1 by this aid, 1, 2 by the describing program")
        other = self.program("total 1, 1\\nemptiable yes\\n")
        self.check(run("total", data=b"a", describer=other), 1, b"", "about emptiness")

    def test_no_answer(self):
        for program in (self.program("refused 14\\n"), self.program(""), self.folder / "missing"):
            self.check(run("total", data=b"a", describer=program), 2, b"", "no total range")


if __name__ == "__main__":
    unittest.main()
