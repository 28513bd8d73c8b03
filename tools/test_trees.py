"""Trees alone: tidied, emptiable, items; this aid's own reading, and the proved
programs held to it."""

import random
import unittest

import layout
import treewriters
from draft import read
from notation import tree_text
from proved import ITEM, TIDY
from refusals import Refused
from sheet import MOST_DEPTH, MOST_RECORDS, Kind, Leaf
from support import (
    Command, Grower, needs_describer, needs_items, needs_joiner, needs_tidier, octal, random_leaf,
    run,
)
from tidying import emptiable, tidy

ELEMENT = Leaf(Kind.ELEMENT, 0, 0)
RULES = " (docs/KEY.md, E1, E2)\n"

# A tree, and the tidied one: document 01's example, and places that are easily
# read otherwise.
TIDIED = [
    ("S(2,3)[C[a,b]]", "C(2,3)[a,b]"), ("S(0,1)[C[S[]]]", "S(0,1)[]"),
    ("C(0,1)[S[]]", "C(0,1)[S[]]"), ("A(0,1)[a(0,0)]", "A(0,1)[a(0,0)]"), ("C[a,C[]]", "a"),
    ("S[S[a,b],c(0,1)]", "S[a,b,c(0,1)]"), ("S(0,0)[a]", "S(0,0)[a]"), ("S[a(0,0)]", "S[]"),
    ("C(0,5)[S[a,b]]", "C(0,5)[S[a,b]]"), ("S[C(2,2)[a,b]]", "C(2,2)[a,b]"),
]
EMPTIABLE = ["a(0,1)", "S[]", "C[]", "C[a,b(0,2)]", "S[a(0,1),C[]]", "A[a(0,1)]", "S(0,*)[a]"]
NOT_EMPTIABLE = ["a", "S[a(0,1),b]", "C[a,b]", "A[a,b(0,1)]", "w(1,*)"]


def tree_of(text):
    return read(text, alone=True).chain.levels[0]


def random_tree(seed):
    rng = random.Random(seed)
    leaves = [ELEMENT, *(random_leaf(rng, 0.3) for _ in range(rng.randint(0, 7)))]
    records = rng.choice([1, 3, 8, 60, MOST_RECORDS])
    return leaves, Grower(rng, leaves, records, rng.choice([2, 6, MOST_DEPTH])).tree()


class Reading(unittest.TestCase):
    def test_tidied(self):
        for text, tidied in TIDIED:
            self.assertEqual(tree_text(tidy(tree_of(text)), "abcw"), tidied)

    def test_emptiable(self):
        for texts, stated in ((EMPTIABLE, True), (NOT_EMPTIABLE, False)):
            for text in texts:
                self.assertEqual(emptiable(tree_of(text)), stated, text)


class SameAsThePrograms(unittest.TestCase):
    COUNT = 500

    @needs_tidier
    def test_tidied(self):
        changed = 0
        for seed in range(self.COUNT):
            with self.subTest(seed=seed):
                leaves, tree = random_tree(seed)
                self.assertEqual(treewriters.tidy(tree, leaves), tidy(tree))
                changed += tidy(tree) != tree
        self.assertGreater(changed, self.COUNT // 10)

    @needs_items
    def test_items(self):
        for seed in range(self.COUNT):
            with self.subTest(seed=seed):
                leaves, tree = random_tree(seed)
                count = len(tree.items)
                for k in {0, count // 2, max(count - 1, 0), count, 65535}:
                    here = tree.items[k] if k < count else None
                    self.assertEqual(treewriters.item(tree, k, leaves), here)

    @needs_tidier
    @needs_items
    def test_refused(self):
        short = layout.encode_tree(tree_of("S[a]"))[:-1]
        for run_on in (lambda: TIDY.run(short), lambda: ITEM.run(b"\0\0" + short),
                       lambda: ITEM.run(b"\0"), lambda: ITEM.run(b""), lambda: TIDY.run(b"")):
            done = run_on()
            self.assertEqual((done.stdout, done.stderr), (b"", b"refused 14\n"))
        bad = layout.encode_tree(tree_of("a")._replace(minimum=3))
        with self.assertRaises(Refused):
            treewriters.tree_from(TIDY, bad, [ELEMENT])


class Uses(Command):
    @needs_describer
    def test_emptiable(self):
        self.check(run("emptiable", data=b"C[a,S[]]"), 0, f"emptiable{RULES}".encode(), "")
        self.check(run("emptiable", data=b"a"), 0, f"not emptiable{RULES}".encode(), "")
        self.check(run("emptiable", data=b"a | S[]"), 0,
                   f"derived: not emptiable{RULES}base: emptiable{RULES}".encode(), "")

    @needs_tidier
    def test_tidy(self):
        for text, tidied in TIDIED:
            self.check(run("tidy", data=text.encode()), 0, f"{tidied}\n".encode(), "")
        self.check(run("tidy", data=b"S[a] | C[S[a,b]]"), 0, b"derived: a\nbase: S[a,b]\n", "")

    @needs_tidier
    @needs_joiner
    def test_tidy_a_chain(self):
        self.check(run("tidy", data=b"S[a,b] + - + c"), 0, b"S[a,b,c]\n", "")
        self.check(run("tidy", data=b"- + -"), 0, b"no content\n", "")

    @needs_items
    def test_item(self):
        for k, said in ((0, "a"), (1, "C(0,*)[b,c]"), (2, "no item 2: there are 2 items, from 0")):
            self.check(run("item", k, data=b"S[a,C(0,*)[b,c]]"), 0, f"{said}\n".encode(), "")
        self.check(run("item", 0, data=b"a | S[b]"), 0,
                   b"derived: no item 0: there are 0 items, from 0\nbase: b\n", "")
        self.check(run("item", 1, data=b"S[b]"), 0, b"no item 1: there is 1 item, from 0\n", "")

    def test_another_answer(self):
        other = self.program(octal(layout.encode_tree(tree_of("a"))))
        self.check(run("tidy", data=b"S[a,b]", tidier=other), 1, b"",
                   "the tidied tree is S[a,b] by this aid, a by the tidying program")
        self.check(run("item", 1, data=b"S[a,b]", items=other), 1, b"", "the item is b by this aid")
        none = self.program("", message="no item\\n")
        self.check(run("item", 1, data=b"S[a,b]", items=none), 1, b"",
                   "the item is b by this aid, none by the program for items")
        self.check(run("join", data=b"a + b", joiner=none), 2, b"", "no joined tree")

    def test_no_answer(self):
        missing = self.folder / "missing"
        self.check(run("tidy", data=b"a", tidier=missing), 2, b"", "run `tools/build tidy`")
        self.check(run("item", 0, data=b"a", items=missing), 2, b"", "run `tools/build item`")
        self.check(run("tidy", data=b"a", tidier=self.program("x")), 2, b"", "no tidied tree")


if __name__ == "__main__":
    unittest.main()
