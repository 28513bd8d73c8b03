"""Wrong notation: the place, what was expected there and what was found."""

import random
import unittest

import layout
import refusals
from draft import parse
from faults import PaperError
from sheet import MOST_DEPTH, MOST_LEAVES, MOST_RECORDS
from support import FaultsCase, random_paper, random_sheet

LEAF = "a leaf (a letter such as a, w or a1)"
TREE = f"{LEAF}, S, C or A"
VERDICT = "'ok', 'undecided' or a reason from 140 to 152"
ON_PAPER = "a leaf of the trees or of a line 'leaves : ...'"
END = "the end of the line"

# The text, line and column of its fault, what is expected and what is found.
IN_TREES = [
    ("", 1, 1, "two trees, DERIVED | BASE", "the end of the paper"),
    ("# nothing\n \n", 3, 1, "two trees, DERIVED | BASE", "the end of the paper"),
    ("X | a", 1, 1, TREE, "'X'"),
    ("S[a,?] | a", 1, 5, TREE, "'?'"),
    ("S[a,] | a", 1, 5, TREE, "']'"),
    ("S[ab] | a", 1, 3, f"']', {TREE}", "'ab'"),
    ("S[a1b] | a", 1, 3, f"']', {TREE}", "'a1b'"),
    ("a0 | a", 1, 1, TREE, "'a0'"),
    ("S2[a] | a", 1, 1, TREE, "'S2'"),
    ("a", 1, 2, "'(' or '|'", END),
    ("a | # b", 1, 4, f"'-', {TREE}", END),
    ("\na | b c", 2, 7, f"'(', '+' or {END}", "'c'"),
    ("a | b | c", 1, 7, f"'(', '+' or {END}", "'|'"),
    ("a | b(0,1) c", 1, 12, f"'+' or {END}", "'c'"),
    ("S[a,b | a", 1, 7, "'(', ']' or ','", "'|'"),
    ("S[a b] | a", 1, 5, "'(', ']' or ','", "'b'"),
    ("S a | a", 1, 3, "'(' or '['", "'a'"),
    ("S(0,1) | a", 1, 8, "'['", "'|'"),
    ("a(1) | a", 1, 4, "','", "')'"),
    ("a(,1) | a", 1, 3, "a number", "','"),
    ("a(-1,1) | a", 1, 3, "a number", "'-'"),
    ("a(0,x) | a", 1, 5, "'*' or a number", "'x'"),
    ("a(0,1 | a", 1, 7, "')'", "'|'"),
    ("a | S[b(3,2)]", 1, 8, "a minimum that is not above the maximum", "(3,2)"),
    ("a(0,4294967296) | a", 1, 5, "a number up to 4294967295", "'4294967296'"),
    (f"a({'9' * 5000},*) | a", 1, 3, "a number up to 4294967295", f"'{'9' * 40}...'"),
    ("A(0,2)[a] | a", 1, 2, "the maximum 1 for an all-group", "(0,2)"),
    ("A(0,*)[a] | a", 1, 2, "the maximum 1 for an all-group", "(0,*)"),
    ("A(0,0)[a] | a", 1, 2, "the maximum 1 for an all-group", "(0,0)"),
    ("A(2,1)[a] | a", 1, 2, "a minimum that is not above the maximum", "(2,1)"),
    ("A[a,w] | a", 1, 5, "an element as item of an all-group", "'w'"),
    ("A[S[a]] | a", 1, 3, "an element as item of an all-group", "'S'"),
    # A tree goes on in the next line while a bracket is open, after | or + and
    # before | or +.
    ("S[a,\n  b c] | a", 2, 5, "'(', ']' or ','", "'c'"),
    ("S[a # b]\n,c | a", 2, 4, "'(', ']' or ','", "'|'"),
    # What begins a paper ends what is open before it.
    ("S[a # b]\n\nc | a", 1, 4, "'(', ']' or ','", END),
    ("S[a,b\npaper : Bo\nc | a", 1, 6, "'(', ']' or ','", END),
    ("S[a\n# b]\n\n", 1, 4, "'(', ']' or ','", END),
    ("S[a] | S[a,\nb\na | b : ok", 3, 1, "'(', ']' or ','", "'a'"),
    ("S[a\n]\n a | a", 2, 2, "'|'", END),
    ("S[a\n]\n | a | b", 3, 6, f"'(', '+' or {END}", "'|'"),
    ("a |\n\n", 1, 4, f"'-', {TREE}", END),
    ("a\n|\nb +\n# none", 3, 4, f"'-', {TREE}", END),
]

IN_STATEMENTS = [
    ("a | b\nc | a : ok", 2, 1, ON_PAPER, "'c'"),
    ("a | b\na | c : ok", 2, 5, ON_PAPER, "'c'"),
    ("a | b\nc : name 1", 2, 1, ON_PAPER, "'c'"),
    ("C[] | C[]\nb | a : ok", 2, 1, ON_PAPER, "'b'"),
    ("a | b\n: ok", 2, 1, f"'leaves' or {LEAF}", "':'"),
    ("a | b\na, : ok", 2, 4, LEAF, "':'"),
    ("a | b\nS | b : ok", 2, 1, f"'leaves' or {LEAF}", "'S'"),
    ("a | b\na b : ok", 2, 3, "',', '|' or ':'", "'b'"),
    ("a | b\na | b ok", 2, 7, "',' or ':'", "'ok'"),
    ("a | b\na | b : 139", 2, 9, f"'first', 'second', {VERDICT}", "'139'"),
    ("a | b\na | b : 153", 2, 9, f"'first', 'second', {VERDICT}", "'153'"),
    ("a | b\na | b : 2", 2, 9, f"'first', 'second', {VERDICT}", "'2'"),
    ("a | b\na | b : fine", 2, 9, f"'first', 'second', {VERDICT}", "'fine'"),
    ("a | b\na | b :", 2, 8, f"'first', 'second', {VERDICT}", END),
    ("a | b\na | b : first 256", 2, 15, VERDICT, "'256'"),
    ("a | b\na | b : first ok second ok", 2, 18, f"',' or {END}", "'second'"),
    ("a | b\na | b : first ok, ok", 2, 19, "'second'", "'ok'"),
    ("a | b\na | b : second ok, first ok", 2, 18, END, "','"),
    ("a | b\na : 7", 2, 5, "'name', 'type', 'skip', 'lax' or 'strict'", "'7'"),
    ("a | b\na : name 65536", 2, 10, "a number up to 65535", "'65536'"),
    ("a | b\na : name", 2, 9, "a number", END),
    ("a | w\nw : name 1", 2, 1, "an element for a name number", "'w'"),
    ("a | w\nw, a : lax", 2, 4, "a wildcard for a setting of process contents", "'a'"),
    ("a | b\nleaves a, b", 2, 8, "':'", "'a'"),
    ("a | b\nleaves :", 2, 9, LEAF, END),
    ("a | b\nleaves : b", 2, 11, "'a' too, which the trees have", END),
    ("a | b\nleaves : a, b, a", 2, 16, "each leaf once", "'a' again"),
    ("a | b\nleaves : a, b\nleaves : b, a", 3, 1, "one list of leaves",
     "another; line 2 has the first"),
    ("a | b\na : name 1\n\nb, a : name 1", 4, 4, "one name number for 'a'",
     "another; line 2 has the first"),
    ("a | w\nw, w : lax", 2, 4, "one setting of process contents for 'w'",
     "another; line 2 has the first"),
    ("a | b\na | b : ok\na | a, b : second ok", 3, 1, "one verdict for 'a | b' in the second table",
     "another; line 2 has the first"),
    ("a | b\na | b : first ok\na | b : ok", 3, 1, "one verdict for 'a | b' in the first table",
     "another; line 2 has the first"),
]


# The text, and words of the hint that its fault has; None for no hint.
HINTED = [
    ("S[a,b](0,1) | a", "S(0,1)[a,b]"),
    ("a | C[S[a,b](0,1),c]", "S(0,1)[a,b]"),
    ("a | S[a](0,*)", "S(0,1)[a,b]"),
    ("S[white,black] | a", "a leaf is one letter"),
    ("a | b\nwhite | b : ok", "a leaf is one letter"),
    ("S[ab] | a", "commas part leaves"),
    ("S[a1b] | a", "commas part leaves"),
    ("S[a0] | a", None),
    ("sequence[a] | a", "here S"),
    ("a | Choice[a,b]", "here C"),
    ("a | b\nc | d", "parted by a blank line"),
    ("a | b\nS[a] | S[b]", "parted by a blank line"),
    ("a | b\na | b : ok\nS[a,b] | b", "'paper : NAME'"),
    ("S[a,b]", "take one alone"),
    ("a", "take one alone"),
    ("a | b\na | b ok :", None),
    ("a | b\na | b ok", "after ':'"),
    ("a | b ok", "after ':'"),
    ("a | b : ok\na | b", "before all else"),
    ("a : name 1\na | b", "before all else"),
    ("Paper : Bo\na | b", "'paper : NAME'"),
    ("S[A,B] | a", "small letters"),
    ("S[a,B] | a", "small letters"),
    ("a | S[a,Äpfel]", "from a to z"),
    ("s[a,b] | a", "capital letters"),
    ("S[a;b] | a", "commas part items"),
    ("S[a*,b] | a", "a(1,*)"),
    ("a | b?", "a(0,1)"),
    ("a(0,unbounded) | a", "a(1,*)"),
    ("a(2) | a", "a(2,2)"),
    ("S[a b] | a", "commas part items"),
    ("S[a S[b]] | a", "commas part items"),
    ("S[a,b | a", None),
    ("S[a] | 5", None),
    ("a | b\nS[a]", "parted by a blank line"),
    ("a | a | a", None),
    ("a | b\na : fast", None),
]


def elements(count):
    return [f"a{number}" for number in range(1, count + 1)]


class Faults(FaultsCase):
    def test_trees(self):
        for fault in IN_TREES:
            self.check(*fault)

    def test_statements(self):
        for fault in IN_STATEMENTS:
            self.check(*fault)

    def test_hints(self):
        for text, words in HINTED:
            self.check_hint(text, words)

    def test_depth(self):
        parse(f"{'S[' * (MOST_DEPTH - 1)}a{']' * (MOST_DEPTH - 1)} | a")
        deep = f"a | {'S[' * MOST_DEPTH}a"
        self.check(deep, 1, len(deep), f"a depth of at most {MOST_DEPTH}", "an item at depth 13")
        self.check("C[" * 100000, 1, 25, f"a depth of at most {MOST_DEPTH}", "an item at depth 13")

    def test_records(self):
        parse(f"a | S[{','.join('a' * (MOST_RECORDS - 1))}]")
        many = f"a | S[{','.join('a' * MOST_RECORDS)}]"
        self.check(many, 1, len(many) - 1,
                   f"at most {MOST_RECORDS} groups and leaves in a tree", "one more")

    def test_leaves(self):
        names = elements(MOST_LEAVES + 1)
        parse(f"a1 | S[{','.join(names[:-1])}]")
        many = f"a1 | S[{','.join(names)}]"
        one_more = f"'{names[-1]}', one more"
        self.check(many, 1, len(many) - len(names[-1]), f"at most {MOST_LEAVES} leaves", one_more)
        many = f"leaves : {', '.join(names)}"
        column = len(many) - len(names[-1]) + 1
        self.check(f"a1 | a1\n{many}", 2, column, f"at most {MOST_LEAVES} leaves", one_more)


class Reports(unittest.TestCase):
    """The line and a caret below the place."""

    def report(self, text):
        with self.assertRaises(PaperError) as raised:
            parse(text)
        return raised.exception.report("club.paper", text)

    def test_short_line(self):
        self.assertEqual(
            self.report("# entry\nS[a b] | S[a]\r\n"),
            "club.paper:2:5: expected '(', ']' or ',', found 'b'\n"
            "  S[a b] | S[a]\n"
            "      ^\n"
            "hint: commas part items, as in S[a,b]",
        )

    def test_hint_below_the_caret(self):
        self.assertTrue(self.report("S[a](0,1) | a").endswith(
            "\n      ^\nhint: a group's pair stands before its items, as in S(0,1)[a,b]"))

    def test_tabs_keep_the_caret_in_place(self):
        self.assertIn("\n  \tS[a\tb] | a\n  \t   \t^\n", self.report("\tS[a\tb] | a"))

    def test_long_line_is_cut(self):
        report = self.report(f"S[{'a,' * 100}X{',a' * 100}] | a").split("\n")
        self.assertEqual(len(report), 4)
        self.assertTrue(report[1].startswith("  ...") and report[1].endswith("..."))
        self.assertLess(len(report[1]), 90)
        self.assertEqual(report[1][report[2].index("^")], "X")

    def test_signs_that_cannot_be_printed(self):
        self.assertIn("found '?'\n  a\t? | a\n   \t^", self.report("a\t\x07 | a"))


class Scribbles(unittest.TestCase):
    """A paper with some characters changed is read, or has a place of fault."""

    COUNT = 3000
    # So many are still read, at least.
    READ = 300
    SIGNS = "aAbBsScCw019()[]{},|:*# \t\n+-é\x00²"

    def text(self, seed):
        return random_paper(seed, random_sheet(seed, leaves=3, records=8))

    def test_nothing_else_happens(self):
        read = 0
        for seed in range(self.COUNT):
            rng = random.Random(seed)
            text = self.text(seed)
            for _ in range(rng.randint(1, 3)):
                at = rng.randrange(len(text))
                text = text[:at] + rng.choice(["", rng.choice(self.SIGNS)]) + text[at + 1:]
            with self.subTest(seed=seed):
                try:
                    refusals.read(layout.encode(parse(text)))
                    read += 1
                except PaperError as error:
                    self.check_fault(error, text.split("\n"))
        self.assertIn(read, range(self.READ, self.COUNT))

    def check_fault(self, error, lines):
        self.assertIn(error.line, range(1, len(lines) + 1))
        self.assertIn(error.column, range(1, len(lines[error.line - 1]) + 2))


if __name__ == "__main__":
    unittest.main()
