"""Chains: their notation and its faults, the joined tree, and the joining
program held to this aid's own reading."""

import random
import unittest

import chain
import treewriters
import layout
from draft import parse, read
from notation import tree_text
from proved import JOIN
from refusals import Refused
from sheet import MOST_DEPTH, MOST_LEVELS, MOST_RECORDS, Kind, Leaf, Tree
from support import (
    SAMPLES, Command, FaultsCase, Grower, needs_joiner, needs_marker, octal, random_leaf, row, run,
)
from test_faults import END, TREE

ELEMENT = Leaf(Kind.ELEMENT, 0, 0)
LEVEL = f"'-', {TREE}"
TOO_MANY = f"a joined tree of at most {MOST_RECORDS} groups and leaves"
TOO_DEEP = f"a joined tree of a depth of at most {MOST_DEPTH}"
# So many bytes of a chain the joining program reads, at most.
MOST_READ = 65536

# A chain, and the tree that it makes.
JOINED = [
    ("a", "a"),
    ("- + a(0,1)", "a(0,1)"),
    ("A[a] + -", "A[a]"),
    ("a + b", "S[a,b]"),
    ("S[a,b] + - + c", "S[S[a,b],c]"),
    ("a+b+c+d", "S[S[S[a,b],c],d]"),
    ("- + w(0,*) + - + C[] + a + -", "S[S[w(0,*),C[]],a]"),
    ("S(2,*)[a] + S[]", "S[S(2,*)[a],S[]]"),
]

# The text, line and column of its fault, what is expected and what is found.
FAULTS = [
    ("# nothing\n", 2, 1, "a chain, or two trees, DERIVED | BASE", "the end of the paper"),
    ("a + + b", 1, 5, LEVEL, "'+'"),
    ("+ a", 1, 1, LEVEL, "'+'"),
    ("a + - +", 1, 8, LEVEL, END),
    ("a + X", 1, 5, LEVEL, "'X'"),
    ("a - b", 1, 3, f"'(', '+' or {END}", "'-'"),
    ("- -", 1, 3, f"'+' or {END}", "'-'"),
    ("S[a + b]", 1, 5, "'(', ']' or ','", "'+'"),
    ("a + b | c", 1, 3, "'(' or '|'", "'+'"),
    ("- | a", 1, 1, TREE, "'-'"),
    ("a | b + ", 1, 8, LEVEL, END),
    ("a | - + - # b", 1, 5, "a base tree", "no content: every level is absent"),
    ("a + b\nc : name 1", 2, 1, "a leaf of the trees or of a line 'leaves : ...'", "'c'"),
]


def groups(count, inner="a"):
    """An inner tree below so many groups."""
    return f"{'C[' * count}{inner}{']' * count}"


def items(count):
    """A tree of so many records."""
    return f"S[{','.join('a' * (count - 1))}]"


def joined_text(text):
    paper = read(text, alone=True)
    return tree_text(chain.join(paper.chain.levels), paper.names)


class Notation(unittest.TestCase):
    def test_the_chain_nests_to_the_left(self):
        for text, tree in JOINED:
            self.assertEqual(joined_text(text), tree)

    def test_a_paper_may_have_one_as_its_base(self):
        for text, tree in JOINED:
            self.assertEqual(parse(f"a | {text}"), parse(f"a | {tree}"))

    def test_no_content(self):
        for text in ("-", "- + -", " + ".join("-" * MOST_LEVELS)):
            self.assertIsNone(chain.join(read(text, alone=True).chain.levels))


class Faults(FaultsCase):
    def read(self, text):
        return read(text, alone=True)

    def test_notation(self):
        for fault in FAULTS:
            self.check(*fault)

    def test_levels(self):
        whole = " + ".join("a" * MOST_LEVELS)
        self.check(f"{whole} + -", 1, len(whole) + 4, f"at most {MOST_LEVELS} levels", "one more")
        self.check(f"a | {whole} +", 1, len(whole) + 7, f"at most {MOST_LEVELS} levels", "one more")
        absent = " + ".join("-" * (MOST_LEVELS - 1))
        self.read(f"{absent} + a")

    def test_records(self):
        most = items(MOST_RECORDS - 1 - 200)
        self.read(f"{items(200)} + - + {most}")
        text = f"a | {items(200)} + - + S[{most}"
        self.check(f"{text}] + a", 1, len(text) - len(most) - 1, TOO_MANY,
                   f"{MOST_RECORDS + 1} with this level")
        text = items(MOST_RECORDS - 5)
        self.check(f"{text} + b + {items(10)} + c", 1, len(text) + 8, TOO_MANY,
                   f"{MOST_RECORDS + 8} with this level")

    def test_depth(self):
        text = f"a + {groups(MOST_DEPTH - 3)} + - + a"
        self.read(text)
        one_more = f"depth {MOST_DEPTH + 1} with this level"
        self.check(f"{text} + b", 1, len(text) + 4, TOO_DEEP, one_more)
        text = " + ".join("a" * MOST_DEPTH)
        self.read(text)
        self.check(f"{text} + {groups(5)}", 1, len(text) + 4, TOO_DEEP, one_more)
        text = f"b + {groups(MOST_DEPTH - 1)}"
        self.check(f"{text} + c", 1, 5, TOO_DEEP, one_more)

    def test_a_tree_of_its_own_is_over_a_limit(self):
        text = f"a + {groups(MOST_DEPTH)}"
        self.check(text, 1, len(text) - MOST_DEPTH, f"a depth of at most {MOST_DEPTH}",
                   f"an item at depth {MOST_DEPTH + 1}")


def random_levels(seed):
    """Levels of any number, present or not, joined within the limits or over
    them, and their leaves."""
    rng = random.Random(seed)
    leaves = [ELEMENT, *(random_leaf(rng, 0.3) for _ in range(rng.randint(0, 7)))]
    levels = []
    records = rng.choice([1, 8, 60, MOST_RECORDS])
    depth = rng.choice([1, 2, 6, MOST_DEPTH])
    absent = rng.choice([0, 0.3, 0.9, 1])
    for _ in range(rng.randint(1, MOST_LEVELS)):
        tree = Grower(rng, leaves, records, depth).tree()
        levels.append(None if rng.random() < absent else tree)
    return levels, leaves


@needs_joiner
class SameAsTheProgram(unittest.TestCase):
    """The joining program gives this aid's tree, or refuses what is over a
    limit, by 15 where it does not read all of it."""

    COUNT = 2000

    def check(self, levels, leaves):
        """Holds the program to this aid; what came out."""
        whole = chain.join(levels)
        if whole and (whole.records > MOST_RECORDS or whole.depth > MOST_DEPTH):
            with self.assertRaises(Refused) as raised:
                treewriters.join(levels, leaves)
            cut = len(layout.encode_chain(levels)) > MOST_READ
            self.assertEqual(raised.exception.number, 15 if cut else 16)
            return "cut" if cut else "refused"
        self.assertEqual(treewriters.join(levels, leaves), whole)
        return "no content" if whole is None else len(levels)

    def test_random_chains(self):
        seen = set()
        for seed in range(self.COUNT):
            with self.subTest(seed=seed):
                seen.add(self.check(*random_levels(seed)))
        self.assertEqual(seen, {"cut", "refused", "no content", *range(1, MOST_LEVELS + 1)})

    def test_limits(self):
        leaf = Tree(Kind.ELEMENT, 0, 1, 1, [])
        for trees, expected in (
            ([row(MOST_RECORDS)], 1), ([row(MOST_RECORDS - 2), leaf], 2),
            ([row(MOST_RECORDS - 1), leaf], "refused"),
            ([row(200), None, row(MOST_RECORDS - 201)], 3),
            ([row(200), None, row(MOST_RECORDS - 200)], "refused"),
            ([row(255), leaf], 2), ([row(256), row(257)], 2),
            ([leaf] * MOST_DEPTH, MOST_DEPTH), ([leaf] * (MOST_DEPTH + 1), "refused"),
            ([row(MOST_RECORDS)] * 4, "refused"), ([row(MOST_RECORDS)] * MOST_LEVELS, "cut"),
        ):
            self.assertEqual(self.check(trees, [ELEMENT]), expected)

    def test_a_tree_of_a_record_too_many(self):
        with self.assertRaises(Refused) as raised:
            treewriters.join([row(MOST_RECORDS + 1)], [ELEMENT])
        self.assertEqual(raised.exception.number, 14)

    def test_input_past_what_the_program_reads(self):
        # One tree of as many records as its count can tell; the library refuses 14.
        most = (1 << 16) - 1
        done = JOIN.run(layout.CHAIN.pack(1) + layout.LEVEL.pack(most)
                        + bytes(layout.RECORD.size * most))
        self.assertEqual((done.stdout, done.stderr), (b"", b"refused 15\n"))

    def test_printed_chains_come_back(self):
        for text, tree in JOINED:
            done = run("join", data=text.encode())
            self.assertEqual((done.returncode, done.stdout.decode()), (0, f"{tree}\n"))
            self.assertEqual(run("join", data=done.stdout).stdout, done.stdout)


class Joining(Command):
    """The command, over a program that answers as it is told."""

    PAPER = "a | a + b\n"
    # Of the leaves a and b: the tree that a chain `a + b` makes, and another.
    BYTES = layout.encode_tree(parse("S[a,b] | S[a,b]").base)
    OTHER = layout.encode_tree(parse("S[a,b] | S[b,a]").base)

    def join(self, *words, data="a + b", answer=BYTES, message="", status=0):
        program = self.program(octal(answer), status, message)
        return run(*(words or ["join"]), data=data.encode(), joiner=program)

    def test_only_the_chain_changes(self):
        text = "# x\n\n S[b7] |a + \tb7 # é\r\nleaves : a, b7\na|b7 : ok"
        printed = "# x\n\n S[b7] |S[a,b7] # é\r\nleaves : a, b7\na|b7 : ok\n"
        self.check(self.join(data=text), 0, printed.encode(), "")

    def test_a_chain_on_several_lines(self):
        text = "S[a,\nb] | S[ # x\n a] + S[\n\nb] # y\na | b : ok\n"
        tree = layout.encode_tree(parse("a | S[S[a],S[b]]\nleaves : a, b").base)
        printed = "S[a,\nb] | S[S[a],S[b]] # y\na | b : ok\n"
        self.check(self.join(data=text, answer=tree), 0, printed.encode(), "")

    def test_to_a_file(self):
        out = self.folder / "t"
        self.check(self.join("join", "-o", out), 0, b"", "")
        self.assertEqual(out.read_bytes(), self.BYTES)
        self.check(self.join("join", "-o", "-"), 0, out.read_bytes(), "")

    def test_leaf_numbers_are_those_of_the_paper(self):
        done = self.join("join", "-o", "-", data="b + a\nleaves : a, b", answer=self.OTHER)
        self.check(done, 0, self.OTHER, "")

    def test_no_content(self):
        message = "no content\\n"
        self.check(self.join(data="- + -", answer=b"", message=message), 0, b"no content\n", "")
        out = self.folder / "t"
        done = self.join("join", "-o", out, data="-", answer=b"", message=message)
        self.check(done, 1, b"", "no content: there is no tree to write")
        self.assertFalse(out.exists())

    def test_wrong_notation(self):
        self.check(self.join(data="a\n+ + b"), 1, b"", "<stdin>:2:3: expected ")
        self.check(self.join("mark", data="a + b"), 1, b"", "<stdin>:1:3: expected '(' or '|'")

    def test_a_program_that_differs(self):
        here = "the joined tree is S[a,b] by this aid, "
        for use in ("join", "mark", "write"):
            for answer, message, there in (
                (self.OTHER, "", "S[b,a]"), (b"", "refused 16\\n", "refused 16"),
                (b"", "no content\\n", "no content"),
            ):
                done = self.join(use, data=self.PAPER, answer=answer, message=message)
                self.check(done, 1, b"", f"{here}{there} by the joining program")

    def test_programs_that_give_no_tree(self):
        none = "no joined tree: the joining program"
        for answer, message, status in (
            (b"", "", 0), (b"", "refused\\n", 0), (self.BYTES[:-1], "", 0), (self.BYTES, "a\\n", 0),
            (self.BYTES, "", 3), (b"\5" + self.BYTES[1:], "", 0), (self.BYTES * 2, "", 0),
            (layout.encode_tree(row(MOST_RECORDS + 1)), "", 0),
        ):
            done = self.join(answer=answer, message=message, status=status)
            self.check(done, 2, b"", none)
            self.assertIn(f"gives no tree: exit status {status}", done.stderr.decode())

    def test_without_the_program(self):
        missing = self.folder / "missing"
        for use in ("join", "mark", "write"):
            done = run(use, data=self.PAPER.encode(), joiner=missing)
            self.check(done, 2, b"", "missing: run `tools/build join`")

    def test_a_paper_without_a_chain_needs_no_program(self):
        done = run("write", data=b"a | b", joiner=self.folder / "missing")
        self.check(done, 0, layout.encode(parse("a | b")), "")


@needs_joiner
@needs_marker
class Marks(Command):
    def test_a_chain_is_marked_as_its_joined_tree(self):
        for text, tree in (("S[a,b] | a + b", "S[a,b] | S[a,b]"), ("a | a + b", "a | S[a,b]")):
            joined = run("join", data=text.encode())
            self.check(joined, 0, f"{tree}\n".encode(), "")
            for use in ("mark", "write"):
                self.check(run(use, data=text.encode()), 0, run(use, data=joined.stdout).stdout, "")

    def test_programs_that_fail_among_many(self):
        """A missing one leaves the other papers their marks, one that differs ends
        the command."""
        data = b"a | a\n\npaper : Bo\na | a + b\n\nb | b\n"
        done = run("mark", data=data, joiner=self.folder / "missing")
        found = done.stdout.decode().splitlines()
        self.assertEqual((done.returncode, found[-1]), (2, "3 papers: 2 pass, 1 not read"))
        self.assertIn(":3, Bo: not read: no joined tree: the joining program", found[1])
        other = self.program(octal(Joining.OTHER))
        self.check(run("mark", data=data, joiner=other), 1, b"",
                   "<stdin>:3, Bo: the joined tree is S[a,b] by this aid, S[b,a] by the joining")

    def test_the_sample(self):
        sample = SAMPLES / "report.paper"
        joined = run("join", sample)
        self.assertEqual(run("mark", data=joined.stdout).stdout, run("mark", sample).stdout)
        self.assertEqual(run("write", data=joined.stdout).stdout, run("write", sample).stdout)


if __name__ == "__main__":
    unittest.main()
