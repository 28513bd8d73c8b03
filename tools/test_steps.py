"""Tidying step by step: which steps there are, in which order, and the lines that
show them."""

import random
import unittest
from unittest import mock

import layout
import steps
import treewriters
import trees
from draft import read
from files import Stop
from notation import tree_text
from sheet import Kind, Tree
from steps import NO_STEP, in_words
from support import Command, needs_joiner, needs_tidier, octal, run
from test_trees import ELEMENT, TIDIED, random_tree, tree_of
from tidying import tidy

# A tree, and its steps: rule and what is done, then the tree after it.
STEPS = {
    # Each rule.
    "S[a,b(0,0),c]": ["D2: b(0,0) is dropped = S[a,c]"],
    "S[a,S[b,c]]": ["D3: S[b,c] is replaced by its items = S[a,b,c]"],
    "C[S[a,b]]": ["D4: S[a,b] takes the place of C[S[a,b]] = S[a,b]"],
    "S(2,3)[C[a,b]]": ["D5: C[a,b] takes the pair of S(2,3)[C[a,b]] = C(2,3)[a,b]"],
    # Items first, from left to right; then the group, rule by rule.
    "S[a,S[b,c(0,0)],C[d]]": [
        "D2: c(0,0) is dropped = S[a,S[b],C[d]]",
        "D4: b takes the place of S[b] = S[a,b,C[d]]",
        "D4: d takes the place of C[d] = S[a,b,d]"],
    "S[S[a,b],c(0,0),C[d],S[e,f],g(0,0)]": [
        "D4: d takes the place of C[d] = S[S[a,b],c(0,0),d,S[e,f],g(0,0)]",
        "D2: c(0,0) is dropped = S[S[a,b],d,S[e,f],g(0,0)]",
        "D2: g(0,0) is dropped = S[S[a,b],d,S[e,f]]",
        "D3: S[a,b] is replaced by its items = S[a,b,d,S[e,f]]",
        "D3: S[e,f] is replaced by its items = S[a,b,d,e,f]"],
    "C[C[a,C[b,c]],S(0,1)[C[d,e]]]": [
        "D3: C[b,c] is replaced by its items = C[C[a,b,c],S(0,1)[C[d,e]]]",
        "D5: C[d,e] takes the pair of S(0,1)[C[d,e]] = C[C[a,b,c],C(0,1)[d,e]]",
        "D3: C[a,b,c] is replaced by its items = C[a,b,c,C(0,1)[d,e]]"],
    # What an item is counts once it is tidied.
    "S(0,1)[C[S[]]]": [
        "D4: S[] takes the place of C[S[]] = S(0,1)[S[]]",
        "D3: S[] is replaced by its items (none) = S(0,1)[]"],
    "C[a,C[]]": [
        "D3: C[] is replaced by its items (none) = C[a]",
        "D4: a takes the place of C[a] = a"],
    "S[S[a]]": [
        "D4: a takes the place of S[a] = S[a]",
        "D4: a takes the place of S[a] = a"],
    "S(2,3)[S[C[a,b]]]": [
        "D4: C[a,b] takes the place of S[C[a,b]] = S(2,3)[C[a,b]]",
        "D5: C[a,b] takes the pair of S(2,3)[C[a,b]] = C(2,3)[a,b]"],
    # An item that goes is tidied before.
    "S[a,b,S(0,0)[C[c]]]": [
        "D4: c takes the place of C[c] = S[a,b,S(0,0)[c]]",
        "D2: S(0,0)[c] is dropped = S[a,b]"],
    # The root is never dropped, but what is below it is.
    "S(0,0)[a,b(0,0)]": ["D2: b(0,0) is dropped = S(0,0)[a]"],
    "S[a(0,0)]": ["D2: a(0,0) is dropped = S[]"],
    # An item takes another's place with a pair of its own.
    "S[C(2,2)[a,b]]": ["D4: C(2,2)[a,b] takes the place of S[C(2,2)[a,b]] = C(2,2)[a,b]"],
    "S[w,A[a(0,0)],b(0,0)]": ["D2: b(0,0) is dropped = S[w,A[a(0,0)]]"],
}
LEFT_ALONE = [
    "a", "w(0,0)", "a(0,0)", "S(0,0)[a]", "C(0,0)[]", "A[a(0,0)]", "A(0,1)[a]", "S[]", "C[]",
    "S[a,b]", "C(0,1)[S[]]", "S(0,1)[C(0,1)[a,b]]", "C(0,5)[S[a,b]]", "S[a,S(0,1)[b]]",
    "S(2,3)[A[a,b]]", "C(2,3)[S[a,b],A[c]]", "S(1,2)[a]",
]
LONG = f"S[S[a,b],{','.join(f'C[a,d{n}]' for n in range(1, 30))},S(0,1)[C[{'c,' * 20}e]],d(0,0)]"
PAIRS = [*[(1, 1)] * 5, (0, 0), (0, 1), (2, 3), (0, None)]


def random_untidy(seed):
    """A tree with much to tidy, over the leaf 0."""
    rng = random.Random(seed)
    any_kind = [Kind.ELEMENT, Kind.ALL, *(Kind.SEQUENCE, Kind.CHOICE) * 2]

    def grown(kinds, depth):
        kind, items, pairs = rng.choice(kinds if depth else [Kind.ELEMENT]), [], PAIRS
        if kind == Kind.ALL:
            kinds, pairs = [Kind.ELEMENT], [(0, 1), (1, 1)]
        if not kind.is_leaf:
            items = [grown(kinds, depth - 1) for _ in range(rng.choice([0, 1, 1, 2, 2, 3, 4]))]
        return Tree(kind, 0, *rng.choice(pairs), items)

    return grown(any_kind, rng.randint(2, 6))


def steps_of(text):
    """The steps of a tree in words."""
    paper = read(text, alone=True)
    return [f"{in_words(step, paper.names)} = {tree_text(step.tree, paper.names)}"
            for step in steps.steps(paper.chain.levels[0])]


class Fixed(unittest.TestCase):
    def test_steps(self):
        for text, expected in STEPS.items():
            with self.subTest(text=text):
                self.assertEqual(steps_of(text), expected)

    def test_left_alone(self):
        for text in LEFT_ALONE:
            with self.subTest(text=text):
                self.assertEqual(steps_of(text), [])

    def test_the_last_tree_is_the_tidied_one(self):
        for text, tidied in TIDIED:
            with self.subTest(text=text):
                last = steps_of(text)[-1:] or [f"= {text}"]
                self.assertEqual(last[0].split("= ")[1], tidied)


class Random(unittest.TestCase):
    COUNT = 1500

    def check_steps(self, tree):
        """The rules of the tree's steps."""
        found = list(steps.steps(tree))
        self.assertEqual(found[-1].tree if found else tree, tidy(tree))
        self.assertEqual(not found, tidy(tree) == tree)
        self.assertLessEqual(len(found), tree.records)
        before = tree
        for at, step in enumerate(found):
            self.assertLess(step.tree.records, before.records)
            self.assertEqual(tidy(step.tree), tidy(tree))
            before = step.tree
            # The steps of the tree that a step leaves are those that come after it.
            if at in (0, len(found) // 2, len(found) - 1):
                self.assertEqual(list(steps.steps(step.tree)), found[at + 1:])
        return [step.rule for step in found]

    def test_trees_with_much_to_tidy(self):
        rules, untouched = [], 0
        for seed in range(self.COUNT):
            with self.subTest(seed=seed):
                found = self.check_steps(random_untidy(seed))
                rules += found
                untouched += not found
        for rule in ("D2", "D3", "D4", "D5"):
            self.assertGreater(rules.count(rule), self.COUNT // 50, rule)
        self.assertGreater(untouched, self.COUNT // 20)

    def test_trees_of_any_size(self):
        longest = max(len(self.check_steps(random_tree(seed)[1])) for seed in range(60))
        self.assertGreater(longest, 20)

    @needs_tidier
    def test_the_program_agrees(self):
        for seed in range(150):
            with self.subTest(seed=seed):
                tree = random_untidy(seed)
                *_, last = [tree, *(step.tree for step in steps.steps(tree))]
                self.assertEqual(treewriters.tidy(tree, [ELEMENT]), last)


class Lines(unittest.TestCase):
    def test_trees_below_each_other(self):
        paper = read("S[a,b(0,0),C[c]]", alone=True)
        found = list(steps.steps(paper.chain.levels[0]))
        self.assertEqual(steps.lines(found, paper.names), [
            "  D4: c takes the place of C[c]  S[a,b(0,0),c]",
            "  D2: b(0,0) is dropped          S[a,c]"])
        self.assertEqual(steps.lines([], paper.names), [f"  {NO_STEP}"])

    def test_long_trees_stand_below_their_steps(self):
        paper = read(LONG, alone=True)
        found = list(steps.steps(paper.chain.levels[0]))
        self.assertEqual([step.rule for step in found], ["D5", "D2", "D3"])
        for step, text in zip(found, steps.lines(found, paper.names)):
            first, *others = text.splitlines()
            self.assertEqual(first, f"  {in_words(step, paper.names)}")
            self.assertGreater(len(others), 1)
            for line in (first, *others):
                self.assertLessEqual(len(line), 100)
            self.assertTrue(all(line.startswith("    ") for line in others))
            self.assertEqual("".join(map(str.strip, others)), tree_text(step.tree, paper.names))
        self.assertIn("... takes the pair of S(0,1)[C[c,c,", in_words(found[0], paper.names))


class Uses(Command):
    def steps(self, text, **programs):
        return run("tidy", "--steps", data=text.encode(), **programs)

    @needs_tidier
    def test_a_tree(self):
        self.check(self.steps("S[a,S[b,c(0,0)],C[d]]"), 0, (
            b"S[a,S[b,c(0,0)],C[d]]\n"
            b"  D2: c(0,0) is dropped          S[a,S[b],C[d]]\n"
            b"  D4: b takes the place of S[b]  S[a,b,C[d]]\n"
            b"  D4: d takes the place of C[d]  S[a,b,d]\n"
            b"S[a,b,d]\n"), "")
        for text in ("A[a(0,0)]", "S(0,0)[a]"):
            self.check(self.steps(text), 0, f"{text}\n  {NO_STEP}\n{text}\n".encode(), "")

    @needs_tidier
    def test_a_paper(self):
        self.check(self.steps("S[a,b] | C[S[a,b]]\na | b : ok\n"), 0, (
            b"derived: S[a,b]\n"
            b"  no step applies: the tree is tidy\n"
            b"derived: S[a,b]\n"
            b"base: C[S[a,b]]\n"
            b"  D4: S[a,b] takes the place of C[S[a,b]]  S[a,b]\n"
            b"base: S[a,b]\n"), "")

    @needs_tidier
    @needs_joiner
    def test_a_chain(self):
        joined = b"S[S[a,b],c]\n  D3: S[a,b] is replaced by its items  S[a,b,c]\nS[a,b,c]\n"
        self.check(self.steps("S[a,b] + - + c"), 0, joined, "")
        self.check(self.steps("- + -"), 0, b"no content\n", "")

    @needs_tidier
    def test_the_last_line_is_that_of_tidy(self):
        for text in ("S[a,S[b]]", "C[a]", "a", LONG):
            plain = run("tidy", data=text.encode()).stdout
            shown = self.steps(text).stdout
            self.assertTrue(plain and shown.endswith(b"\n" + plain), shown)

    def test_wrong_notation(self):
        for text in ("S[a b]", "S[a,b](0,1)", "A[S[a]]", "", "a | S[a"):
            plain, stepped = run("tidy", data=text.encode()), self.steps(text)
            self.check(plain, 1, b"", "expected")
            self.assertEqual((stepped.returncode, stepped.stdout, stepped.stderr),
                             (1, b"", plain.stderr))

    def test_another_answer(self):
        other = self.program(octal(layout.encode_tree(tree_of("a"))))
        self.check(self.steps("S[a,S[b]]", tidier=other), 1, b"",
                   "the tidied tree is S[a,b] by this aid, a by the tidying program")
        self.check(self.steps("S[a,b]", tidier=other), 1, b"", "the tidied tree is S[a,b] by")

    @needs_tidier
    def test_steps_that_end_elsewhere(self):
        """The program is held to the steps, not to the reading without them."""
        paper = read("S[a,S[b]]", alone=True)
        tree = paper.chain.levels[0]
        for wrong in ([], list(steps.steps(tree_of("S[a,S[]]")))):
            with mock.patch.object(steps, "steps", lambda _, found=wrong: found):
                with self.assertRaisesRegex(Stop, "by this aid, .* by the tidying program"):
                    trees.step_lines("", paper, tree)

    def test_no_answer(self):
        missing = self.folder / "missing"
        self.check(self.steps("S[a]", tidier=missing), 2, b"", "run `tools/build tidy`")


if __name__ == "__main__":
    unittest.main()
