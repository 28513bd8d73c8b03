"""Judgements: their marks held to the marking program, their lines, and the
words that fit a mark."""

import re
import unittest
from collections import Counter

import layout
import marker
from draft import read
from judgement import path
from printed import paper_text
from rules import Judge
from sheet import SET_REASONS
from support import (
    ROOT, SAMPLES, Command, near_sheet, needs_filler, needs_joiner, needs_marker,
    needs_table_filler, random_sheet, run,
)
from test_paper import BY_REASON, EXAMPLES, MAY_NOT_OCCUR, NOT_SHOWN, SETTLED
from tidying import tidy
from why import Words, lines, short_lines
from words import REASONS

KEY = ROOT / "docs" / "KEY.md"

# A paper, and every line about it.
SHOWN = [
    ("S[a,b] | S[a,c(0,1),b]", """\
S[a,b] | S[a,c(0,1),b]: passes (M5)
  a | a: passes (M2): ok in both tables
  b | c(0,1): fails 140 (M2): b against c in the first table is 140, by default
    c(0,1) is emptiable (E1): it is skipped (M13)
  b | b: passes (M2): ok in both tables"""),
    ("a | S(0,0)[a]", """\
a | S(0,0)[a]: fails 105 (M7)
  first reading, a in a sequence of its own: S[a] | S(0,0)[a]: fails 105 (M5): sequence, \
sequence: the range isn't within the base's: (1,1) isn't within (0,0)
  second reading: a | S(0,0)[a]: fails 125 (M7): element, sequence or choice: the base maximum \
is 0
  two failures give the first's reason (M7)"""),
    ("C[b] | C[a,b,c]", """\
b | C[a,b,c]: passes (M7)
  first reading, b in a choice of its own: C[b] | C[a,b,c]: passes (M5)
    b | a: fails 140 (M2): b against a in the first table is 140, by default
      the walk is lax: a is skipped (M13)
    b | b: passes (M2): ok in both tables
    c is left over: the walk is lax (M13)"""),
    ("S[a,b] | w(0,9)\na, b | w : ok", """\
S[a,b] | w(0,9): passes (M9)
  a | w(0,*): passes (M3): a against w in the second table is ok
  b | w(0,*): passes (M3): b against w in the second table is ok"""),
    ("S[b,a] | A[a,b,c(0,1)]", """\
S[b,a] | A[a,b,c(0,1)]: passes (M6)
  both have the name number 0: b | b: passes (M2): ok in both tables
  both have the name number 1: a | a: passes (M2): ok in both tables
  c(0,1) is left untaken: its minimum is 0 (M6)"""),
    ("S[a,b] | C(2,2)[a,c]\nb | c : first ok, second 152", """\
S[a,b] | C(2,2)[a,c]: fails 117 (M10)
  a among the alternatives of C(2,2)[a,c]: passes (M10)
    a | a: passes (M2): ok in both tables
  b among the alternatives of C(2,2)[a,c]: fails 117 (M10): sequence, choice: a member restricts \
none of the alternatives: b
    b | a: fails 140 (M2): b against a in the first table is 140, by default
    b | c: fails 152 (M2): b against c in the second table is 152"""),
    ("S[a,b] | S[e,c]\na | e : undecided", """\
S[a,b] | S[e,c]: undecided (M5, M14)
  a | e: undecided (M2): a against e in the first table is undecided
  b | c: fails 140 (M2): b against c in the first table is 140, by default
    c isn't emptiable (E1): the walk ends (M13)
  a failure after an undecided item is undecided (M14)"""),
    ("a(0,1) | C[b,c]\na | b : undecided", """\
a(0,1) | C[b,c]: undecided (M7)
  first reading, a(0,1) in a choice of its own: C(0,1)[a] | C[b,c]: fails 106 (M5): choice, \
choice: the range isn't within the base's: (0,1) isn't within (1,1)
  second reading: a(0,1) | C[b,c]: undecided (M7, M15)
    a(0,1) | b: undecided (M2): a against b in the first table is undecided
    a(0,1) | c: fails 140 (M2): a against c in the first table is 140, by default
  neither reading passes, and one is undecided (M7)"""),
    ("S[a,b] | S[e]\na | e : undecided", """\
S[a,b] | e: undecided (M8)
  the base's e in a sequence of its own: S[a,b] | S[e]: undecided (M5, M14)
    a | e: undecided (M2): a against e in the first table is undecided
    fails 120: b is left; a failure after an undecided item is undecided (M14)"""),
    ("S(2,2)[C[a,a]] | C(2,2)[a,a,b]", """\
C(2,2)[a,a] | C(2,2)[a,a,b]: passes (M5)
  a | a: passes (M2): ok in both tables
  a | a: passes (M2): ok in both tables
  b is left over: the walk is lax (M13)"""),
    ("a(0,0) | S[b(0,1)]", """\
a(0,0) | b(0,1): passes (M1): the derived tree may not occur, and the base tree is emptiable"""),
]

# A paper, and the words that fit its mark.
FITTED = [
    ("a | S(0,0)[a]", "sequence, sequence: the range isn't within the base's: (1,1) isn't within "
     "(0,0), at S[a] | S(0,0)[a], with a in a sequence of its own (docs/KEY.md, M5, M7)"),
    ("a | C(0,0)[a]", "choice, choice: the range isn't within the base's: (1,1) isn't within "
     "(0,0), at C[a] | C(0,0)[a], with a in a choice of its own (docs/KEY.md, M5, M7)"),
    ("S[a,b] | a", "ordered walk: a derived item is left and the base items are used up: b is "
     "left, at S[a,b] | S[a], with the base's a in a sequence of its own "
     "(docs/KEY.md, M5, M13, M8)"),
    ("a | S[a,b]", "ordered walk: a base item is left over that isn't emptiable: b is left over, "
     "at S[a] | S[a,b], with a in a sequence of its own (docs/KEY.md, M5, M13, M7)"),
    ("S[a,b] | S[a,c,b]", "b against c in the first table is 140, by default, at b | c "
     "(docs/KEY.md, M2)"),
    ("a | b\na | b : first ok, second 148", "a against b in the second table is 148, at a | b "
     "(docs/KEY.md, M2)"),
    ("a | w", "a against w in the second table is 140, by default, at a | w (docs/KEY.md, M3)"),
    ("S[b,A[a]] | S[b,a]", "the element a meets the all-group A[a], at A[a] | a "
     "(docs/KEY.md, M12, M14)"),
    ("S[a,b] | S[a,c]\nb | c : first ok, second undecided",
     "b against c in the second table is undecided, at b | c (docs/KEY.md, M2, M14)"),
    ("S[a,b(0,2)] | S[a,b(0,1)]", "ordered walk: a derived item is left and the base items are "
     "used up: b(0,2) is left, at S[a,b(0,2)] | S[a,b(0,1)], after skipping b(0,1) (124) "
     "(docs/KEY.md, M5, M13)"),
    ("S[a,b(1,2)] | S[a,b(0,1),c]", "b against c in the first table is 140, by default, at "
     "b(1,2) | c, after skipping b(0,1) (124) (docs/KEY.md, M2, M13)"),
    ("S[a,x] | S[a,b(0,1),c(0,1),d(0,1),e(0,1),f]", "x against f in the first table is 140, by "
     "default, at x | f, after skipping c(0,1) (140), d(0,1) (140), e(0,1) (140) and 1 more "
     "(docs/KEY.md, M2, M13)"),
    ("C[a,b] | C[b,a]", "ordered walk: a derived item is left and the base items are used up: b is "
     "left, at C[a,b] | C[b,a], after skipping b (140) (docs/KEY.md, M5, M13)"),
    ("a(0,1) | S(1,2)[b]\na | b : undecided", "a against b in the first table is undecided, at "
     "a(0,1) | b (docs/KEY.md, M2, M14, M7)"),
    ("S(0,*)[] | C(0,3)[a,b]", "sequence, choice: the pair times the item count isn't within the "
     "base pair: (0,*) isn't within (0,3); unbounded stays unbounded even for 0 items, at "
     "S(0,*)[] | C(0,3)[a,b] (docs/KEY.md, M10)"),
    ("a | C[b,c]", "ordered walk: a derived item is left and the base items are used up: a is "
     "left, at C[a] | C[b,c], with a in a choice of its own, after skipping b (140), c (140) "
     "(docs/KEY.md, M5, M13, M7)"),
    ("S[a,b] | C(2,2)[a,c]\nb | c : undecided", "b against c in the first table is undecided, "
     "at b | c (docs/KEY.md, M2, M15, M14)"),
]


def subject_of(text):
    return read(text).subject(None)


def judged(text):
    subject = subject_of(text)
    return subject, Judge(subject).whole()


@needs_marker
class SameAsTheProgram(unittest.TestCase):
    COUNT = 3000

    def check_marks(self, texts):
        """The whole mark of each paper; the marks are counted."""
        found = [judged(text) for text in texts]
        given = marker.mark_many([layout.encode(subject.sheet) for subject, _ in found])
        for text, (_, node), mark in zip(texts, found, given):
            self.assertEqual(node.mark, mark, text)
            self.assertEqual({step.node.mark for step in path(node)}, {mark}, text)
        return Counter(map(str, given))

    def test_examples(self):
        examples = EXAMPLES + SETTLED + MAY_NOT_OCCUR
        self.check_marks([f"{trees}\n{statement}" for trees, statement, _ in examples])
        for trees, statement, mark in examples:
            self.assertEqual(str(judged(f"{trees}\n{statement}")[1].mark), mark)

    def test_every_reason(self):
        self.check_marks([*BY_REASON.values(), *(text for text, _ in NOT_SHOWN.values())])

    def test_random_papers(self):
        """Whatever they are, and such as nearly pass."""
        counts = self.check_marks([paper_text(random_sheet(seed, records=100))
                                   for seed in range(self.COUNT)])
        near = self.check_marks([paper_text(near_sheet(seed)) for seed in range(self.COUNT)])
        # Papers that never came far would show little.
        self.assertGreater(near["passes"], self.COUNT // 5)
        self.assertGreater(near["undecided"], self.COUNT // 20)
        shown = {f"fails {reason}" for reason in [*BY_REASON, *SET_REASONS]}
        self.assertEqual(shown - {*counts, *near}, set())

    def test_every_judgement(self):
        """The mark in each line is the program's mark of the two particles, where
        tidying would leave them alone."""
        sheets, nodes = [], []
        for seed in range(self.COUNT // 4):
            subject, node = judged(paper_text(near_sheet(seed)))
            for below in set_apart(node):
                if is_a_paper(below):
                    sheets.append(layout.encode(subject.sheet._replace(
                        derived=below.derived, base=below.base)))
                    nodes.append(below)
        self.assertGreater(len(nodes), self.COUNT)
        for node, mark in zip(nodes, marker.mark_many(sheets)):
            self.assertEqual(node.mark, mark)


def set_apart(node, seen=None):
    """Every judgement below one, and itself."""
    seen = {} if seen is None else seen
    if id(node) not in seen:
        seen[id(node)] = node
        for step in node.outcome.steps:
            if step.node:
                set_apart(step.node, seen)
    return list(seen.values())


def is_a_paper(node):
    """Whether the two particles alone would be judged as they are here: the rule
    is that of their kinds, and neither tidying nor the early pass comes before."""
    of_two = node.between == " | "
    second_reading = node.rule == "M7" and (
        not node.outcome.steps or not node.outcome.steps[0].wrapped)
    tidied = tidy(node.derived) == node.derived and tidy(node.base) == node.base
    return of_two and not second_reading and tidied and node.derived.maximum != 0


class Lines(unittest.TestCase):
    def test_lines(self):
        for text, shown in SHOWN:
            with self.subTest(text=text):
                self.assertEqual("\n".join(lines(*judged(text))), shown)

    def test_the_path(self):
        for text, shown in SHOWN:
            every = lines(*judged(text))
            subject, node = judged(text)
            short = short_lines(subject, node)
            self.assertEqual([line for line in every if line in short], short)
            self.assertEqual(len(short), 1 if node.mark.word == "passes" else len(path(node)))

    def test_what_turns_up_again_is_not_repeated(self):
        subject, node = judged("S[S(0,2)[a,b],S(0,2)[a,b]] | S[S(0,2)[a,b],S(0,2)[a,b]]")
        found = lines(subject, node)
        self.assertEqual(found[4], f"{found[1]}: as above")
        self.assertEqual(len(found), 5)

    def test_long_particles_are_cut(self):
        subject, node = judged(f"S[{','.join('a' * 500)}] | S[{','.join('a' * 500)}]")
        found = lines(subject, node)
        self.assertLess(max(map(len, found)), 200)
        self.assertEqual(len(found), 501)

    def test_items_of_long_groups_have_numbers(self):
        ten = ",".join("abcdefghij")
        subject, node = judged(f"S[{ten}] | S[{ten.replace('e', 'k(0,1),e(2,2)')}]")
        self.assertEqual(lines(subject, node)[6:], [
            "    k(0,1) is emptiable (E1): it is skipped (M13)",
            "  item 5 on item 6: e | e(2,2): fails 122 (M2): element, element: the minimum is below "
            "the base's: 1 is below 2",
            "    e(2,2) isn't emptiable (E1): the walk ends (M13)"])
        subject, node = judged(f"S[{ten}] | w(0,*)\n{ten} | w : ok")
        self.assertEqual(lines(subject, node)[10],
                         "  item 10: j | w(0,*): passes (M3): j against w in the second table is ok")

    def test_words_that_fit(self):
        for text, words in FITTED:
            with self.subTest(text=text):
                self.assertEqual(str(Words(*judged(text))), words)

    def test_rules_stand_in_the_key(self):
        known = set(re.findall(r"^\| ([A-Z][0-9]+) ", KEY.read_text(encoding="utf-8"),
                               re.MULTILINE))
        for seed in range(300):
            subject, node = judged(paper_text(near_sheet(seed)))
            said = "\n".join([*lines(subject, node), str(Words(subject, node))])
            cited = set(re.findall(r"\b[A-Z][0-9]+\b", said))
            self.assertEqual(cited - known, set())

    def test_the_reason_is_named_once(self):
        """The words that fit begin as docs/KEY.md's do, or name a table."""
        for reason, text in BY_REASON.items():
            words = str(Words(*judged(text)))
            self.assertTrue(words.startswith(REASONS[reason][0]), words)


@needs_marker
class Uses(Command):
    def test_why(self):
        text, shown = SHOWN[0]
        first = "passes: the derived tree restricts the base tree\n"
        self.check(run("why", data=text.encode()), 0, f"{first}{shown}\n".encode(), "")

    def test_tidied_trees_are_shown(self):
        done = run("why", data=b"S[S[a],b(0,0)] | a")
        self.assertIn(b"\nthe derived tree tidied (D1 to D6): a\na | a: passes", done.stdout)

    def test_no_early_pass(self):
        done = run("why", data=b"a(0,0) | a")
        self.assertIn(b"\nno early pass (M1): the base tree may occur, and isn't emptiable\n",
                      done.stdout)

    @needs_joiner
    def test_a_chain(self):
        done = run("why", data=b"S[a,b] | S[a] + - + b")
        self.assertIn(b"\nthe base's chain joined (L4): S[S[a],b]\n"
                      b"the base tree tidied (D1 to D6): S[a,b]\nS[a,b] | S[a,b]: passes (M5)\n",
                      done.stdout)

    def test_short(self):
        done = run("why", "--short", SAMPLES / "rounds.paper")
        self.assertEqual(done.stdout.count(b"\n"), 2, done.stdout)

    @needs_joiner
    @needs_filler
    @needs_table_filler
    def test_every_sample(self):
        for file in sorted(SAMPLES.glob("*.paper")):
            done = run("why", file)
            self.assertEqual((done.returncode, done.stderr), (0, b""))


if __name__ == "__main__":
    unittest.main()
