"""The command as it is run: what it prints, where, and its exit status."""

import os
import pty
import re
import subprocess
import unittest

import layout
import marker
from draft import parse
from printed import paper_text
from support import (
    ROOT, SAMPLES, Command, needs_describer, needs_every_program, needs_filler, needs_joiner,
    needs_marker, needs_table_filler, random_paper, random_sheet, run,
)
from usage import GRAMMAR, USES
from words import NEVER_SHOWN, REASONS, REFUSALS, in_words

README = ROOT / "tools" / "README.md"
KEY = ROOT / "docs" / "KEY.md"
SMALLEST = SAMPLES / "smallest.sheet"

# Document 01, 'Examples', as document 02 changes them: derived and base tree, a
# statement, the mark.
EXAMPLES = [
    ("a | a(0,1)", "", "passes"),
    ("a(0,1) | a", "", "fails 122"),
    ("S[a,b] | S[a,c(0,1),b]", "", "passes"),
    ("S[a,b] | S[a,c,b]", "", "fails 140"),
    ("a | S(0,0)[a]", "", "fails 105"),
    ("C[] | C[a,b]", "", "passes"),
    ("S(2,2)[a,b] | C(4,4)[a,b]", "", "passes"),
    ("S(2,2)[a,b] | C(1,3)[a,b]", "", "fails 116"),
    ("S[a,b] | w(0,1)", "", "fails 113"),
    ("a | A[a]", "", "undecided"),
    ("S(0,0)[a] | a", "", "fails 105"),
    ("S[a,b] | S[e,c]", "a | e : undecided", "undecided"),
]

# Places where document 01 could be read in two ways; the Rust decided.
SETTLED = [
    ("S(0,1)[w] | A(0,1)[]", "", "fails 119"),
    ("a(0,0) | C(2,2)[w(0,0),w(2,2)]", "", "fails 106"),
    ("a(0,1) | S(0,0)[a]", "", "fails 105"),
    ("a | S(0,1)[w(2,2),b(0,*)]", "a | w : ok", "fails 101"),
    ("a | a(0,0)", "a | a : first undecided", "undecided"),
    ("S(0,*)[] | C(0,1)[]", "", "fails 116"),
    ("A(0,1)[a(0,1),b(0,*)] | A(0,1)[b(0,*),a(0,1)]", "a, b : name 3", "fails 140"),
    ("C[a,C[]] | a", "", "passes"),
]

# A base group of maximum 0 lets no element through (document 02 §5), whatever is
# undecided; only an element of maximum 0 passes, by the rule before all others.
# Below the root, tidying drops such a group.
MAY_NOT_OCCUR = [
    ("a | C(0,0)[a]", "", "fails 106"),
    ("a(0,0) | S(0,0)[a]", "", "passes"),
    ("a(0,0) | C(0,0)[a]", "", "passes"),
    ("a | S(0,0)[b]", "a | b : first undecided", "fails 105"),
    ("a | S(0,0)[a]", "a | a : second undecided", "fails 105"),
    ("a | C(0,0)[b,c]", "a | b : undecided", "fails 106"),
    ("a(0,*) | S(0,0)[a(0,*)]", "", "fails 105"),
    ("S[a] | S(0,0)[a]", "", "fails 105"),
    ("a | S(0,0)[C[a,b]]", "", "fails 106"),
    ("a | S[S(0,0)[a],a]", "", "passes"),
]

# A paper for each reason that a mark shows and the paper does not set.
BY_REASON = {
    101: "a(0,*) | w", 102: "w | a", 103: "w(0,*) | w", 104: "w | w1\nw1 : strict",
    105: "S(0,*)[a,b] | S[a,b]", 106: "C(0,*)[a,b] | C[a,b]", 107: "A(0,1)[a] | A[a]",
    108: "A[a,b] | A[a]", 109: "A[a] | A[a,b]", 113: "S[a,b] | w(0,1)", 114: "w | S[a,b]",
    115: "A[a] | S[a,b]", 116: "S(2,2)[a,b] | C(1,3)[a,b]", 117: "S[a,b] | C(2,2)[a,c]",
    118: "S(0,1)[a,b] | A[a,b]", 119: "S[w,a] | A[a]", 120: "S[a,b] | S[a]",
    121: "S[a,b] | S[a,b,c]", 122: "a(0,1) | a", 123: "a(1,*) | a", 124: "a(1,2) | a",
}

# For each of the other reasons a paper whose second reading fails by it, and the
# reason that the mark shows.
NOT_SHOWN = {
    110: ("a | S(2,2)[a]", 105), 111: ("a | C[b,c]", 120), 112: ("a | C(2,2)[a,b]", 106),
    125: ("a | S(0,0)[a]", 105),
}

SAMPLE_MARKS = {
    "entry": "passes", "never": "fails 105", "results": "undecided", "rounds": "fails 105",
    "season": "passes",
}
# Of papers whose base is a chain.
CHAIN_MARKS = {"report": "passes"}
# Of papers that have types, and of papers that have their own table of types.
TYPE_MARKS = {"types": "passes"}
TABLE_MARKS = {"titles": "passes"}


class Writing(Command):
    def test_to_standard_output(self):
        self.check(run("write", data=b"a | a(0,1)"), 0, SMALLEST.read_bytes(), "")
        self.check(run("write", "-", data=b"a | a(0,1)"), 0, SMALLEST.read_bytes(), "")

    def test_to_a_file(self):
        paper, out = self.folder / "p", self.folder / "s"
        paper.write_text("a | a(0,1)\n")
        self.check(run("write", paper, "-o", out), 0, b"", "")
        self.assertEqual(out.read_bytes(), SMALLEST.read_bytes())

    def test_not_to_a_terminal(self):
        master, slave = pty.openpty()
        done = run("write", data=b"a | a", stdout=slave)
        os.close(slave)
        os.close(master)
        self.check(done, 2, None, "give -o SHEET")

    def test_wrong_notation_writes_no_file(self):
        out = self.folder / "s"
        report = "<stdin>:1:5: expected '(', ']' or ',', found 'b'\n  S[a b] | a\n      ^\n"
        self.check(run("write", "-o", out, data=b"S[a b] | a"), 1, b"", report)
        self.assertFalse(out.exists())

    def test_text_with_a_byte_order_mark(self):
        self.check(run("write", data=b"\xef\xbb\xbfa | a(0,1)"), 0, SMALLEST.read_bytes(), "")

    def test_text_in_another_encoding(self):
        done = run("write", data=b"\xef\xbb\xbf# \xc3\xa9\na \xff | a")
        self.check(done, 1, b"", "<stdin>:2:3: expected text in UTF-8, found byte 255")

    def test_files_that_fail(self):
        missing = self.folder / "missing"
        for words in (("write", missing), ("read", missing), ("mark", missing),
                      ("write", "-o", missing / "s")):
            self.check(run(*words, data=b"a | a"), 2, b"", "missing")

    def test_bad_usage(self):
        for words in ((), ("sing",), ("read", "a", "b"), ("read", "-o", "x"), ("item",),
                      ("item", "x"), ("item", "-1"), ("item", "65536"), ("mark", "--short")):
            self.check(run(*words), 2, b"", "usage: tools/paper")


class Reading(Command):
    MISSING = "run `tools/build marker`"

    def test_without_the_marking_program(self):
        missing = self.folder / "missing"
        self.check(run("read", SMALLEST, program=missing), 2, b"a | a(0,1)\n", self.MISSING)
        self.check(run("mark", data=b"a | a", program=missing), 2, b"", self.MISSING)
        refused = run("read", data=b"", program=missing)
        self.assertTrue(refused.stdout.startswith(b"# refused 1: "))
        self.check(refused, 2, refused.stdout, self.MISSING)

    def test_programs_that_give_no_mark(self):
        for answer in ("", "passes", "fails 7\\nfails 7\\n"):
            done = run("mark", data=b"a | a", program=self.program(answer))
            self.check(done, 2, b"", "gives no mark")
        done = run("mark", data=b"a | a", program=self.program("passes\\n", status=3))
        self.check(done, 2, b"", "gives no mark: exit status 3")
        text = self.folder / "text"
        text.write_text("no program")
        self.check(run("mark", data=b"a | a", program=text), 2, b"", "does not run")

    def test_a_program_that_differs(self):
        done = run("mark", data=b"a | a", program=self.program("refused 4\\n"))
        self.check(done, 1, b"", "the sheet is accepted by this aid, refused 4 by the marking")
        done = run("read", data=b"", program=self.program("refused 3\\n"))
        self.check(done, 1, done.stdout, "refused 1 by this aid, refused 3 by the marking program")

    def test_the_answer_in_words(self):
        done = run("mark", data=b"a | a", program=self.program("passes\\n"))
        self.check(done, 0, b"passes: the derived tree restricts the base tree\n", "")
        sheet = layout.encode(parse("a(0,1) | a"))
        done = run("read", data=sheet, program=self.program("fails 122\\n"))
        words = (b"# fails 122: element, element: the minimum is below the base's: 0 is below 1, "
                 b"at a(0,1) | a (docs/KEY.md, M2)\n")
        self.check(done, 0, b"a(0,1) | a\n" + words, "")

    def test_another_mark(self):
        """The mark is the program's; this aid has no reasons for it, and says so."""
        said = "THE MARKS DIFFER: passes by this aid's reading of the rules, fails 152 by the"
        for use in ("mark", "why"):
            done = run(use, data=b"a | a", program=self.program("fails 152\\n"))
            self.check(done, 1, b"fails 152: a reason that the paper sets\n", said)
        done = run("read", SMALLEST, program=self.program("fails 152\\n"))
        self.check(done, 1, b"a | a(0,1)\n# fails 152: a reason that the paper sets\n", said)

    def test_refused(self):
        done = run("read", data=SMALLEST.read_bytes() + b"\n", program=self.program("refused 1\\n"))
        self.check(done, 1, done.stdout, "")
        size = SMALLEST.stat().st_size
        said = f"\n# there are {size + 1} bytes, the counts make {size}\n"
        self.assertIn(said, done.stdout.decode())

    def test_refused_zero_byte(self):
        sheet = bytearray(layout.encode(parse("S[a] | a")))
        place = layout.places(layout.contents_of(sheet)).derived
        sheet[place + layout.RECORD_AT.zeros] = 9
        done = run("read", data=bytes(sheet), program=self.program("refused 10\\n"))
        self.check(done, 1, done.stdout, "")
        self.assertIn(f"\n# record 0 (from 0) of the derived tree, at byte {place}: "
                      f"byte {layout.RECORD_AT.zeros} (from 0) of the record is 9, not 0\n",
                      done.stdout.decode())


class OtherVerbs(Command):
    """A sheet where a paper is expected, and the other way round."""

    def test_a_sheet_is_no_paper(self):
        for use in ("mark", "why", "write", "join", "total", "emptiable", "tidy", "types"):
            self.check(run(use, SMALLEST), 1, b"", f"use `tools/paper read {SMALLEST}`")
        self.check(run("mark", data=SMALLEST.read_bytes()), 1, b"", "use `tools/paper read`")

    def test_a_paper_is_no_sheet(self):
        paper = SAMPLES / "never.paper"
        missing = self.folder / "missing"
        self.check(run("read", paper, program=missing), 1, b"", f"use `tools/paper mark {paper}`")


class Words(unittest.TestCase):
    def test_every_number_has_words(self):
        self.assertEqual(list(REASONS), list(range(101, 126)))
        self.assertEqual(sorted(REFUSALS), list(range(1, 19)))
        for number in range(140, 153):
            self.assertEqual(in_words("fails", number), "a reason that the paper sets")

    def test_words_say_which_reasons_no_mark_shows(self):
        said = {number for number, (words, _) in REASONS.items() if NEVER_SHOWN in words}
        self.assertEqual(said, set(NOT_SHOWN))

    def test_words_are_those_of_the_key(self):
        rows = KEY.read_text(encoding="utf-8").splitlines()
        for number, (words, rules) in [*REASONS.items(), *REFUSALS.items()]:
            row = f"| {number} | {words} | {rules} |"
            # Without the whole key in the message.
            self.assertTrue(row in rows, row)

    def test_rules_stand_in_the_key(self):
        key = KEY.read_text(encoding="utf-8")
        known = set(re.findall(r"^(?:\| |## )(\w+)", key, re.MULTILINE))
        for _, rules in [*REASONS.values(), *REFUSALS.values()]:
            for rule in rules.split(", "):
                self.assertIn(rule, known)


@needs_marker
class Marks(Command):
    COUNT = 1000

    def test_examples(self):
        for trees, statement, mark in EXAMPLES + SETTLED + MAY_NOT_OCCUR:
            with self.subTest(trees=trees, statement=statement):
                done = run("mark", data=f"{trees}\n{statement}\n".encode())
                self.assertEqual(done.stdout.decode().split(":")[0], mark, done.stderr)

    def test_every_reason(self):
        self.assertEqual(set(REASONS) - set(BY_REASON), set(NOT_SHOWN))
        by_reason = [*BY_REASON.items(), *((shown, text) for text, shown in NOT_SHOWN.values())]
        for reason, text in by_reason:
            given = marker.mark(layout.encode(parse(text)))
            self.assertEqual(given, marker.Mark("fails", reason), text)

    def check_samples(self, marks):
        for name, mark in marks.items():
            with self.subTest(name=name):
                done = run("mark", SAMPLES / f"{name}.paper")
                self.assertEqual(done.stdout.decode().split(":")[0], mark, done.stderr)

    def test_samples(self):
        self.assertEqual({*SAMPLE_MARKS, *CHAIN_MARKS, *TYPE_MARKS, *TABLE_MARKS},
                         {file.stem for file in SAMPLES.glob("*.paper")})
        self.check_samples(SAMPLE_MARKS)

    @needs_joiner
    def test_samples_with_chains(self):
        self.check_samples(CHAIN_MARKS)

    @needs_filler
    def test_samples_with_types(self):
        self.check_samples(TYPE_MARKS)

    @needs_table_filler
    def test_samples_with_tables_of_types(self):
        self.check_samples(TABLE_MARKS)

    def test_longest(self):
        """The longest marking that we know (docs/BENCHMARK.md)."""
        data = (SAMPLES / "longest.sheet").read_bytes()
        self.assertEqual(marker.mark(data), marker.Mark("passes", None))

    def test_reading_ends_in_the_mark(self):
        words = b"# passes: the derived tree restricts the base tree\n"
        self.check(run("read", SMALLEST), 0, b"a | a(0,1)\n" + words, "")

    def test_what_is_written_is_never_refused(self):
        for seed in range(self.COUNT):
            few_leaves = random_sheet(seed, leaves=6)
            for text in (random_paper(seed, few_leaves), paper_text(random_sheet(seed))):
                with self.subTest(seed=seed):
                    given = marker.mark(layout.encode(parse(text)))
                    self.assertNotEqual(given.word, "refused")


class Documents(unittest.TestCase):
    def test_the_grammar_is_the_same_everywhere(self):
        readme = README.read_text(encoding="utf-8")
        for line in GRAMMAR.splitlines():
            self.assertIn(f"    {line}\n" if line else "\n", readme)

    def test_the_uses_are_the_same_everywhere(self):
        readme = README.read_text(encoding="utf-8")
        for use, words in USES.items():
            self.assertRegex(readme, rf"    tools/paper {use} .*  {re.escape(words)}\n")

    @needs_marker
    @needs_joiner
    @needs_describer
    @needs_filler
    @needs_table_filler
    def test_the_first_page_says_what_happens(self):
        """What README.md says of the lines that its commands print."""
        page = (ROOT / "README.md").read_text(encoding="utf-8")
        for command in ("echo 'S[a,b] | S[a,c,b]' | tools/paper mark", "tools/paper mark samples",
                        r"printf 'a | b\na | b : first ok\na : type decimal\nb : type integer\n' "
                        "| tools/paper mark",
                        "echo 'S[a,b] + - + c(0,1)' | tools/paper join",
                        "echo 'S(0,65536)[a(65536,65536)]' | tools/paper total"):
            with self.subTest(command=command):
                self.assertIn(f"    {command}\n", page)
                done = subprocess.run(["bash", "-c", command], cwd=ROOT, check=False,
                                      capture_output=True)
                self.assertIn(f"`{done.stdout.decode().splitlines()[-1]}`", page)

    @needs_every_program
    def test_the_readme_says_what_happens(self):
        """Each command after a $, and the output below it."""
        readme = README.read_text(encoding="utf-8")
        blocks = re.findall(r"^    \$ (.*)\n((?:    (?!\$).*\n)*)", readme, re.MULTILINE)
        self.assertGreater(len(blocks), 3)
        for command, output in blocks:
            with self.subTest(command=command):
                done = subprocess.run(["bash", "-c", command], cwd=ROOT, stdout=subprocess.PIPE,
                                      stderr=subprocess.STDOUT, check=False)
                indented = re.sub("^", "    ", done.stdout.decode(), flags=re.MULTILINE)
                self.assertEqual(indented.rstrip(" "), output)


if __name__ == "__main__":
    unittest.main()
