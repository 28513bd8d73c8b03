"""Filling: the program held to this aid's own reading, the command over programs
that lie, refuse or are missing, and papers with types among many."""

import csv
import io
import random
import unittest

import filler
import filling
import layout
import marker
from draft import parse
from proved import FILL, MARKER, TIDY
from refusals import Refused
from sheet import MOST_LEAVES, UNDECIDED, Kind, usual_leaf
from support import (
    SAMPLES, Command, largest_sheet, needs_filler, needs_marker, needs_tidier, octal, random_sheet,
    run,
)
from test_refusals import SHEET, SPOILED, changed
from test_types import COUNT_OK, FIRST_OK, random_typed, random_types


def every_pair():
    """A sheet with an element for each type, all undecided, and the types."""
    leaves = [usual_leaf(Kind.ELEMENT, place) for place in range(50)]
    table = [[UNDECIDED] * 50 for _ in leaves]
    return largest_sheet()._replace(leaves=leaves, first=table, second=table), list(range(50))


@needs_filler
class SameAsTheProgram(unittest.TestCase):
    COUNT = 500

    def check(self, sheet, types):
        here = filling.fill(sheet, types)
        self.assertEqual(filler.fill(sheet, types), layout.encode(here))
        return here

    def test_random_sheets(self):
        for seed in range(self.COUNT):
            with self.subTest(seed=seed):
                sheet = random_sheet(seed)
                self.check(sheet, random_types(random.Random(seed), sheet.leaves))

    def test_every_verdict(self):
        filled = self.check(*every_pair())
        self.assertEqual(sum(row.count(0) for row in filled.second), COUNT_OK)
        self.assertEqual(sum(row.count(148) for row in filled.second), 50 * 50 - COUNT_OK)
        self.assertEqual({verdict for row in filled.first for verdict in row}, {UNDECIDED})

    def test_the_largest_sheet(self):
        sheet = largest_sheet()._replace(second=[[UNDECIDED] * MOST_LEAVES] * MOST_LEAVES)
        self.check(sheet, [number % 50 for number in range(MOST_LEAVES)])

    def test_refused(self):
        sheet = parse("S[a,b] | w\na | b : second undecided")
        self.check(sheet, [49, 49, 255])
        for types in ([], [34, 4], [34, 4, 0, 0], [50, 4, 0], [34, 255, 0], [34] * 300):
            with self.assertRaises(Refused) as raised:
                filler.fill(sheet, types)
            self.assertEqual(raised.exception.number, 17)
        # An element's is read where nothing is undecided, too.
        with self.assertRaises(Refused):
            filler.fill(parse("a | a"), [50])

    def test_the_sheet_is_refused_first(self):
        """By the marking program's numbers, though there is no type for a leaf."""
        damaged = [(changed(SHEET, changes), number) for changes, number, _ in SPOILED]
        for data, number in [*damaged, (b"", 1), (SHEET[:-1], 1), (SHEET + b"\0", 1), (SHEET, 17)]:
            done = FILL.run(layout.encode_filling([], data))
            self.assertEqual((done.stdout, done.stderr), (b"", f"refused {number}\n".encode()))

    def test_input_that_is_cut_off_or_too_long(self):
        most = layout.encode_filling([0] * 65535, SHEET)
        for data, number in ((b"", 1), (b"\0", 1), (b"\5\0\0\0", 1), (most[:-1], 1), (most, 17),
                             (most + bytes(100000), 1)):
            done = FILL.run(data)
            self.assertEqual((done.stdout, done.stderr), (b"", f"refused {number}\n".encode()))


class Uses(Command):
    """The command, over a program that answers as it is told."""

    TEXT = f"{FIRST_OK}c : type string\nd : type decimal\n"
    FILLED = layout.encode(parse(TEXT))
    # Where the second table has c against d.
    AT = layout.places(layout.contents_of(FILLED)).second + 1

    def fill(self, use, answer=FILLED, message="", status=0, text=TEXT):
        return run(use, data=text.encode(), filler=self.program(octal(answer), status, message))

    def other(self, at, byte):
        return self.FILLED[:at] + bytes([byte]) + self.FILLED[at + 1:]

    def test_write(self):
        self.assertEqual(self.FILLED[self.AT], 148)
        self.check(self.fill("write"), 0, self.FILLED, "")

    def test_a_program_that_differs(self):
        """Whatever byte it is, and whatever the command would go on to do."""
        here, first, size = f"148 at byte {self.AT}", self.AT - 4, len(self.FILLED)
        for answer, said in (
            (self.other(self.AT, 0), f"{here} by this aid, 0 at byte {self.AT}"),
            (self.other(self.AT, 1), f"{here} by this aid, 1 at byte {self.AT}"),
            (self.other(first, 140), f"0 at byte {first} by this aid, 140 at byte {first}"),
            (self.FILLED[:-1], f"of {size} bytes by this aid, of {size - 1} bytes"),
            (self.FILLED + b"\0", f"of {size} bytes by this aid, of {size + 1} bytes"),
        ):
            for use in ("mark", "why", "write"):
                self.check(self.fill(use, answer), 1, b"",
                           f"the filled sheet is {said} by the filling program\n")

    def test_a_program_that_refuses(self):
        said = f"of {len(self.FILLED)} bytes by this aid, refused 17 by the filling program"
        self.check(self.fill("mark", b"", "refused 17\\n"), 1, b"", f"the filled sheet is {said}")

    @needs_tidier
    def test_another_proved_program(self):
        done = run("mark", data=self.TEXT.encode(), filler=TIDY.path())
        self.check(done, 1, b"", "by this aid, refused ")

    def test_programs_that_give_no_sheet(self):
        for answer, message, status in ((b"", "", 0), (b"", "no\\n", 0), (self.FILLED, "a\\n", 0),
                                        (self.FILLED, "", 3)):
            done = self.fill("mark", answer, message, status)
            self.check(done, 2, b"", "no filled sheet: the filling program")
            self.assertIn(f"gives no sheet: exit status {status}", done.stderr.decode())

    def test_without_the_program(self):
        missing = self.folder / "missing"
        for use in ("mark", "why", "write"):
            done = run(use, data=self.TEXT.encode(), filler=missing)
            self.check(done, 2, b"", "missing: run `tools/build fill`")

    def test_a_paper_without_types_needs_no_program(self):
        done = run("write", data=FIRST_OK.encode(), filler=self.folder / "missing")
        self.check(done, 0, layout.encode(parse(FIRST_OK)), "")

    def test_uses_for_trees_only_check_the_lines(self):
        missing = self.folder / "missing"
        for use in (["join"], ["total"], ["emptiable"], ["tidy"], ["item", "0"]):
            plain, typed = (run(*use, data=text.encode(), filler=missing)
                            for text in (FIRST_OK, self.TEXT))
            given = typed.stdout.replace(b"c : type string\nd : type decimal\n", b"")
            self.assertEqual((typed.returncode, given, typed.stderr),
                             (plain.returncode, plain.stdout, plain.stderr))
            done = run(*use, data=self.TEXT.replace("string", "String").encode(), filler=missing)
            self.check(done, 1, b"", "<stdin>:3:10: expected a built-in type")


@needs_filler
@needs_marker
class Many(Command):
    def folder_of(self, count):
        """A folder of papers with types, random ones and one that fails by them, and
        their filled sheets."""
        papers = [random_typed(number)[:2] for number in range(count)]
        papers.append((Uses.TEXT, parse(Uses.TEXT)))
        for number, (text, _) in enumerate(papers):
            (self.folder / f"p{number:03}.paper").write_text(text)
        return [layout.encode(sheet) for _, sheet in papers]

    def test_typed_papers(self):
        """One run of the marking program, and one of the filling program for each."""
        count = 40
        marks = list(map(str, marker.mark_many(self.folder_of(count))))
        self.assertGreater(len(set(marks)), 5)
        (mark, marked), (fill, filled) = map(self.counting, (MARKER, FILL))
        done = run("mark", "--csv", self.folder, program=mark, filler=fill)
        self.assertEqual(done.returncode, 0)
        rows = list(csv.reader(io.StringIO(done.stdout.decode())))[1:]
        self.assertEqual([f"{row[3]} {row[4]}".strip() for row in rows], marks)
        typed = sum("type" in path.read_text() for path in self.folder.glob("*.paper"))
        self.assertEqual((len(marked.read_text()), len(filled.read_text())), (1, typed))
        self.assertGreater(typed, count // 2)
        self.assertEqual({row[5] for row in rows if "not derived" in row[6]}, {"M2 V2"})

    def test_beside_others(self):
        text = f"c | c\n\npaper : Anna\n{Uses.TEXT}\nc d\n\npaper : Bo\n{FIRST_OK}c, d : type 7\n"
        done = run("mark", data=text.encode())
        self.assertEqual(done.returncode, 1)
        found = done.stdout.decode().splitlines()
        self.assertEqual([line.split(":")[2] for line in found[:-1]],
                         [" passes", " fails 148", " wrong notation", " passes"])
        self.assertEqual(found[-1], "4 papers: 2 pass, 1 fails, 1 in wrong notation")

    def test_a_missing_program_leaves_the_others_their_marks(self):
        done = run("mark", data=f"c | c\n\n{Uses.TEXT}\nd | d\n".encode(), filler=self.folder / "x")
        self.assertEqual(done.returncode, 2)
        found = done.stdout.decode().splitlines()
        self.assertIn(":3: not read: no filled sheet: the filling program", found[1])
        self.assertEqual(found[-1], "3 papers: 2 pass, 1 not read")

    def test_a_program_that_differs_ends_all(self):
        other = self.program(octal(Uses.FILLED.replace(b"\x94", b"\0")))
        done = run("mark", data=f"c | c\n\npaper : Bo\n{Uses.TEXT}".encode(), filler=other)
        self.check(done, 1, b"", "<stdin>:3, Bo: the filled sheet is 148 at byte ")

    def test_the_sample(self):
        written = run("write", SAMPLES / "types.paper")
        text = run("read", data=written.stdout).stdout.decode()
        self.assertIn("b | e : ok\n", text)
        self.assertNotIn("type", text)
        self.assertEqual(layout.encode(parse(text)), written.stdout)


if __name__ == "__main__":
    unittest.main()
