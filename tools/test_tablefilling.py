"""Filling by tables of types that papers declare: the program held to this aid's
own reading, the command over programs that lie, refuse or are missing, and the use
`types`."""

import random
import unittest

import filler
import filling
import layout
import marker
import refusals
from draft import parse
from proved import FILL_BY, MARKER
from refusals import Refused
from sheet import MOST_LEAVES, UNDECIDED
from support import (
    SAMPLES, Command, largest_sheet, needs_filler, needs_marker, needs_table_filler, octal,
    random_sheet, run,
)
from test_filling import every_pair
from test_refusals import SHEET, SPOILED, changed
from test_types import FIRST_OK
from test_typetables import TITLES, random_declared, random_rows, table_by
from typenames import BUILTIN

CHAIN = [0, *range(199)]


def damaged_rows(seed):
    """A table of types in bytes with up to two rows changed, sometimes of another
    length."""
    rng = random.Random(seed)
    rows = random_rows(rng, rng.choice([2, 3, 10, 200]))
    for _ in range(rng.randint(0, 2)):
        row = rng.randrange(len(rows))
        rows[row] = rng.choice([0, 1, max(0, row - 1), row, min(255, row + 1), rng.randrange(256)])
    if rng.random() < 0.2:
        rows = rng.choice([[], rows * 40, rows + [0] * (200 - len(rows)), rows + [0] * 201])
    return bytes(rows)


@needs_table_filler
class SameAsTheProgram(unittest.TestCase):
    COUNT = 300

    def check(self, sheet, types, table):
        here = filling.fill(sheet, types, table)
        self.assertEqual(filler.fill(sheet, types, table), layout.encode(here))
        return here

    def refused(self, number, *given):
        done = FILL_BY.run(layout.encode_filling_by(*given))
        self.assertEqual((done.stdout, done.stderr), (b"", f"refused {number}\n".encode()))

    def test_random_tables(self):
        for seed in range(self.COUNT):
            with self.subTest(seed=seed):
                rng, sheet = random.Random(seed), random_sheet(seed)
                parents = random_rows(rng)
                types = [rng.randrange(256 if leaf.kind else len(parents)) for leaf in sheet.leaves]
                self.check(sheet, types, table_by(parents))

    def test_the_longest_chain(self):
        sheet = largest_sheet()._replace(second=[[UNDECIDED] * MOST_LEAVES] * MOST_LEAVES)
        for types in ([199 - 3 * n for n in range(MOST_LEAVES)], list(range(MOST_LEAVES)),
                      [199, 168, 167, 166, 2, 1, 0] * 9 + [199]):
            filled = self.check(sheet, types, table_by(CHAIN))
            for row, derived in enumerate(types):
                for column, base in enumerate(types):
                    self.assertEqual(filled.second[row][column],
                                     0 if derived >= base or base < 2 else 148)

    @needs_filler
    def test_the_built_in_list_as_a_table(self):
        sheet, types = every_pair()
        self.assertEqual(filler.fill(sheet, types, table_by(BUILTIN.parents)),
                         filler.fill(sheet, types))

    def test_a_table_of_one_row(self):
        """Every element has its type; there is no other."""
        self.check(parse("a | b\na | b : second undecided"), [0, 0], table_by([0]))
        self.refused(17, [0], [0, 1], layout.encode(parse("a | b")))

    def test_damaged_tables(self):
        """Refused 18 exactly where they are here, before whatever else is wrong."""
        seen = [0, 0]
        for seed in range(self.COUNT):
            rows = damaged_rows(seed)
            try:
                refusals.read_type_table(rows)
                number = 1
            except Refused as refused:
                number = refused.number
            seen[number == 18] += 1
            with self.subTest(seed=seed):
                self.refused(number, rows, [255], b"\7")
        self.assertGreater(min(seen), self.COUNT // 5)

    def test_the_order_of_refusals(self):
        """18, then the sheet's by the marking program's numbers, then 17."""
        sheet = layout.encode(parse("S[a,b] | w\na | b : second undecided"))
        damaged = [(changed(SHEET, changes), number) for changes, number, _ in SPOILED]
        for data, number in [*damaged, (b"", 1), (SHEET[:-1], 1), (sheet, 17)]:
            self.refused(number, [0, 0, 1], [], data)
            self.refused(18, [0, 0, 2], [], data)
        for types in ([], [2, 1], [2, 1, 0, 0], [3, 1, 0], [2, 255, 0]):
            self.refused(17, [0, 0, 1], types, sheet)
        for rows in ([], [1], [0, 1], [0, 0, 3], [0] * 201, [0] * 65535):
            self.refused(18, rows, [2, 1, 0], sheet)
        self.check(parse("S[a,b] | w"), [2, 1, 255], table_by([0, 0, 1]))

    def test_input_that_is_cut_off_or_too_long(self):
        """Rows that are cut off are 0; no input has no rows."""
        whole = layout.encode_filling_by([0, 0, 1], [2, 0], SHEET)
        for end in range(len(whole)):
            done = FILL_BY.run(whole[:end])
            said = b"refused 1\n" if end else b"refused 18\n"
            self.assertEqual((done.stdout, done.stderr), (b"", said))
        most, past = [0] * 65535, SHEET + bytes(100000)
        for number, *given in ((18, most, most, SHEET), (17, [0] * 200, most, SHEET),
                               (1, [0] * 200, most, past), (1, [0, 0], [0, 0], past)):
            self.refused(number, *given)


class Uses(Command):
    """The command, over a program that answers as it is told."""

    TEXT = f"{FIRST_OK}{TITLES}c : type title\nd : type GM\n"
    FILLED = layout.encode(parse(TEXT))
    # Where the second table has c against d.
    AT = layout.places(layout.contents_of(FILLED)).second + 1
    CALLED = "the program for filling by a table of types"

    def fill(self, use, answer=FILLED, message="", status=0, text=TEXT):
        return run(use, data=text.encode(), filler=self.folder / "missing",
                   table_filler=self.program(octal(answer), status, message))

    def test_write(self):
        self.assertEqual(self.FILLED[self.AT], 148)
        self.check(self.fill("write"), 0, self.FILLED, "")

    def test_a_program_that_differs(self):
        other = self.FILLED[:self.AT] + b"\0" + self.FILLED[self.AT + 1:]
        for use in ("mark", "why", "write"):
            self.check(self.fill(use, other), 1, b"", f"the filled sheet is 148 at byte {self.AT} "
                       f"by this aid, 0 at byte {self.AT} by {self.CALLED}\n")
        self.check(self.fill("mark", b"", "refused 18\\n"), 1, b"", f"refused 18 by {self.CALLED}")

    def test_programs_that_give_no_sheet(self):
        for answer, message, status in ((b"", "", 0), (b"", "no\\n", 0), (self.FILLED, "", 3)):
            done = self.fill("mark", answer, message, status)
            self.check(done, 2, b"", f"no filled sheet: {self.CALLED}")

    def test_without_the_program(self):
        missing = self.folder / "missing"
        done = run("write", data=self.TEXT.encode(), table_filler=missing)
        self.check(done, 2, b"", "missing: run `tools/build fill_by`")

    def test_what_needs_no_program(self):
        """Rows without types, and what asks for trees only."""
        missing = self.folder / "missing"
        for use in (["write"], ["join"], ["total"], ["emptiable"], ["tidy"], ["item", "0"]):
            plain, rows = (run(*use, data=text.encode(), filler=missing, table_filler=missing)
                           for text in (FIRST_OK, FIRST_OK + TITLES))
            given = rows.stdout.replace(TITLES.encode(), b"")
            self.assertEqual((rows.returncode, given, rows.stderr),
                             (plain.returncode, plain.stdout, plain.stderr))
            done = run(*use, data=f"{FIRST_OK}{TITLES}x < y".encode(), table_filler=missing)
            self.check(done, 1, b"", "<stdin>:5:5: row 5 (x): expected anyType")

    @needs_filler
    def test_built_in_types_need_it_as_little(self):
        text = f"{FIRST_OK}c, d : type token\n".encode()
        done = run("write", data=text, table_filler=self.folder / "missing")
        self.assertEqual((done.returncode, done.stderr), (0, b""))


@needs_marker
@needs_table_filler
class Many(Command):
    def test_papers_with_tables(self):
        """One run of the marking program, and one of the filling program for each."""
        papers = [random_declared(seed)[:2] for seed in range(25)]
        for number, (text, _) in enumerate(papers):
            (self.folder / f"p{number:03}.paper").write_text(text)
        (mark, marked), (fill, filled) = map(self.counting, (MARKER, FILL_BY))
        done = run("mark", self.folder, program=mark, table_filler=fill)
        self.assertEqual(done.returncode, 0)
        given = [line.split(": ")[1] for line in done.stdout.decode().splitlines()[:-1]]
        sheets = [layout.encode(sheet) for _, sheet in papers]
        self.assertEqual(given, list(map(str, marker.mark_many(sheets))))
        typed = sum(": type" in text for text, _ in papers)
        self.assertEqual((len(marked.read_text()), len(filled.read_text())), (1, typed))

    @needs_filler
    def test_each_paper_has_its_own(self):
        """A table holds for its paper only, and the next may have the built-in list."""
        text = (f"paper : Anna\n{Uses.TEXT}\npaper : Bo\n{FIRST_OK}c, d : type token\n\n"
                f"paper : Cy\n{FIRST_OK}c, d : type GM\n\npaper : Di\n{FIRST_OK}x < x\n")
        done = run("mark", data=text.encode())
        self.assertEqual(done.returncode, 1)
        anna, bo, cy, di, count = done.stdout.decode().splitlines()
        self.assertTrue(anna.endswith("title is not derived from GM, at c | d "
                                      "(docs/KEY.md, M2, V2, V6)"))
        self.assertIn("Bo: passes", bo)
        self.assertIn("Cy: wrong notation: 17:13: expected a built-in type", cy)
        self.assertIn("Di: wrong notation: 22:5: row 2 (x): expected anyType", di)
        self.assertEqual(count, "4 papers: 1 passes, 1 fails, 2 in wrong notation")

    def test_the_sample(self):
        written = run("write", SAMPLES / "titles.paper")
        text = run("read", data=written.stdout).stdout.decode()
        self.assertIn("c | e : first ok, second 148\n", text)
        self.assertNotIn("<", text)
        self.assertEqual(layout.encode(parse(text)), written.stdout)


class Types(Command):
    """The use `types`."""

    def test_a_paper(self):
        for text in (f"a | b\n{TITLES}a : type GM", f"S[a]\n\n{TITLES}"):
            self.check(run("types", data=text.encode()), 0, b"""\
row 0: anyType, parent 0
row 1: anySimpleType, parent 0: anySimpleType < anyType
row 2: title, parent 1: title < anySimpleType < anyType
row 3: GM, parent 2: GM < title < anySimpleType < anyType
row 4: IM, parent 2: IM < title < anySimpleType < anyType
""", "")
        done = run("types", data=b"a | b\nx < y")
        self.check(done, 1, b"", "<stdin>:2:5: row 2 (x): expected anyType")

    def test_the_built_in_list(self):
        done = run("types", data=b"a | b")
        found = done.stdout.decode().splitlines()
        self.assertEqual((done.returncode, len(found)), (0, 50))
        self.assertEqual(found[34], "row 34: integer, parent 4: integer < decimal < anySimpleType "
                         "< anyType")

    def test_a_file_of_bytes(self):
        out = self.folder / "titles.types"
        self.check(run("types", "-o", out, data=f"a | b\n{TITLES}".encode()), 0, b"", "")
        self.assertEqual(out.read_bytes(), bytes([0, 0, 1, 2, 2]))
        self.check(run("types", "-o", "-", data=b"a | b"), 0, bytes(BUILTIN.parents), "")
        self.check(run("types", out), 1, b"", f"table of types, `tools/paper types --bytes {out}`")
        for words in (("-o", out, "--bytes"), ("-o",), ("--bytes", out, out)):
            self.assertEqual(run("types", *words).returncode, 2)
        sample = SAMPLES / "titles.paper"
        self.check(run("types", "--bytes", sample), 1, b"",
                   f"found text: if it is a paper, use `tools/paper types {sample}`")

    def answer(self, data, number):
        return run("types", "--bytes", data=bytes(data),
                   table_filler=self.program("", message=f"refused {number}\\n"))

    def test_bytes(self):
        said = b"row 0: parent 0\nrow 1: parent 0\nrow 2: parent 1\nrow 3: parent 0\n"
        self.check(self.answer([0, 0, 1, 0], 1), 0, said, "")
        refused = marker.Mark("refused", 18).in_words()
        for data, place in (([], "no rows"), ([0] * 201, "201 rows, at most 200"),
                            ([0, 1], "row 1: its parent must be row 0, found 1"),
                            ([0, 0, 5], "row 2: its parent must be an earlier row, found 5"),
                            ([0] * 70000, "70000 rows, at most 200")):
            self.check(self.answer(data, 18), 1, f"{refused}\n{place}\n".encode(), "")

    def test_a_program_that_differs(self):
        for data, number, said in (([0, 1], 1, "refused 18 by this aid, accepted by"),
                                   ([0, 0], 18, "accepted by this aid, refused 18 by")):
            done = self.answer(data, number)
            self.check(done, 1, done.stdout, f"the table of types is {said} {Uses.CALLED}\n")
        done = run("types", "--bytes", data=b"\0", table_filler=self.program("sheet"))
        self.check(done, 1, b"row 0: parent 0\n", "accepted by this aid, taken for a sheet by")
        done = run("types", "--bytes", data=b"\0", table_filler=self.folder / "missing")
        self.check(done, 2, b"row 0: parent 0\n", "no answer about the table of types: ")

    @needs_table_filler
    def test_over_the_program(self):
        for data, status in ((b"", 1), (b"\0", 0), (b"\0\1", 1), (bytes(CHAIN), 0), (bytes(201), 1),
                             (bytes(CHAIN[:-1]) + b"\xff", 1), (bytes(70000), 1)):
            done = run("types", "--bytes", data=data)
            self.assertEqual((done.returncode, done.stderr), (status, b""))


if __name__ == "__main__":
    unittest.main()
