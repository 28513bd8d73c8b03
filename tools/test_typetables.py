"""Tables of types that papers declare: their rows and faults, the verdicts along
their chains by this aid's own reading, and the words for these."""

import random
import re
import unittest

import filling
import refusals
import test_faults
from draft import read
from faults import PaperError
from rules import Judge
from scanner import Scanner
from statements import declares_rows, scanned
from support import ROOT, SAMPLES, FaultsCase, random_sheet
from test_types import FIRST_OK, random_typed
from typenames import BUILTIN, BUILTIN_TYPES, GIVEN, MOST_TYPES, TypeTable
from why import Words, lines

KEY = ROOT / "docs" / "KEY.md"
TITLES = "title < anySimpleType\nGM, IM < title\n"
PARENT = "expected anyType, anySimpleType or an earlier row as its parent, found"
NAME = "expected a type's name (letters, digits, _, - and ., a letter first), found"
END = "the end of the line"
RESERVED = "expected a name other than anyType and anySimpleType, which every table has, found"
ROWS_ONLY = "their names and one parent"

# What stands below `a | b`, line and column of its fault, what it says, and words of
# the hint; None for no hint.
FAULTS = [
    ("GM < title", 2, 6, f"row 2 (GM): {PARENT} 'title', which is no row",
     "as title < anySimpleType"),
    ("Title < anyType\nGM, IM < title", 3, 10, f"row 3 (GM): {PARENT} 'title', which is no row",
     "here Title"),
    ("GM < anysimpletype", 2, 6, f"row 2 (GM): {PARENT} 'anysimpletype', which is no row",
     "here anySimpleType"),
    ("GM < string", 2, 6, f"row 2 (GM): {PARENT} 'string', which is no row",
     "in the place of the built-in list"),
    ("x, y < anyType\nGM, IM < title\n\ntitle < y", 3, 10,
     f"row 4 (GM): {PARENT} 'title', which comes later, as row 6", "title must stand above"),
    ("IM, GM < GM", 2, 10, f"row 2 (IM): {PARENT} 'GM', which comes later, as row 3", "above"),
    ("GM, IM < GM", 2, 10, f"row 2 (GM): {PARENT} 'GM', its own name", "GM < anySimpleType"),
    ("x < anyType # 1\n\nx1, GM < x\nGM < GM", 5, 1,
     "row 5 (GM): expected each name once, found 'GM' again, which is row 4 in line 4", None),
    ("x, y, x < anyType", 2, 7,
     "row 4 (x): expected each name once, found 'x' again, which is row 2 in line 2", None),
    ("anyType < anyType", 2, 1, f"row 2 (anyType): {RESERVED} 'anyType'", None),
    ("x, anySimpleType < nothing", 2, 20, f"row 2 (x): {PARENT} 'nothing', which is no row", "as"),
    ("x, anySimpleType < x", 2, 20, f"row 2 (x): {PARENT} 'x', its own name", "x < anySimpleType"),
    ("x < anyType\ny, anySimpleType < x", 3, 4,
     f"row 4 (anySimpleType): {RESERVED} 'anySimpleType'", None),
    # Wrong signs, in rows that may have no name yet.
    ("< title", 2, 1, f"row 2: {NAME} '<'", ROWS_ONLY),
    ("x < anyType\nGM, < title", 3, 5, f"row 4: {NAME} '<'", ROWS_ONLY),
    ("x < anyType\n5 < x", 3, 1, f"row 3: {NAME} '5'", ROWS_ONLY),
    ("x < anyType\n_y, z < x", 3, 1, f"row 3: {NAME} '_'", ROWS_ONLY),
    ("GM <", 2, 5, f"row 2 (GM): {NAME} {END}", ROWS_ONLY),
    ("GM, IM < 1", 2, 10, f"row 2 (GM): {NAME} '1'", ROWS_ONLY),
    ("GM IM < anyType", 2, 4, "row 2 (GM): expected ',' or '<', found 'IM'", ROWS_ONLY),
    ("GM, IM: FM < anyType", 2, 7, "row 3 (IM): expected ',' or '<', found ':'", ROWS_ONLY),
    ("x < anyType\nxs:GM < x", 3, 3, "row 3 (xs): expected ',' or '<', found ':'", ROWS_ONLY),
    ("Großmeister < anyType", 2, 4, "row 2 (Gro): expected ',' or '<', found 'ß'", ROWS_ONLY),
    ("title < anyType\nGM < title < anyType", 3, 12, f"row 3 (GM): expected {END}, found '<'",
     ROWS_ONLY),
    ("GM < anyType, IM", 2, 13, f"row 2 (GM): expected {END}, found ','", ROWS_ONLY),
    ("a : type GM < anyType", 2, 3, "row 2 (a): expected ',' or '<', found ':'", ROWS_ONLY),
    (f"{'x' * 60} < y", 2, 64, f"row 2 ({'x' * 40}...): {PARENT} 'y', which is no row", "y <"),
    # A table's fault comes before those of other lines.
    ("c : type 7\nGM < GM", 3, 6, f"row 2 (GM): {PARENT} 'GM', its own name", "GM <"),
]

ROW = ("expected a row of the paper's table of types, by its name or by its number from 0 to 4, "
       "found")
# The same of other lines, below the rows of TITLES.
IN_OTHERS = [
    ("a : type gm", 4, 10, f"{ROW} 'gm'", "here GM"),
    ("a : type string", 4, 10, f"{ROW} 'string'", "as string < anySimpleType"),
    ("a : type FM", 4, 10, f"{ROW} 'FM'", "as FM < anySimpleType"),
    ("a : type xs:GM", 4, 10, f"{ROW} 'xs'", "without a prefix"),
    ("a : type", 4, 9, f"{ROW} {END}", None),
    ("a : type 5", 4, 10, "expected a number up to 4, found '5'", None),
    ("a : GM", 4, 5, "expected 'name', 'type', 'skip', 'lax' or 'strict', found 'GM'",
     "as in a : type GM"),
    ("a : integer", 4, 5, "expected 'name', 'type', 'skip', 'lax' or 'strict', found 'integer'",
     None),
    ("a : type GM\na | b : undecided", 5, 5, "expected a type for 'b' too: types decide every "
     "undecided pair of elements in the second table, found none", "b : type IM, or"),
    ("a | b : ok <", 4, 12, f"expected {END}, found '<'", ROWS_ONLY),
    ("GM | IM < title", 4, 1, "expected 'leaves' or a leaf (a letter such as a, w or a1), found "
     "'GM'", ROWS_ONLY),
    ("S[a] | S[b<c]", 4, 1, "expected 'leaves' or a leaf (a letter such as a, w or a1), found 'S'",
     "parted by a blank line"),
    ("GM title", 4, 1, "expected 'leaves' or a leaf (a letter such as a, w or a1), found 'GM'",
     "parted by a blank line"),
]

HEAD = f"{FIRST_OK}{TITLES}"
# A paper, every line about it, and the words that fit its mark.
SHOWN = [
    (f"{HEAD}c : type GM\nd : type title",
     "c | d: passes (M2, V2, V6): ok in both tables: GM is derived from title", None),
    (f"{HEAD}c : type GM\nd : type IM",
     "c | d: fails 148 (M2, V2, V6): c against d in the second table is 148: GM is not derived "
     "from IM",
     "c against d in the second table is 148: GM is not derived from IM, at c | d "
     "(docs/KEY.md, M2, V2, V6)"),
    (f"{HEAD}c, d : type 4\nc | d : second undecided",
     "c | d: passes (M2, V2, V6): ok in both tables: both are IM", None),
    (f"{HEAD}club < anyType\nc : type club\nd : type 1", "c | d: passes (M2, V2, V6): ok in both "
     "tables: anySimpleType is ok as the base of every type", None),
    (f"{HEAD}c : type GM\nd : type IM\nc | d : second 152",
     "c | d: fails 152 (M2): c against d in the second table is 152",
     "c against d in the second table is 152, at c | d (docs/KEY.md, M2)"),
]


def random_rows(rng, most=MOST_TYPES, least=2):
    """The parents of a table: a chain, a broad tree, or something between."""
    count, back = rng.randint(least, most), rng.choice([1, 1, 2, 5, 30, MOST_TYPES])
    return [0, 0] + [rng.randint(max(0, row - back), row - 1) for row in range(2, count)]


def table_by(parents):
    """The table of these parents; its names are as good as others."""
    names = [name for name, _ in GIVEN] + [f"t{row}" for row in range(2, len(parents))]
    return TypeTable(list(zip(names, parents)), declared=True)


def verdicts_by(parents):
    """The verdict for each two rows: what is above a row is the row itself, and what
    is above its parent, read from row 0 on."""
    above = []
    for row, parent in enumerate(parents):
        above.append({row} | (above[parent] if row else set()))
    return [[0 if base < 2 or base in above[derived] else 148 for base in range(len(parents))]
            for derived in range(len(parents))]


def random_name(rng, row):
    """A name that no other row has; it may look like a leaf or like a number."""
    form = rng.choice(["t{}", "a{}", "w{}", "T-{}.x", "x_{}", "type{}", "S{}", "name.{}-", "e{}e"])
    return form.format(row)


def random_declared(seed):
    """A paper with its own table of types, its lines anywhere below the trees, its
    filled sheet, and how many verdicts the types decide in it."""
    rng = random.Random(seed)
    parents = random_rows(rng, rng.choice([3, 5, 12, MOST_TYPES]), 3)
    names = [name for name, _ in GIVEN] + [random_name(rng, n) for n in range(2, len(parents))]
    verdicts = verdicts_by(parents)
    text, sheet, count = random_typed(seed, names, lambda d, b: verdicts[d][b])
    rows, row = [], 2
    while row < len(parents):
        end = row + 1
        while end < len(parents) and parents[end] == parents[row] and rng.random() < 0.8:
            end += 1
        rows.append(f"{rng.choice([', ', ',']).join(names[row:end])} < {names[parents[row]]}")
        row = end
    others = text.splitlines()
    first = next((n for n, line in enumerate(others) if ":" in line), len(others))
    for place, line in zip(sorted((rng.randint(first, len(others)) for _ in rows), reverse=True),
                           reversed(rows)):
        spaced = rng.choice([line, line, f"\n{line}  # a < b", line.replace(" <", "<")])
        others.insert(place, spaced)
    return "\n".join(others) + "\n", sheet, count


class Rows(FaultsCase):
    def table(self, statements):
        return read(f"a | b\n{statements}").table

    def check_rows(self, statements, *rows):
        table = self.table(statements)
        self.assertEqual(list(zip(table.names, table.parents)), [*GIVEN, *rows])
        self.assertTrue(table.declared)

    def test_rows(self):
        self.check_rows("GM < anyType", ("GM", 0))
        self.check_rows(TITLES, ("title", 1), ("GM", 2), ("IM", 2))
        self.check_rows("a : name 7\n\n b,a\t<anySimpleType #x\na | b : ok\nx<b\n",
                        ("b", 1), ("a", 1), ("x", 2))
        self.check_rows("string < anySimpleType\nbyte < string", ("string", 1), ("byte", 2))

    def test_names(self):
        """A name may be that of a leaf, and a word of other lines."""
        names = "x-1 X_. a b w1 S type name leaves first ok paper anytype GM gm".split()
        self.check_rows(f"{', '.join(names)} < anyType", *((name, 0) for name in names))
        for row, name in enumerate(names, 2):
            rows = f"a : type {name}\n{', '.join(names)} < anyType"
            self.assertEqual(read(f"a | b\n{rows}").types, [row, 0])

    def test_a_type_by_name_and_number(self):
        for said, number in (("GM", 3), ("3", 3), ("003", 3), ("anyType", 0), ("anySimpleType", 1)):
            for statements in (f"b : type {said}\n{TITLES}", f"{TITLES}b : type {said}"):
                self.assertEqual(read(f"a | b\n{statements}").types, [0, number])

    def test_without_rows_it_is_the_built_in_list(self):
        self.assertIs(self.table("a : type integer"), BUILTIN)
        self.assertFalse(BUILTIN.declared)

    def test_rows_without_types_fill_nothing(self):
        paper = read(f"a | b\na | b : undecided\n{TITLES}")
        self.assertIsNone(paper.types)
        self.assertEqual(paper.subject(None, None).sheet.second, [[0, 1], [140, 0]])

    def test_most_rows(self):
        names = [f"t{row}" for row in range(2, MOST_TYPES + 1)]
        chain = [f"{name} < {above}" for above, name in zip(["anySimpleType", *names], names)]
        table = self.table("\n".join(chain[:-1]))
        self.assertEqual((table.most, table.chain(199)), (199, list(range(199, -1, -1))))
        every = ", ".join(names)
        for text, line, column in (("\n".join(chain), 200, 1),
                                   (f"{every} < anyType", 2, len(every) - 3)):
            said = "at most 200 rows, anyType and anySimpleType among them, found 't200', one more"
            self.check_fault(text, line, column, f"row 200 (t200): expected {said}", None)

    def check_fault(self, statements, line, column, message, hint):
        text = f"a | b\n{statements}"
        with self.subTest(text=text[:60]):
            with self.assertRaises(PaperError) as raised:
                read(text)
            error = raised.exception
            self.assertEqual((error.line, error.column, str(error)), (line, column, message))
        self.check_hint(text, hint)

    def test_faults(self):
        for fault in FAULTS:
            self.check_fault(*fault)
        for statements, line, *fault in IN_OTHERS:
            self.check_fault(TITLES + statements, line, *fault)

    def test_the_trees_stand_first(self):
        self.check("GM < anyType\na | b", 1, 1, "two trees, DERIVED | BASE", "'GM'")
        self.check_hint("GM < anyType\na | b", "before all else")
        self.check("a | S[b<c]", 1, 8, "'(', ']' or ','", "'<'")


class Verdicts(unittest.TestCase):
    def test_random_tables(self):
        """All pairs of rows; the longest chain has 199 links."""
        for seed in range(60):
            self.check_table(random_rows(random.Random(seed), 60))
        for parents, links in (([0], 0), ([0, 0], 1), ([0] * 200, 1), ([0, *range(199)], 199)):
            self.assertEqual(self.check_table(parents), links)

    def check_table(self, parents):
        """Its longest chain has so many links."""
        table = TypeTable([(f"t{row}", parent) for row, parent in enumerate(parents)])
        every = range(len(parents))
        given = [[filling.type_derivation_ok(d, b, table) for b in every] for d in every]
        self.assertEqual(given, verdicts_by(parents))
        for derived in every[:60]:
            for base in every:
                self.assertEqual("is not derived" in filling.in_words(derived, base, table),
                                 given[derived][base] == 148)
        return max(len(table.chain(row)) - 1 for row in every)

    def test_the_built_in_list_as_a_table(self):
        given = [[filling.type_derivation_ok(d, b) for b in range(50)] for d in range(50)]
        self.assertEqual(given, verdicts_by([parent for _, parent in BUILTIN_TYPES]))

    def test_filling(self):
        for seed in range(300):
            rng, sheet = random.Random(seed), random_sheet(seed, records=5)
            parents = random_rows(rng)
            types = [rng.randrange(len(parents)) for _ in sheet.leaves]
            verdicts, table = verdicts_by(parents), table_by(parents)
            second = [[verdicts[types[row]][types[column]] if verdict == 1 and
                       not sheet.leaves[row].kind and not sheet.leaves[column].kind else verdict
                       for column, verdict in enumerate(given)]
                      for row, given in enumerate(sheet.second)]
            self.assertEqual(filling.fill(sheet, types, table), sheet._replace(second=second))


class Papers(unittest.TestCase):
    def test_random_papers(self):
        filled = longest = 0
        for seed in range(500):
            text, sheet, count = random_declared(seed)
            with self.subTest(seed=seed):
                paper = read(text)
                subject = paper.subject(None)
                self.assertTrue(paper.table.declared)
                self.assertEqual(subject.sheet, sheet)
                self.assertEqual(len(subject.filled), count)
            filled += count
            longest = max(longest, len(paper.table.chain(paper.table.most)))
        self.assertGreater(filled, 2000)
        self.assertGreater(longest, 150)

    def test_lines_and_words(self):
        for text, shown, words in SHOWN:
            with self.subTest(text=text):
                subject = read(text).subject(None)
                node = Judge(subject).whole()
                self.assertEqual("\n".join(lines(subject, node)), shown)
                self.assertEqual(str(Words(subject, node)),
                                 words or "the derived tree restricts the base tree")

    def test_rules_stand_in_the_key(self):
        known = re.findall(r"^\| (V[0-9]+) ", KEY.read_text(encoding="utf-8"), re.MULTILINE)
        self.assertEqual({"V2", "V5", "V6"} - set(known), set())

    def test_the_sample(self):
        """Both kinds of FIDE's titles, each below its own row."""
        paper = read((SAMPLES / "titles.paper").read_text(encoding="utf-8"))
        names, numbers = paper.table.names, paper.table.numbers
        for above, below in (("openTitle", "GM IM FM CM"), ("womensTitle", "WGM WIM WFM WCM"),
                             ("rating", "standardRating rapidRating blitzRating")):
            self.assertEqual([name for row, name in enumerate(names)
                              if paper.table.parents[row] == numbers[above]], below.split())
        sheet = paper.subject(None).sheet
        self.assertEqual([sheet.second[row][column] for row, column in ((1, 3), (2, 4), (2, 5))],
                         [0, 148, 0])


class Scribbles(test_faults.Scribbles):
    """A fault in a row's line names the row."""

    COUNT, READ = 1500, 100
    SIGNS = test_faults.Scribbles.SIGNS + "<<<_.-,"

    def text(self, seed):
        return random_declared(seed)[0]

    def check_fault(self, error, lines):
        super().check_fault(error, lines)
        statements = [found for found in scanned(lines) if isinstance(found, Scanner)]
        for statement in statements[1:]:
            if declares_rows(statement) and statement.line <= error.line <= statement.last_line:
                self.assertRegex(str(error), r"^row [0-9]+( \(.*\))?: expected ")


class InBytes(unittest.TestCase):
    """What of a table in bytes is accepted, and the first row that is not."""

    def check(self, data, place):
        with self.subTest(data=bytes(data[:8])):
            with self.assertRaises(refusals.Refused) as raised:
                refusals.read_type_table(bytes(data))
            self.assertEqual((raised.exception.number, raised.exception.place), (18, place))

    def test_faults(self):
        self.check([], "no rows")
        self.check([0] * 201, "201 rows, at most 200")
        self.check([1], "row 0: its parent must be row 0, found 1")
        self.check([0, 1], "row 1: its parent must be row 0, found 1")
        self.check([0, 255, 9], "row 1: its parent must be row 0, found 255")
        self.check([0, 0, 1, 2, 3, 4, 5, 7, 9], "row 7: its parent must be an earlier row, found 7")
        self.check([0, 0, *range(1, 198), 255],
                   "row 199: its parent must be an earlier row, found 255")

    def test_accepted(self):
        for rows in ([0], [0, 0], [0, 0, 0], [0, 0, *range(1, 199)], *map(
                random_rows, map(random.Random, range(100)))):
            self.assertEqual(refusals.read_type_table(bytes(rows)), rows)

    def test_what_is_declared_is_accepted(self):
        for seed in range(50):
            parents = read(random_declared(seed)[0]).table.parents
            self.assertEqual(refusals.read_type_table(bytes(parents)), parents)


if __name__ == "__main__":
    unittest.main()
