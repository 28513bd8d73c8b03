"""Types: their list and verdicts, the lines that set them and their faults, what
is filled by this aid's own reading, and the words for it."""

import random
import re
import unittest

import filling
import layout
import test_faults
from draft import read
from notation import leaf_names
from printed import paper_text
from rules import Judge
from sheet import SET_REASONS, UNDECIDED, Kind, usual_verdict
from support import ROOT, FaultsCase, near_sheet, random_sheet
from test_faults import END, ON_PAPER
from typenames import BUILTIN, BUILTIN_TYPES
from why import Words, lines

KEY = ROOT / "docs" / "KEY.md"
# On a line each type is derived from all after it, and there is a line for each
# type from which no other is derived. The two that no line has are ok as the base
# of every type.
CHAINS = [line.split() for line in """\
byte short int long integer decimal
unsignedByte unsignedShort unsignedInt unsignedLong nonNegativeInteger integer decimal
positiveInteger nonNegativeInteger integer decimal
negativeInteger nonPositiveInteger integer decimal
ID NCName Name token normalizedString string
IDREF NCName Name token normalizedString string
ENTITY NCName Name token normalizedString string
language token normalizedString string
NMTOKEN token normalizedString string
dateTimeStamp dateTime
dayTimeDuration duration
yearMonthDuration duration
""".splitlines()]
CHAINS += [[name] for name in (
    "boolean float double time date gYearMonth gYear gMonthDay gDay gMonth hexBinary base64Binary "
    "anyURI QName NOTATION NMTOKENS IDREFS ENTITIES anyAtomicType").split()]
ABOVE_ALL = ["anyType", "anySimpleType"]
# How many of the verdicts are ok: two bases are it for every type; each other type
# has itself and what is after it on its lines.
COUNT_OK = 50 * 2 + 125

A_TYPE = "a built-in type, by its name or by its number from 0 to 49"
TOO = ("a type for '{}' too: types decide every undecided pair of elements in the second table",
       "none")
ONCE = "another; line 2 has the first"
# The text, line and column of its fault, what is expected and what is found.
FAULTS = [
    ("a | b\na : type", 2, 9, A_TYPE, END),
    ("a | b\na : type Integer", 2, 10, A_TYPE, "'Integer'"),
    ("a | b\na : type xs:integer", 2, 10, A_TYPE, "'xs'"),
    ("a | b\na : type xsd : integer", 2, 10, A_TYPE, "'xsd'"),
    ("a | b\na : type rating", 2, 10, A_TYPE, "'rating'"),
    ("a | b\na : type base64", 2, 10, A_TYPE, "'base64'"),
    ("a | b\na : type -1", 2, 10, A_TYPE, "'-'"),
    ("a | b\na : type 50", 2, 10, "a number up to 49", "'50'"),
    ("a | b\na : type 4294967296", 2, 10, "a number up to 49", "'4294967296'"),
    ("a | b\na : type integer, b", 2, 17, END, "','"),
    ("a | b\na : integer", 2, 5, "'name', 'type', 'skip', 'lax' or 'strict'", "'integer'"),
    ("a | b\na | b : type integer", 2, 9,
     "'first', 'second', 'ok', 'undecided' or a reason from "
     f"{SET_REASONS[0]} to {SET_REASONS[-1]}", "'type'"),
    ("a | w\nw : type integer", 2, 1, "an element for a type", "'w'"),
    ("a | w\na, w : type integer", 2, 4, "an element for a type", "'w'"),
    ("a | b\nc : type integer", 2, 1, ON_PAPER, "'c'"),
    ("a | b\na, b : type integer\nb : type 34", 3, 1, "one type for 'b'", ONCE),
    ("a | b\na, a : type integer", 2, 4, "one type for 'a'", ONCE),
    ("a | b\na : type integer\na | b : undecided", 3, 5, TOO[0].format("b"), TOO[1]),
    ("a | b\nb | b : second undecided\na : type 4", 2, 1, TOO[0].format("b"), TOO[1]),
    ("S[a,b] | c\na, b | c : first ok, second 1\na, c : type 4", 2, 4, TOO[0].format("b"), TOO[1]),
    ("S[a,w] | b\na, w | a, w, b : undecided\na : type 4", 2, 14, TOO[0].format("b"), TOO[1]),
]

# The text, and words of the hint that its fault has; None for no hint.
HINTED = [
    ("a | b\na : type Integer", "here integer"),
    ("a | b\na : type qname", "here QName"),
    ("a | b\na : type base64binary", "here base64Binary"),
    ("a | b\na : type xs:integer", "without a prefix"),
    ("a | b\na : type XSD:integer", "without a prefix"),
    ("a | b\na : type tns:rating", "a | b : second ok"),
    ("a | b\na : type rating", "a | b : second ok"),
    ("a | b\na : type", None),
    ("a | b\na : type 50", None),
    ("a | b\na : type 'integer'", None),
    ("a | b\na : integer", "after the word type"),
    ("a | b\na : rating", None),
    ("a | b\na : Name 7", None),
    ("a | b\na : type integer\na | b : undecided", "b : type anyType"),
]

FIRST_OK = "c | d\nc | d : first ok\n"
# A paper, every line about it, and the words that fit its mark.
SHOWN = [
    (f"{FIRST_OK}c : type string\nd : type decimal",
     "c | d: fails 148 (M2, V2): c against d in the second table is 148: string is not derived "
     "from decimal",
     "c against d in the second table is 148: string is not derived from decimal, at c | d "
     "(docs/KEY.md, M2, V2)"),
    (f"{FIRST_OK}c : type 34\nd : type decimal\nc | d : second undecided",
     "c | d: passes (M2, V2): ok in both tables: integer is derived from decimal", None),
    (f"{FIRST_OK}c, d : type token",
     "c | d: passes (M2, V2): ok in both tables: both are token", None),
    (f"{FIRST_OK}c : type 0\nd : type 1", "c | d: passes (M2, V2): ok in both tables: "
     "anySimpleType is ok as the base of every type", None),
    # What a line sets is kept, and the first table and the pairs come before.
    (f"{FIRST_OK}c : type string\nd : type decimal\nc | d : second ok",
     "c | d: passes (M2): ok in both tables", None),
    (f"{FIRST_OK}c, d : type token\nc | d : second 152",
     "c | d: fails 152 (M2): c against d in the second table is 152",
     "c against d in the second table is 152, at c | d (docs/KEY.md, M2)"),
    ("c | d\nc, d : type token",
     "c | d: fails 140 (M2): c against d in the first table is 140, by default",
     "c against d in the first table is 140, by default, at c | d (docs/KEY.md, M2)"),
    (f"{FIRST_OK}c : type token",
     "c | d: fails 140 (M2): c against d in the second table is 140, by default",
     "c against d in the second table is 140, by default, at c | d (docs/KEY.md, M2)"),
    ("c | w\nc : type token\nc | w : undecided",
     "c | w: undecided (M3): c against w in the second table is undecided",
     "c against w in the second table is undecided, at c | w (docs/KEY.md, M3)"),
    ("S[a,c] | S[a,d]\nc | d : first undecided\na, c, d : type token", """\
S[a,c] | S[a,d]: undecided (M5, M14)
  a | a: passes (M2, V2): ok in both tables: both are token
  c | d: undecided (M2): c against d in the first table is undecided""",
     "c against d in the first table is undecided, at c | d (docs/KEY.md, M2, M14)"),
]


def stated(derived, base):
    """The verdict on two type numbers, by the chains above."""
    derived, base = BUILTIN_TYPES[derived][0], BUILTIN_TYPES[base][0]
    if base in ABOVE_ALL:
        return 0
    after = [chain[chain.index(derived):] for chain in CHAINS if derived in chain]
    return 0 if any(base in chain for chain in after) else 148


def random_types(rng, leaves):
    """A type number for each leaf; a wildcard's may be any byte."""
    return [rng.randrange(256 if leaf.kind else 50) for leaf in leaves]


def random_typed(seed, listed=BUILTIN.names, verdict=stated):
    """A paper of some types of these names, every element of an undecided pair among
    them, and its filled sheet by these verdicts; and how many the types decide in
    it."""
    rng, sheet = random.Random(seed), near_sheet(seed)
    sheet = sheet._replace(second=[
        [usual_verdict(row, column) if rng.random() < 0.7 else verdict
         for column, verdict in enumerate(verdicts)] for row, verdicts in enumerate(sheet.second)])
    elements = [n for n, leaf in enumerate(sheet.leaves) if leaf.kind == Kind.ELEMENT]
    needed = {n for row, column in filling.undecided_elements(sheet) for n in (row, column)}
    types = {n: rng.randrange(len(listed)) for n in elements
             if n in needed or rng.random() < 0.8}
    names = leaf_names(sheet.leaves)
    said = [f"{names[n]} : type {rng.choice([t, listed[t]])}\n" for n, t in types.items()]
    second, count = [list(row) for row in sheet.second], 0
    for row in types:
        for column in types:
            # A printed paper sets what is not usual.
            if second[row][column] in (UNDECIDED, usual_verdict(row, column)):
                second[row][column], count = verdict(types[row], types[column]), count + 1
    return paper_text(sheet) + "".join(said), sheet._replace(second=second), count


class List(unittest.TestCase):
    def test_names(self):
        self.assertEqual(len(BUILTIN_TYPES), 50)
        names = {*ABOVE_ALL, *(name for chain in CHAINS for name in chain)}
        self.assertEqual(set(BUILTIN.numbers), names)
        self.assertEqual(len({name.lower() for name in BUILTIN.numbers}), 50)

    def test_numbers(self):
        """The two above all; then those below anySimpleType; then the rest."""
        self.assertEqual([name for name, _ in BUILTIN_TYPES[:2]], ABOVE_ALL)
        parents = [parent for _, parent in BUILTIN_TYPES]
        self.assertEqual(parents[:25], [0, 0] + [1] * 23)
        self.assertTrue(all(1 < parent < number for number, parent in enumerate(parents[25:], 25)))

    def test_every_verdict(self):
        given = [[filling.type_derivation_ok(derived, base) for base in range(50)]
                 for derived in range(50)]
        self.assertEqual(given, [[stated(d, b) for b in range(50)] for d in range(50)])
        self.assertEqual(sum(row.count(0) for row in given), COUNT_OK)

    def test_the_words_are_those_of_the_verdict(self):
        for derived in range(50):
            for base in range(50):
                words = filling.in_words(derived, base)
                self.assertEqual("is not derived" in words, stated(derived, base) == 148)


class Reading(FaultsCase):
    def test_names_and_numbers(self):
        for name, number in BUILTIN.numbers.items():
            for said in (name, str(number), f"0{number}"):
                self.assertEqual(read(f"a | b\nb : type {said}").types, [0, number])

    def test_lines(self):
        for statements in ("a : type integer\nb : type decimal",
                           "b:type 4 # a : type 5\n\n a :\ttype 34 ",
                           "a | b : second undecided\nb : type 4\na : name 7\na : type integer"):
            paper = read(f"a | S[b,w]\n{statements}")
            self.assertEqual(paper.types, [34, 4, 0])
            self.assertEqual(paper.first, [[0, 140, 140], [140, 0, 140], [140, 140, 0]])
            self.assertEqual(paper.second, [[1, 1, 140], [1, 1, 140], [140, 140, 0]])
        self.assertEqual(read("S[a,b] | c\na, c : type token").types, [26, 0, 26])
        self.assertEqual(read("a | a\nleaves : w, b, a\nb : type byte").types, [0, 41, 0])

    def test_faults(self):
        for fault in FAULTS:
            self.check(*fault)

    def test_hints(self):
        for text, words in HINTED:
            self.check_hint(text, words)

    def test_without_types(self):
        """Nothing is filled."""
        paper = read("a | b\na | b : undecided")
        self.assertIsNone(paper.types)
        self.assertEqual(paper.subject(None, None).sheet.second, [[0, UNDECIDED], [140, 0]])

    def test_random_papers(self):
        filled = 0
        for seed in range(1000):
            text, sheet, count = random_typed(seed)
            with self.subTest(seed=seed):
                subject = read(text).subject(None)
                self.assertEqual(subject.sheet, sheet)
                self.assertEqual(len(subject.filled), count)
            filled += count
        self.assertGreater(filled, 4000)


class Scribbles(test_faults.Scribbles):
    COUNT, READ = 1000, 50

    def text(self, seed):
        return random_typed(seed)[0]


class Filling(unittest.TestCase):
    """This aid's own reading, byte by byte."""

    def test_random_sheets(self):
        seen = {}
        for seed in range(500):
            sheet = random_sheet(seed, records=20)
            types = random_types(random.Random(seed), sheet.leaves)
            before, after = (layout.encode(s) for s in (sheet, filling.fill(sheet, types)))
            start, n = layout.places(layout.contents_of(before)).second, len(types)
            self.assertEqual(len(before), len(after))
            for at, (old, new) in enumerate(zip(before, after)):
                row, column = divmod(at - start, n)
                if old == 1 and 0 <= row < n and not (sheet.leaves[row].kind or
                                                      sheet.leaves[column].kind):
                    old = stated(types[row], types[column])
                    seen[old] = seen.get(old, 0) + 1
                self.assertEqual(new, old)
            self.assertEqual(filling.fill(filling.fill(sheet, types), types),
                             filling.fill(sheet, types))
        self.assertEqual(set(seen), {0, 148})
        self.assertGreater(min(seen.values()), 500)


class Shown(unittest.TestCase):
    def test_lines_and_words(self):
        for text, shown, words in SHOWN:
            with self.subTest(text=text):
                subject = read(text).subject(None)
                node = Judge(subject).whole()
                self.assertEqual("\n".join(lines(subject, node)), shown)
                self.assertEqual(str(Words(subject, node)),
                                 words or "the derived tree restricts the base tree")

    def test_rules_stand_in_the_key(self):
        known = re.findall(r"^\| (V[0-9]+) ", KEY.read_text(encoding="utf-8"), re.MULTILINE)
        self.assertEqual({"V1", "V2", "V3", "V4"} - set(known), set())


if __name__ == "__main__":
    unittest.main()
