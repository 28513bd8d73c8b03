"""Many papers at once: several in a file, files and folders, their lines, the
closing count, and comma-separated values."""

import csv
import io
import os
import re
import subprocess
import sys
import time
import unittest
from pathlib import Path

import layout
import marker
from draft import parse
from papers import split
from printed import paper_text
from proved import MARKER, PROGRAMS
from support import (
    ROOT, SAMPLES, Command, largest_sheet, near_sheet, needs_filler, needs_joiner, needs_marker,
    needs_table_filler, random_sheet, run,
)

PASSES = "passes: the derived tree restricts the base tree"
FAILS = ("fails 122: element, element: the minimum is below the base's: 0 is below 1, "
         "at a(0,1) | a (docs/KEY.md, M2)")
OPEN = "undecided: the element a meets the all-group A[a], at a | A[a] (docs/KEY.md, M12)"
WRONG = "wrong notation: 1:3: expected '(' or '|', found 'b'"

# A text, and of each of its papers the name, the line and the trees.
PARTED = [
    ("a | b", [("", 1, "a | b")]),
    ("\n# first\na | b\n\n# second\nc | d\n", [("", 3, "a | b"), ("", 6, "c | d")]),
    ("a | b\n\nb : name 7\n\n\nc | d", [("", 1, "a | b\n\nb : name 7"), ("", 6, "c | d")]),
    ("paper : Anna Nowak # by post\na | b\npaper:Bo\nc | d", [
        ("Anna Nowak", 1, "a | b"), ("Bo", 3, "c | d")]),
    ("paper : Anna [x\n\na | b\n\nc | d", [("Anna [x", 1, "a | b"), ("", 5, "c | d")]),
    ("a | b\n\npaper : Bo\n\nleaves : a\nc | d", [("", 1, "a | b"), ("Bo", 3, "leaves : a\nc | d")]),
    ("a | S[b,\n\nc]\n\nc\n  | d", [("", 1, "a | S[b,\n\nc]"), ("", 5, "c\n  | d")]),
    ("a | b\nc | d\n\ne | f", [("", 1, "a | b\nc | d"), ("", 4, "e | f")]),
    # Rows of a table of types are no trees, and trees with a wrong sign are none.
    ("a | b\n\nGM < title\n\nc | d", [("", 1, "a | b\n\nGM < title"), ("", 5, "c | d")]),
    ("a | b\n\nS[a<b] | d\n\nS[a<b]\n", [("", 1, "a | b"), ("", 3, "S[a<b] | d"),
                                            ("", 5, "S[a<b]")]),
    # A forgotten bracket, or a sign at the end, does not take the next papers along.
    ("paper : Anna\nS[a,b | S[a,b]\n\npaper : Bo\nS[a] | S[a]", [
        ("Anna", 1, "S[a,b | S[a,b]"), ("Bo", 4, "S[a] | S[a]")]),
    ("S[a,b\n\nS[a] | S[a]\n\nc |\n\nd | e", [
        ("", 1, "S[a,b"), ("", 3, "S[a] | S[a]"), ("", 5, "c |"), ("", 7, "d | e")]),
    ("S[a,\n\nS[b,c]] | S[a,\n\n  b]\n\nc | d", [
        ("", 1, "S[a,\n\nS[b,c]] | S[a,\n\n  b]"), ("", 7, "c | d")]),
    ("a\n\n| S[b]\n\nc | d", [("", 1, "a\n\n| S[b]"), ("", 5, "c | d")]),
    ("", [("", 1, "")]),
    ("# nothing\n\n", [("", 1, "# nothing")]),
]


class Parting(unittest.TestCase):
    def test_parts(self):
        for text, expected in PARTED:
            with self.subTest(text=text):
                found = split(text)
                self.assertEqual([(part.name, part.line) for part in found],
                                 [part[:2] for part in expected])
                for part, (_, _, trees) in zip(found, expected):
                    self.assertIn(trees, part.text)

    def test_lines_keep_their_numbers(self):
        text = "a | b\n\n# c\nc | d\nd : name 1\n\n\ne | f\n"
        for part in split(text):
            for number, line in enumerate(part.text.split("\n"), 1):
                self.assertIn(line, ("", text.split("\n")[number - 1]))

    def test_random_papers(self):
        """Papers of one text are those that were put in it."""
        papers = [paper_text(near_sheet(seed)) for seed in range(300)]
        parted = split("\n".join(papers))
        self.assertEqual([parse(part.text) for part in parted], list(map(parse, papers)))
        named = split("".join(f"paper : {n}\n{paper}" for n, paper in enumerate(papers)))
        self.assertEqual([parse(part.text) for part in named], list(map(parse, papers)))
        self.assertEqual([part.name for part in named], [str(n) for n in range(300)])


@needs_marker
class Program(unittest.TestCase):
    """`marker --many`, and what `marker` says of other words."""

    def test_same_as_one_by_one(self):
        sheets = [layout.encode(random_sheet(seed)) for seed in range(200)]
        sheets += [sheets[0][:-1], b"", sheets[1] + b"\0", bytes(65535), bytes(8)]
        sheets.append(layout.encode(largest_sheet()))
        self.assertEqual(marker.mark_many(sheets), list(map(marker.mark, sheets)))

    def test_input_that_is_cut_off(self):
        whole = layout.encode_many([layout.encode(parse("a | a"))] * 2)
        for less in range(1, len(whole) // 2):
            done = MARKER.run(whole[:-less], marker.MANY)
            self.assertEqual((done.stdout, done.stderr),
                             (b"passes\n", b"marker: the input is cut off\n"), less)
        self.assertEqual(MARKER.run(b"", marker.MANY).stdout, b"")

    def test_other_words(self):
        data = (SAMPLES / "smallest.sheet").read_bytes()
        for words in (("x.sheet",), ("--help",), ("--man",), ("--many", "x"), ("--manyx",), ("",),
                      ("x" * 5000,)):
            done = MARKER.run(data, *words)
            self.assertEqual(done.stdout, b"", words)
            self.assertIn(b"reads one sheet from standard input", done.stderr)


@needs_marker
class Marking(Command):
    def put(self, **texts):
        for name, text in texts.items():
            (self.folder / f"{name}.paper").write_text(text)

    def test_files(self):
        self.put(anna="a | a", bo="a(0,1) | a", cy="a | A[a]")
        files = [self.folder / f"{name}.paper" for name in ("cy", "anna", "bo")]
        said = f"{files[0]}: {OPEN}\n{files[1]}: {PASSES}\n{files[2]}: {FAILS}\n"
        count = "3 papers: 1 passes, 1 fails, 1 undecided\n"
        self.check(run("mark", *files), 0, (said + count).encode(), "")

    def test_a_folder(self):
        self.put(bo="a(0,1) | a", anna="a | a\n\npaper : x\na | a\n")
        (self.folder / "notes.txt").write_text("no paper")
        (self.folder / "more").mkdir()
        anna, bo = self.folder / "anna.paper", self.folder / "bo.paper"
        said = f"{anna}:1: {PASSES}\n{anna}:3, x: {PASSES}\n{bo}: {FAILS}\n3 papers: 2 pass, 1 fails\n"
        self.check(run("mark", self.folder), 0, said.encode(), "2 others left alone")

    def test_a_folder_of_one(self):
        self.put(anna="a | a")
        said = f"{self.folder / 'anna.paper'}: {PASSES}\n1 paper: 1 passes\n"
        self.check(run("mark", self.folder), 0, said.encode(), "")

    def test_a_folder_of_none(self):
        none = self.folder / "*.paper"
        self.check(run("mark", self.folder), 2, f"{none}: not read: No such file or directory\n"
                   "1 paper: 1 not read\n".encode(), "")
        done = run("mark", self.folder, SAMPLES / "entry.paper")
        self.assertEqual((done.returncode, done.stdout.decode().splitlines()), (2, [
            f"{none}: not read: No such file or directory",
            f"{SAMPLES / 'entry.paper'}: {PASSES}", "2 papers: 1 passes, 1 not read"]))

    def test_names_and_places_that_cannot_be_read(self):
        """Each has its line, and the others are marked."""
        (self.folder / "anna.paper").symlink_to(self.folder / "nowhere")
        (self.folder / "bo.paper").mkdir()
        (Path(os.fsdecode(bytes(self.folder) + b"/J\xfcrgen.PAPER"))).write_text("a | a")
        done = run("mark", self.folder, "x" * 300, self.folder / "bo.paper" / "y" / "z.paper")
        self.assertEqual(done.returncode, 2)
        found = done.stdout.decode("latin-1").splitlines()
        self.assertEqual([line.split(": ", 1)[1] for line in found], [
            PASSES, "not read: No such file or directory", "not read: Is a directory",
            "not read: File name too long", "not read: No such file or directory",
            "1 passes, 4 not read"])
        self.assertIn("J\xfcrgen.PAPER", found[0])

    def test_texts_of_other_editors(self):
        for data, status in ((b"\xef\xbb\xbfa | a\r\n", 0), (b"# x\ra | a\r", 0),
                             ("a | a".encode("utf-16"), 1)):
            self.assertEqual(run("mark", data=data).returncode, status)
        self.check(run("mark", data="a | a".encode("utf-16")), 1, b"", "save it as UTF-8")

    def test_wrong_ones_do_not_stop_the_others(self):
        self.put(anna="a b", bo="a | a")
        missing = self.folder / "missing.paper"
        anna, bo = self.folder / "anna.paper", self.folder / "bo.paper"
        said = f"{anna}: {WRONG}\n{bo}: {PASSES}\n"
        self.check(run("mark", anna, bo), 1,
                   f"{said}2 papers: 1 passes, 1 in wrong notation\n".encode(), "")
        said += f"{missing}: not read: No such file or directory\n"
        count = "3 papers: 1 passes, 1 in wrong notation, 1 not read\n"
        self.check(run("mark", anna, bo, missing), 2, (said + count).encode(), "")

    def test_several_in_a_file(self):
        done = run("mark", data=b"a | a\n\na(0,1) | a\n\na b\n\npaper : Anna\na | A[a]\n")
        wrong = WRONG.replace("1:3", "5:3")
        said = (f"<stdin>:1: {PASSES}\n<stdin>:3: {FAILS}\n<stdin>:5: {wrong}\n"
                f"<stdin>:7, Anna: {OPEN}\n"
                "4 papers: 1 passes, 1 fails, 1 undecided, 1 in wrong notation\n")
        self.check(done, 1, said.encode(), "")

    def test_one_named_paper(self):
        self.check(run("mark", data=b"paper : Anna\na | a"), 0, f"{PASSES}\n".encode(), "")

    def test_why_of_several(self):
        done = run("why", "--short", data=b"a | a\n\na(0,1) | a\n")
        said = (f"<stdin>:1: {PASSES}\na | a: passes (M2): ok in both tables\n\n"
                f"<stdin>:3: {FAILS}\na(0,1) | a: fails 122 (M2): element, element: the minimum is "
                "below the base's: 0 is below 1\n\n2 papers: 1 passes, 1 fails\n")
        self.check(done, 0, said.encode(), "")

    def test_comma_separated_values(self):
        self.put(anna="a(0,1) | a\n\npaper : Nowak, A.\na | b\na | b : undecided", bo="a b")
        done = run("mark", "--csv", self.folder)
        self.assertEqual(done.returncode, 1)
        self.assertIn(b"3 papers: 1 fails, 1 undecided, 1 in wrong notation", done.stderr)
        rows = list(csv.reader(io.StringIO(done.stdout.decode())))
        anna, bo = str(self.folder / "anna.paper"), str(self.folder / "bo.paper")
        self.assertEqual([row[:6] for row in rows], [
            ["file", "paper", "line", "mark", "number", "rules"],
            [anna, "", "1", "fails", "122", "M2"],
            [anna, "Nowak, A.", "3", "undecided", "", "M2"],
            [bo, "", "1", "wrong notation", "", ""],
        ])
        self.assertEqual(rows[2][6], "a against b in the first table is undecided, at a | b")

    def test_a_thousand_papers(self):
        """Seconds, by one call of the marking program."""
        for number in range(1000):
            self.put(**{f"p{number}": paper_text(near_sheet(number))})
        program, called = self.counting(MARKER)
        start = time.monotonic()
        done = run("mark", self.folder, program=program)
        self.assertLess(time.monotonic() - start, 20)
        self.assertEqual(done.stdout.count(b"\n"), 1001)
        self.assertEqual(called.read_text(), "\n")

    @needs_joiner
    @needs_filler
    @needs_table_filler
    def test_samples(self):
        done = run("mark", SAMPLES)
        count = b"\n8 papers: 5 pass, 2 fail, 1 undecided\n"
        self.assertEqual((done.returncode, done.stdout[-len(count):]), (0, count))


class Packing(Command):
    """The folder for a machine without the toolchain."""

    # What a page names: a path from the root of the repository, or a link.
    PATH = re.compile(r"(?<![\w./-])(?:(?:bin|compare|crates|docs|link|samples|target|tools)/"
                      r"[\w./-]*\w|README\.md|NOTICE)")
    LINK = re.compile(r"\]\(([^)#\s]+\.\w+)|href=\"([^\"#]+)\"")
    LACKS = re.compile(r"this folder\s+lacks\s+(.*?),\s+which\s+the\s+repository\s+has", re.S)

    def pack(self, *words):
        path = f"{Path(sys.executable).parent}:/usr/bin:/bin"
        return subprocess.run([ROOT / "tools" / "pack", *map(str, words)], capture_output=True,
                              env={"PATH": path}, check=False)

    # What is packed is what `tools/build` built, whatever the variables name.
    @unittest.skipUnless(all(program.built.is_file() for program in PROGRAMS),
                         "a program is missing")
    def test_a_folder_that_marks(self):
        folder = self.folder / "desk"
        done = self.pack(folder)
        self.assertEqual((done.returncode, done.stdout.decode()), (
            0, f"pack: {folder}: its samples are 8 papers: 5 pass, 2 fail, 1 undecided\n"))
        for words in (("total", "samples/report.paper"), ("tidy", "samples/entry.paper"),
                      ("tidy", "--steps", "samples/report.paper"),
                      ("item", "0", "samples/entry.paper"), ("why", "samples/rounds.paper"),
                      ("why", "samples/types.paper"), ("why", "samples/titles.paper")):
            there, here = (
                subprocess.run([root / "tools" / "paper", *words], cwd=root, check=False,
                               capture_output=True) for root in (folder, ROOT))
            self.assertEqual((there.returncode, there.stderr), (0, b""))
            self.assertEqual(there.stdout, here.stdout)
        self.assertEqual(list(folder.glob("tools/test*")), [])
        pages = [*folder.glob("docs/KEY.html"), *folder.glob("**/*.md"), folder / "README.txt",
                 folder / "NOTICE"]
        self.assertGreaterEqual(len(pages), 6)
        for page in pages:
            with self.subTest(page=page.name):
                self.check_places(folder, page)

    def check_places(self, folder, page):
        """What a page names is in the folder, or said to be missing, and then in
        the repository."""
        text = page.read_text(encoding="utf-8")
        said = self.LACKS.search(text)
        lacks = re.split(r",\s+|\s+and\s+", said[1]) if said else []
        for place in lacks:
            self.assertTrue((ROOT / place).exists() and not (folder / place).exists(), place)
        for path in self.PATH.findall(text):
            self.assertTrue(path in lacks or path.split("/")[0] + "/" in lacks
                            or (folder / path).exists(), path)
        for link in filter(None, (found[1] or found[2] for found in self.LINK.finditer(text))):
            self.assertTrue("://" in link or (page.parent / link).exists(), link)

    def test_bad_usage(self):
        (self.folder / "file").write_text("")
        for words in ((), ("a", "b"), ("--help",), (self.folder,)):
            done = self.pack(*words)
            self.assertEqual((done.returncode, done.stdout), (2, b""))
            self.assertNotEqual(done.stderr, b"")


if __name__ == "__main__":
    unittest.main()
