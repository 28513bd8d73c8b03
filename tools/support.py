"""What the tests share: random sheets, papers written in many ways, and the
proved programs where they are there."""

import os
import random
import stat
import subprocess
import sys
import tempfile
import unittest
from pathlib import Path

import proved
from draft import parse
from faults import PaperError
from notation import LETTERS, numbered, tree_text
from printed import leaves_in_order, verdict_word
from scanner import CLOSING, OPENING, TOKEN
from sheet import (
    MOST_DEPTH, MOST_LEAVES, MOST_NAME, MOST_OCCURS, MOST_RECORDS, OK, PROCESS_CONTENTS,
    SET_REASONS, UNDECIDED, Kind, Leaf, Sheet, Tree, usual_leaf, usual_table,
)


def needs(program):
    """Skips a test where the program is missing, and says so."""
    if not program.path().is_file():
        print(f"{program.path()} is missing: the tests that need {program.called} are skipped "
              f"(tools/build {program.name} makes it, {program.variable} names another)",
              file=sys.stderr)
    return unittest.skipUnless(program.path().is_file(), f"{program.called} is missing")


needs_marker = needs(proved.MARKER)
needs_joiner = needs(proved.JOIN)
needs_describer = needs(proved.DESCRIBE)
needs_tidier = needs(proved.TIDY)
needs_items = needs(proved.ITEM)
needs_filler = needs(proved.FILL)
needs_table_filler = needs(proved.FILL_BY)


def needs_every_program(test):
    """For a page whose commands may ask any of them."""
    for need in (needs_marker, needs_joiner, needs_describer, needs_tidier, needs_items,
                 needs_filler, needs_table_filler):
        test = need(test)
    return test


ROOT = proved.ROOT
SAMPLES = ROOT / "samples"
PAPER = ROOT / "tools" / "paper"
NUMBERS = (0, 1, 1, 1, 2, 3, 10, 65535, 65536, 65537, MOST_OCCURS - 1, MOST_OCCURS)


def random_sheet(seed, leaves=MOST_LEAVES, records=MOST_RECORDS, depth=MOST_DEPTH):
    """An accepted sheet of at most so many leaves, records and so much depth;
    each seed has its own."""
    rng = random.Random(seed)
    count = rng.choice([1, 1, 2, 3, rng.randint(1, min(8, leaves)), rng.randint(1, leaves)])
    share = rng.choice([0, 0.2, 0.5, 1])
    listed = [random_leaf(rng, share) for _ in range(min(count, leaves))]
    sizes = [1, rng.randint(1, min(8, records)), min(100, records), records]
    derived, base = (Grower(rng, listed, rng.choice(sizes), depth).tree() for _ in range(2))
    return Sheet(listed, random_table(rng, len(listed)), random_table(rng, len(listed)),
                 derived, base)


def row(records):
    """S[a,a,..] of so many records, over leaf 0."""
    return Tree(Kind.SEQUENCE, 0, 1, 1, [Tree(Kind.ELEMENT, 0, 1, 1, [])] * (records - 1))


def largest_sheet():
    """As many leaves and records as there may be; it passes."""
    leaves = [usual_leaf(Kind.ELEMENT, place) for place in range(MOST_LEAVES)]
    table, tree = usual_table(MOST_LEAVES), row(MOST_RECORDS)
    return Sheet(leaves, table, table, tree, tree)


def random_leaf(rng, wildcards):
    if rng.random() < wildcards:
        return Leaf(Kind.WILDCARD, rng.randrange(len(PROCESS_CONTENTS)), 0)
    name = rng.choice([0, 1, 2, 7, 263, MOST_NAME, rng.randint(0, MOST_NAME)])
    return Leaf(Kind.ELEMENT, 0, name)


def random_table(rng, count):
    table = usual_table(count)
    changed = rng.choice([0, 0, 0.1, 0.5, 1])
    verdicts = [OK, OK, UNDECIDED, *rng.sample(SET_REASONS, rng.choice([1, len(SET_REASONS)]))]
    return [
        [rng.choice(verdicts) if rng.random() < changed else usual for usual in row]
        for row in table
    ]


class Grower:
    """Grows a tree of at most so many records."""

    def __init__(self, rng, leaves, records, depth):
        self.rng = rng
        self.leaves = leaves
        self.records = records
        self.depth = depth

    def tree(self, depth=1, in_all=False):
        self.records -= 1
        elements = [n for n, leaf in enumerate(self.leaves) if leaf.kind == Kind.ELEMENT]
        if in_all:
            return Tree(Kind.ELEMENT, self.rng.choice(elements), *self.pair(), [])
        if self.rng.random() < 0.4:
            number = self.rng.randrange(len(self.leaves))
            return Tree(Kind(self.leaves[number].kind), number, *self.pair(), [])
        kind = self.rng.choice([Kind.SEQUENCE, Kind.SEQUENCE, Kind.CHOICE, Kind.CHOICE, Kind.ALL])
        pair = (self.rng.randint(0, 1), 1) if kind == Kind.ALL else self.pair()
        items = []
        wanted = self.rng.choice([0, 1, 2, 3, 4, 60, 600])
        allowed = depth < self.depth and (kind != Kind.ALL or elements)
        while allowed and len(items) < wanted and self.records > 0:
            items.append(self.tree(depth + 1, kind == Kind.ALL))
        return Tree(kind, 0, *pair, items)

    def pair(self):
        if self.rng.random() < 0.4:
            return 1, 1
        minimum, maximum = sorted(self.rng.choices(NUMBERS, k=2))
        return minimum, self.rng.choice([maximum, maximum, None])


def near_sheet(seed, leaves=5, records=30):
    """An accepted sheet whose derived tree is mostly within its base tree, and
    whose leaves mostly take each other's places."""
    rng = random.Random(seed)
    listed = [random_leaf(rng, 0.2) for _ in range(rng.randint(1, leaves))]
    depth = rng.choice([2, 4, MOST_DEPTH])
    base = max((Grower(rng, listed, records, depth).tree() for _ in range(4)),
               key=lambda tree: tree.records)
    ease = rng.choice([0.3, 0.6, 0.95])
    first, second = (
        [[OK if rng.random() < ease else verdict for verdict in row]
         for row in random_table(rng, len(listed))] for _ in range(2)
    )
    derived = narrowed(rng, base, rng.choice([0, 0, 0.02, 0.2]))
    return Sheet(listed, first, second, derived, base)


def narrowed(rng, tree, wild):
    """A tree of smaller pairs and fewer items, with something else in so many
    places."""
    minimum, maximum = tree.minimum, tree.maximum
    if rng.random() < 0.3 and tree.kind != Kind.ALL:
        most = min(minimum + 3, MOST_OCCURS) if maximum is None else maximum
        minimum, maximum = sorted(rng.choices([minimum, most, min(most, minimum + 1)], k=2))
    if rng.random() < wild and tree.kind != Kind.ALL:
        maximum = None
    items = [narrowed(rng, item, wild) for item in tree.items
             if item.minimum or rng.random() < 0.7]
    if tree.kind == Kind.CHOICE and items and rng.random() < 0.5:
        items = rng.sample(items, rng.randint(1, len(items)))
    if tree.kind == Kind.CHOICE and items and rng.random() < 0.4:
        return items[0]
    if tree.kind == Kind.ALL and rng.random() < 0.5:
        return tree._replace(kind=Kind.SEQUENCE, items=rng.sample(items, len(items)))
    if rng.random() < wild:
        items = items[1:]
    return tree._replace(minimum=minimum, maximum=maximum, items=items)


def random_paper(seed, sheet):
    """One of the many texts that stand for the sheet: letters, grouping, order,
    blanks and comments are free."""
    rng = random.Random(seed)
    names = random_names(rng, sheet.leaves)
    lines = []
    found = [names[n] for n in leaves_in_order(sheet.derived, sheet.base)]
    if found != names or rng.random() < 0.3:
        lines.append(f"leaves : {', '.join(names)}")
    for name, leaf in zip(names, sheet.leaves):
        process = PROCESS_CONTENTS[leaf.process]
        lines.append(f"{name} : " + (process if leaf.kind else f"name {leaf.name}"))
    for row, derived in enumerate(names):
        lines += verdict_statements(rng, derived, names, sheet.first[row], sheet.second[row])
    rng.shuffle(lines)
    trees = f"{tree_text(sheet.derived, names)} | {tree_text(sheet.base, names)}"
    lines = [spaced(rng, line) for line in [trees, *lines]]
    for _ in range(rng.randint(0, 2)):
        lines.insert(rng.randint(0, len(lines)), rng.choice(["", "  ", "# a | a : ok", "\t# é"]))
    return rng.choice(["\n", "\r\n"]).join(lines)


def random_names(rng, leaves):
    letters = rng.sample(LETTERS, len(LETTERS))
    elements = [numbered(letter, number) for number in (0, 1, 31) for letter in letters]
    wildcards = [numbered("w", number) for number in rng.sample(range(100), 64)]
    return [(wildcards if leaf.kind else elements).pop(0) for leaf in leaves]


def verdict_statements(rng, derived, names, first, second):
    """One row's verdicts: one by one, or those alike together."""
    alike = {}
    for base, pair in zip(names, zip(first, second)):
        alike.setdefault(pair, []).append(base)
    lines = []
    for pair, bases in alike.items():
        said = [verdict_word(v) if rng.random() < 0.8 else str(v) for v in pair]
        together = [", ".join(bases)] if rng.random() < 0.5 else bases
        for group in together:
            if pair[0] == pair[1] and rng.random() < 0.8:
                lines.append(f"{derived} | {group} : {said[0]}")
            elif rng.random() < 0.5:
                lines.append(f"{derived} | {group} : first {said[0]}, second {said[1]}")
            else:
                lines.append(f"{derived} | {group} : first {said[0]}")
                lines.append(f"{derived} | {group} : second {said[1]}")
    return lines


def spaced(rng, line):
    """The line with other blanks, on more lines where a bracket is open, and
    sometimes with a comment."""
    text, opened = "", 0
    for token in TOKEN.findall(line):
        apart = text[-1:].isalnum() and token[0].isalnum()
        blank = rng.choice([" ", "  ", "\t"] if apart else ["", "", " "])
        if opened > 0 and rng.random() < 0.05:
            blank = rng.choice(["\n", "\r\n  ", "\n\n", " # ]\n"])
        text += blank + token
        opened += (token == OPENING) - (token == CLOSING)
    return text + rng.choice(["", "", " ", " # S[a | : é"])


def run(*words, data=b"", program=None, joiner=None, describer=None, tidier=None, items=None,
        filler=None, table_filler=None, stdout=subprocess.PIPE):
    environment = dict(os.environ)
    for variable, path in (("MARKER", program), ("JOIN", joiner), ("DESCRIBE", describer),
                           ("TIDY", tidier), ("ITEM", items), ("FILL", filler),
                           ("FILL_BY", table_filler)):
        if path:
            environment[variable] = str(path)
    return subprocess.run([str(PAPER), *map(str, words)], input=data, stdout=stdout,
                          stderr=subprocess.PIPE, env=environment, check=False)


def octal(data):
    """The bytes as `printf` of the shell takes them."""
    return "".join(f"\\{byte:03o}" for byte in data)


class Command(unittest.TestCase):
    def setUp(self):
        folder = tempfile.TemporaryDirectory()
        self.addCleanup(folder.cleanup)
        self.folder = Path(folder.name)

    def check(self, done, status, output, message):
        self.assertEqual((done.returncode, done.stdout), (status, output), done.stderr)
        if message:
            self.assertIn(message, done.stderr.decode())
        else:
            self.assertEqual(done.stderr, b"")

    def program(self, answer, status=0, message=""):
        """A program in a proved one's place that gives this answer."""
        path = self.folder / "program"
        path.write_text(f"#!/bin/sh\ncat >/dev/null\nprintf '{answer}'\n"
                        f"printf '{message}' >&2\nexit {status}\n")
        path.chmod(stat.S_IRWXU)
        return path

    def counting(self, proved_one):
        """A program that does what a proved one does, and a file to which each of
        its runs adds a line."""
        path, called = (self.folder / f"{proved_one.name}{end}" for end in ("", ".called"))
        path.write_text(f'#!/bin/sh\necho >> {called}\n'
                        f'exec {proved_one.path().resolve()} "$@"\n')
        path.chmod(stat.S_IRWXU)
        return path, called


class FaultsCase(unittest.TestCase):
    def read(self, text):
        return parse(text)

    def check(self, text, line, column, expected, found):
        with self.subTest(text=text[:60]):
            with self.assertRaises(PaperError) as raised:
                self.read(text)
            error = raised.exception
            self.assertEqual(str(error), f"expected {expected}, found {found}")
            self.assertEqual((error.line, error.column), (line, column))

    def check_hint(self, text, words):
        """The hint has these words; there is none where they are None."""
        with self.subTest(text=text):
            with self.assertRaises(PaperError) as raised:
                self.read(text)
            hint = raised.exception.hint
            self.assertEqual(hint is None, words is None, hint)
            self.assertIn(words or "", hint or "")
