"""Document 01's notation for trees, read and written: S, C, A groups, letters
for elements, w for wildcards, (1,2) a pair, * unbounded, no pair (1,1)."""

import re

from faults import PaperError
from hints import A_LEAF
from sheet import MOST_DEPTH, MOST_LEAVES, MOST_OCCURS, MOST_RECORDS, Kind, Tree

LETTERS = "abcdefghijklmnopqrstuvxyz"
WILDCARD_LETTER = "w"
GROUPS = {"S": Kind.SEQUENCE, "C": Kind.CHOICE, "A": Kind.ALL}
GROUP_LETTERS = {kind: letter for letter, kind in GROUPS.items()}
# A letter, or a letter with a number where the letters do not suffice.
LEAF = re.compile(r"[a-z]([1-9][0-9]*)?")


def leaf_kind(name):
    """The kind of the leaf of this name; None where it is no leaf's name."""
    if not LEAF.fullmatch(name):
        return None
    return Kind.WILDCARD if name[0] == WILDCARD_LETTER else Kind.ELEMENT


class LeafNames:
    """The leaves of a paper in the order in which they turn up."""

    def __init__(self):
        self.numbers = {}

    def number(self, token):
        """The leaf's number; a new leaf gets the next one."""
        if token.text not in self.numbers:
            if len(self.numbers) == MOST_LEAVES:
                raise PaperError(
                    token, f"at most {MOST_LEAVES} leaves", f"'{token.text}', one more"
                )
            self.numbers[token.text] = len(self.numbers)
        return self.numbers[token.text]


class TreeReader:
    """Reads one tree from a line."""

    def __init__(self, scanner, names):
        self.scanner = scanner
        self.names = names
        self.records = 0

    def tree(self, depth=1, in_all=False):
        head = self.scanner.token
        kind = GROUPS.get(head.text, leaf_kind(head.text))
        if kind is None:
            self.scanner.fail(A_LEAF, *GROUPS)
        self.check_place(head, kind, depth, in_all)
        self.scanner.take()
        minimum, maximum = self.pair(kind)
        if kind.is_leaf:
            return Tree(kind, self.names.number(head), minimum, maximum, [])
        return Tree(kind, 0, minimum, maximum, self.items(kind, depth))

    def check_place(self, head, kind, depth, in_all):
        if in_all and kind != Kind.ELEMENT:
            raise PaperError(head, "an element as item of an all-group")
        if depth > MOST_DEPTH:
            raise PaperError(head, f"a depth of at most {MOST_DEPTH}", f"an item at depth {depth}")
        self.records += 1
        if self.records > MOST_RECORDS:
            raise PaperError(
                head, f"at most {MOST_RECORDS} groups and leaves in a tree", "one more"
            )

    def pair(self, kind):
        start = self.scanner.token
        if not self.scanner.skip("("):
            return 1, 1
        minimum = self.scanner.number(MOST_OCCURS)
        self.scanner.expect(",")
        unbounded = self.scanner.skip("*")
        maximum = None if unbounded else self.scanner.number(MOST_OCCURS)
        self.scanner.expect(")")
        found = f"({minimum},{'*' if unbounded else maximum})"
        if not unbounded and minimum > maximum:
            raise PaperError(start, "a minimum that is not above the maximum", found)
        if kind == Kind.ALL and maximum != 1:
            raise PaperError(start, "the maximum 1 for an all-group", found)
        return minimum, maximum

    def items(self, kind, depth):
        self.scanner.expect("[")
        items = []
        if self.scanner.skip("]"):
            return items
        while True:
            items.append(self.tree(depth + 1, kind == Kind.ALL))
            if self.scanner.skip("]"):
                return items
            self.scanner.expect(",")


def leaf_names(leaves):
    """Names for a sheet's leaves, in order: elements a, b, ... without w, then
    a1, b1, ...; wildcards w, w1, w2, ..."""
    names = []
    elements = wildcards = 0
    for leaf in leaves:
        if leaf.kind == Kind.ELEMENT:
            number, place = divmod(elements, len(LETTERS))
            names.append(numbered(LETTERS[place], number))
            elements += 1
        else:
            names.append(numbered(WILDCARD_LETTER, wildcards))
            wildcards += 1
    return names


def numbered(letter, number):
    return f"{letter}{number}" if number else letter


def tree_text(tree, names):
    head = head_text(tree, names)
    if tree.kind.is_leaf:
        return head
    return f"{head}[{','.join(tree_text(item, names) for item in tree.items)}]"


def cut_text(tree, names, longest):
    """A tree's text, cut after so many characters."""
    text = tree_text(tree, names)
    return text if len(text) <= longest else f"{text[:longest - 3]}..."


def head_text(tree, names):
    """A tree's letter and pair."""
    letter = names[tree.leaf] if tree.kind.is_leaf else GROUP_LETTERS[tree.kind]
    if (tree.minimum, tree.maximum) == (1, 1):
        return letter
    maximum = "*" if tree.maximum is None else tree.maximum
    return f"{letter}({tree.minimum},{maximum})"


def unfinished_text(heads, names):
    """The text of a tree's first records, each with its item count, as far as
    it goes."""
    text = ""
    # How many items each open group still awaits.
    awaited = []
    for head, count in heads:
        text += head_text(head, names)
        if not head.kind.is_leaf:
            text += "["
            awaited.append(count)
        elif awaited:
            awaited[-1] -= 1
        while awaited and awaited[-1] == 0:
            awaited.pop()
            text += "]"
            if awaited:
                awaited[-1] -= 1
        if awaited and not text.endswith("["):
            text += ","
    return text
