"""A sheet as the text of a paper: the trees, then what differs from document
01's defaults. draft.py reads it back to the same sheet."""

import re

from draft import ONLY_LEAF
from notation import leaf_names, tree_text
from sheet import PROCESS_CONTENTS, usual_leaf, usual_verdict
from statements import VERDICT_WORDS

WORD_OF_VERDICT = {number: word for word, number in VERDICT_WORDS.items()}

# Trees go on in another line after so many characters.
WIDTH = 96
# What of a tree's text ends in a comma that is in no pair, and so in brackets.
UP_TO_COMMA = re.compile(r"(?:\([^)]*\)|[^(,])+,?")


def paper_text(sheet):
    names = leaf_names(sheet.leaves)
    lines = [folded(f"{tree_text(sheet.derived, names)} | {tree_text(sheet.base, names)}")]
    found = [names[number] for number in leaves_in_order(sheet.derived, sheet.base)]
    if (found or [ONLY_LEAF]) != names:
        lines.append(f"leaves : {', '.join(names)}")
    lines += [f"{', '.join(leaves)} : {what}" for what, leaves in leaf_settings(sheet, names)]
    lines += verdict_lines(sheet, names)
    return "".join(f"{line}\n" for line in lines)


def folded(trees):
    """The text of trees, on several lines where it is long."""
    first, *others = UP_TO_COMMA.findall(trees)
    lines = [first]
    for part in others:
        if len(lines[-1]) + len(part) > WIDTH:
            lines.append("  ")
        lines[-1] += part
    return "\n".join(lines)


def leaves_in_order(*trees):
    """The leaf numbers of the trees in the order in which they turn up."""
    found = {}
    for tree in trees:
        if tree.kind.is_leaf:
            found.setdefault(tree.leaf)
        for number in leaves_in_order(*tree.items):
            found.setdefault(number)
    return list(found)


def leaf_settings(sheet, names):
    """What is unusual in the leaves, each with the leaves that have it."""
    settings = {}
    for number, leaf in enumerate(sheet.leaves):
        usual = usual_leaf(leaf.kind, number)
        if leaf.process != usual.process:
            settings.setdefault(PROCESS_CONTENTS[leaf.process], []).append(names[number])
        if leaf.name != usual.name:
            settings.setdefault(f"name {leaf.name}", []).append(names[number])
    return settings.items()


def verdict_lines(sheet, names):
    """Pairs of one row with the same verdicts share a line, and so do rows that
    say the same of the same leaves."""
    rows = {}
    for row, derived in enumerate(names):
        columns = {}
        for column, base in enumerate(names):
            pair = sheet.first[row][column], sheet.second[row][column]
            what = verdict_text(*pair, usual_verdict(row, column))
            if what:
                columns.setdefault(what, []).append(base)
        for what, bases in columns.items():
            rows.setdefault((", ".join(bases), what), []).append(derived)
    return [f"{', '.join(derived)} | {bases} : {what}" for (bases, what), derived in rows.items()]


def verdict_text(first, second, usual):
    """What differs from the usual verdict; empty where nothing does."""
    if first == second:
        return "" if first == usual else verdict_word(first)
    parts = []
    if first != usual:
        parts.append(f"first {verdict_word(first)}")
    if second != usual:
        parts.append(f"second {verdict_word(second)}")
    return ", ".join(parts)


def verdict_word(verdict):
    return WORD_OF_VERDICT.get(verdict, str(verdict))
