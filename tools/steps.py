"""Tidying step by step, for a lecture: the rule that applies (docs/KEY.md, D2 to
D5), what it does, and the whole tree after it. The items of a group come first,
from left to right (D1), then the group itself, rule by rule."""

from textwrap import indent
from typing import NamedTuple, Optional

from notation import cut_text, tree_text
from printed import WIDTH, folded
from sheet import Tree
from tidying import ORDERED, is_once, splices, takes_pair, with_pair_of

INDENT = "  "
NO_STEP = "no step applies: the tree is tidy"
# What a step does is cut after so many characters of an item or a group.
LONGEST = 36


class Step(NamedTuple):
    rule: str
    # The item that is dropped or replaced, or that takes its group's place or pair.
    item: Tree
    # That group, as it was; None where an item is dropped or replaced.
    group: Optional[Tree]
    # The whole tree after the step.
    tree: Tree


def steps(tree):
    """Every step in its turn; none for a leaf or an all-group (D6)."""
    if tree.kind not in ORDERED:
        return
    for place, item in enumerate(tree.items):
        for step in steps(item):
            tree = with_item(tree, place, step.tree)
            yield step._replace(tree=tree)
    for rule in (drops, replacements, lone_item):
        for step in rule(tree):
            tree = step.tree
            yield step


def with_item(tree, place, item):
    return tree._replace(items=[*tree.items[:place], item, *tree.items[place + 1:]])


def drops(tree):
    """D2."""
    return exchanges("D2", tree, lambda item: item.maximum == 0, lambda item: [])


def replacements(tree):
    """D3."""
    return exchanges("D3", tree, lambda item: splices(tree, item), lambda item: item.items)


def exchanges(rule, tree, applies, others):
    """A step for each item to which a rule applies, with others in its place."""
    found, done = [], []
    for place, item in enumerate(tree.items):
        if applies(item):
            done += others(item)
            after = tree._replace(items=done + tree.items[place + 1:])
            found.append(Step(rule, item, None, after))
        else:
            done.append(item)
    return found


def lone_item(tree):
    """D4 or D5, where one item is left."""
    if len(tree.items) != 1:
        return []
    only = tree.items[0]
    if is_once(tree):
        return [Step("D4", only, tree, only)]
    if takes_pair(tree, only):
        return [Step("D5", only, tree, with_pair_of(tree, only))]
    return []


def in_words(step, names):
    """The rule and what it does."""
    item = cut_text(step.item, names, LONGEST)
    if step.rule == "D2":
        return f"D2: {item} is dropped"
    if step.rule == "D3":
        return f"D3: {item} is replaced by its items{'' if step.item.items else ' (none)'}"
    what = "place" if step.rule == "D4" else "pair"
    return f"{step.rule}: {item} takes the {what} of {cut_text(step.group, names, LONGEST)}"


def lines(found, names):
    """A line for each step, with the tree after it beside what is done, or below
    where one of the lines would be long."""
    if not found:
        return [f"{INDENT}{NO_STEP}"]
    said = [f"{INDENT}{in_words(step, names)}" for step in found]
    after = [tree_text(step.tree, names) for step in found]
    column = max(map(len, said)) + len(INDENT)
    if column + max(map(len, after)) <= WIDTH:
        return [f"{words:<{column}}{text}" for words, text in zip(said, after)]
    return [f"{words}\n{indent(folded(text), 2 * INDENT)}" for words, text in zip(said, after)]
