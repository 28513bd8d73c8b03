"""Uses for trees alone: a tree or chain, or both trees of a paper, joined, told
of, tidied, or asked for an item."""

import checked
import draft
import layout
import printed
import steps
from faults import PaperError
from files import FINE, WRONG, Stop, put_bytes, put_text, shown, text_of
from notation import tree_text

# What is said of emptiness, by these rules.
EMPTY_RULES = "docs/KEY.md, E1, E2"
# A tree has fewer items than this.
MOST_ITEM = 65535


def paper_in(name):
    """A text and what it says; its derived tree may be left out."""
    text = text_of(name)
    try:
        return text, draft.read(text, alone=True)
    except PaperError as error:
        raise Stop(WRONG, error.report(shown(name), text)) from error


def join(options):
    text, paper = paper_in(options.file)
    tree = checked.joined(paper)
    if options.output is None:
        put_text(f"{checked.NO_CONTENT}\n" if tree is None else with_joined(text, paper, tree))
    elif tree is None:
        raise Stop(WRONG, f"{checked.NO_CONTENT}: there is no tree to write")
    else:
        put_bytes(layout.encode_tree(tree), options.output, "tree")
    return FINE


def with_joined(text, paper, tree):
    """The paper's text with its joined tree in the chain's place."""
    lines = text.split("\n")
    first, last = paper.chain.first, paper.chain.last
    before = lines[first.line - 1][:first.column - 1]
    after = lines[last.line - 1][last.column - 1 + len(last.text):]
    whole = printed.folded(tree_text(tree, paper.names))
    lines[first.line - 1:last.line] = [before + whole + after]
    return "\n".join(lines).rstrip("\n") + "\n"


def total(options):
    return each_tree(options, total_words)


def total_words(paper, tree):
    given = checked.description(tree)
    return f"{given.total.in_words()}; {emptiness(given)} (docs/KEY.md, T4, W4, E2)"


def emptiable(options):
    return each_tree(options, lambda paper, tree:
                     f"{emptiness(checked.description(tree))} ({EMPTY_RULES})")


def emptiness(given):
    return "emptiable" if given.emptiable else "not emptiable"


def tidy(options):
    if options.steps:
        return each_labelled(options, step_lines)
    return each_tree(options, lambda paper, tree: text_of_tree(paper, checked.tidied(paper, tree)))


def step_lines(label, paper, tree):
    """The tree, the steps by which it is tidied, and the tidied tree."""
    found = list(steps.steps(tree))
    tidied = checked.tidied(paper, tree, found[-1].tree if found else tree)
    first, last = (f"{label}{text_of_tree(paper, one)}" for one in (tree, tidied))
    return "\n".join([first, *steps.lines(found, paper.names), last])


def item(options):
    return each_tree(options, lambda paper, tree: item_words(paper, tree, options.k))


def item_words(paper, tree, k):
    found = checked.item(paper, tree, k)
    if found is None:
        count = len(tree.items)
        return f"no item {k}: there {'is 1 item' if count == 1 else f'are {count} items'}, from 0"
    return text_of_tree(paper, found)


def text_of_tree(paper, tree):
    return printed.folded(tree_text(tree, paper.names))


def each_tree(options, words):
    """Prints words on the one tree of a text, or on both."""
    return each_labelled(options, lambda label, paper, tree: f"{label}{words(paper, tree)}")


def each_labelled(options, words):
    """Prints words on the one tree of a text, or on both; ``words`` has what says
    which tree it is."""
    _, paper = paper_in(options.file)
    levels = paper.chain.levels
    tree = levels[0] if len(levels) == 1 else checked.joined(paper)
    if paper.derived is None:
        put_text(f"{checked.NO_CONTENT if tree is None else words('', paper, tree)}\n")
    else:
        put_text(f"{words('derived: ', paper, paper.derived)}\n{words('base: ', paper, tree)}\n")
    return FINE
