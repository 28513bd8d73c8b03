"""Runs the proved programs that write a tree: joining, tidying, and the k-th
item."""

import layout
from proved import ITEM, JOIN, TIDY
from refusals import Refused, read_tree


def join(levels, leaves):
    """The joined tree, None for no content."""
    return tree_from(JOIN, layout.encode_chain(levels), leaves, b"no content\n")


def tidy(tree, leaves):
    """The tidied tree."""
    return tree_from(TIDY, layout.encode_tree(tree), leaves)


def item(tree, k, leaves):
    """The root's k-th item, from 0, None where there is none."""
    return tree_from(ITEM, layout.encode_item(k, tree), leaves, b"no item\n")


def tree_from(program, data, leaves, without=None):
    """The tree that a program writes, None where it says in these words that there
    is none; raises Refused where it refuses the data, NoAnswer where it does none
    of the three."""
    run = program.written(data, without)
    if run is None:
        return None
    try:
        return read_tree(run.stdout, leaves)
    except Refused as refused:
        raise program.no_answer(run) from refused
