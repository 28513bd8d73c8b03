"""Emptiness and tidying of trees, as document 01 words them (docs/KEY.md, E1 and
D1 to D6). The answers that count are those of the proved programs."""

from sheet import Kind

ORDERED = (Kind.SEQUENCE, Kind.CHOICE)


def emptiable(tree):
    """E1."""
    if tree.minimum == 0:
        return True
    if tree.kind.is_leaf:
        return False
    if tree.kind == Kind.CHOICE:
        return not tree.items or any(map(emptiable, tree.items))
    return all(map(emptiable, tree.items))


def tidy(tree):
    """D1 to D6."""
    if tree.kind not in ORDERED:
        return tree
    items = []
    for item in map(tidy, tree.items):
        if item.maximum == 0:
            continue
        if splices(tree, item):
            items += item.items
        else:
            items.append(item)
    return closed(tree, items)


def closed(tree, items):
    """The group with these items, or the one item that takes its place."""
    if len(items) == 1:
        only = items[0]
        if is_once(tree):
            return only
        if takes_pair(tree, only):
            return with_pair_of(tree, only)
    return tree._replace(items=items)


def splices(group, item):
    """Whether an item is a (1,1) one of the group's own kind (D3)."""
    return item.kind == group.kind and is_once(item)


def takes_pair(group, only):
    """Whether the one item left in a group that is not (1,1) takes its pair (D5)."""
    return group.kind == Kind.SEQUENCE and only.kind == Kind.CHOICE and is_once(only)


def with_pair_of(group, item):
    return item._replace(minimum=group.minimum, maximum=group.maximum)


def is_once(tree):
    return (tree.minimum, tree.maximum) == (1, 1)
