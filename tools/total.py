"""The total range of a tree (document 02 §2): exact sums and products, zero
times unbounded being 0, and then one cut at the largest number of 32 bits."""

from typing import NamedTuple, Union

from sheet import MOST_OCCURS, Kind

TOO_LARGE = "too large"
UNBOUNDED = "unbounded"


class TotalRange(NamedTuple):
    # A number or TOO_LARGE.
    minimum: Union[int, str]
    # A number, TOO_LARGE or UNBOUNDED.
    maximum: Union[int, str]

    def __str__(self):
        return f"{self.minimum}, {self.maximum}"

    def in_words(self):
        return f"total {self}: {least_in_words(self.minimum)}, {most_in_words(self.maximum)}"


def least_in_words(minimum):
    if minimum == TOO_LARGE:
        return f"more than {MOST_OCCURS} names"
    return f"at least {minimum} {'name' if minimum == 1 else 'names'}"


def most_in_words(maximum):
    if maximum == UNBOUNDED:
        return "no upper bound"
    if maximum == TOO_LARGE:
        return f"bounded by a number above {MOST_OCCURS}"
    return f"at most {maximum} {'name' if maximum == 1 else 'names'}"


def total(tree):
    minimum, maximum = exact(tree)
    return TotalRange(cut(minimum), UNBOUNDED if maximum is None else cut(maximum))


def cut(number):
    return number if number <= MOST_OCCURS else TOO_LARGE


def exact(tree):
    """The least and the greatest number, without limit; None is unbounded."""
    if tree.kind.is_leaf:
        return tree.minimum, tree.maximum
    least, most = spanned(tree) if tree.kind == Kind.CHOICE else added(tree)
    return tree.minimum * least, product(tree.maximum, most)


def added(tree):
    ranges = [exact(item) for item in tree.items]
    open_end = any(most is None for _, most in ranges)
    return sum(least for least, _ in ranges), None if open_end else sum(m for _, m in ranges)


def spanned(tree):
    ranges = [exact(item) for item in tree.items]
    open_end = any(most is None for _, most in ranges)
    least = min((least for least, _ in ranges), default=0)
    return least, None if open_end else max((m for _, m in ranges), default=0)


def product(a, b):
    if a == 0 or b == 0:
        return 0
    return None if a is None or b is None else a * b
