"""Runs the proved describing program on a tree's bytes."""

import re
from typing import NamedTuple

import layout
from proved import DESCRIBE
from total import TOO_LARGE, UNBOUNDED, TotalRange

ANSWER = re.compile(
    rf"total ([0-9]+|{TOO_LARGE}), ([0-9]+|{TOO_LARGE}|{UNBOUNDED})\nemptiable (yes|no)\n".encode()
)


class Description(NamedTuple):
    total: TotalRange
    emptiable: bool


def describe(tree):
    """What the program says of the tree; raises NoAnswer where it says nothing
    of this form."""
    run = DESCRIBE.run(layout.encode_tree(tree))
    answer = ANSWER.fullmatch(run.stdout)
    if run.returncode != 0 or not answer:
        raise DESCRIBE.no_answer(run)
    minimum, maximum, emptiable = (part.decode() for part in answer.groups())
    return Description(TotalRange(number(minimum), number(maximum)), emptiable == "yes")


def number(text):
    return int(text) if text.isdigit() else text
