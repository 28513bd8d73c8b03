"""The rules over several items (docs/KEY.md, M6, M9, M10, M13 to M15): the walk,
each member, the alternatives, base elements taken by local name number. Each
gives an outcome with a step for every judgement."""

from judgement import OPEN, PASSES, Node, Outcome, Step, fails
from sheet import Kind

# In a group of more items than this, each is told by its number.
FEW_ITEMS = 9
STILL_OPEN = "a failure after an undecided item is undecided (M14)"


class Row:
    """The steps of a rule over several items, in which the first undecided item
    counts (M14)."""

    def __init__(self):
        self.steps = []
        self.first_open = None

    def add(self, step):
        if step.node and step.node.mark == OPEN and self.first_open is None:
            self.first_open = len(self.steps)
        self.steps.append(step)

    def ends(self, mark=PASSES, detail="", by_last=False):
        """What the rule comes to where nothing else is undecided: this mark, for
        which the rule or the last step has its reason."""
        if self.first_open is None:
            return Outcome(mark, detail, self.steps, len(self.steps) - 1 if by_last else None)
        if mark != PASSES:
            said = f"{mark}: {detail}; " if detail else ""
            self.steps.append(Step(None, after=f"{said}{STILL_OPEN}"))
        return Outcome(OPEN, "", self.steps, self.first_open, "M14")


def ordered(judge, derived, base, lax):
    """M13: derived items are tried on base items in turn."""
    row, place = Row(), 0
    numbered = max(len(derived), len(base)) > FEW_ITEMS
    for number, item in enumerate(derived, 1):
        advanced = False
        while not advanced:
            if place == len(base):
                return row.ends(fails(120), f"{judge.text(item)} is left")
            step = tried(judge, item, base[place], lax)
            label = f"item {number} on item {place + 1}" if numbered else ""
            row.add(step._replace(label=label))
            advanced = step.node.mark in (PASSES, OPEN)
            if not (advanced or step.skips):
                return row.ends(step.node.mark, by_last=True)
            place += 1
    return left_over(judge, base[place:], lax, row)


def tried(judge, item, against, lax):
    """A derived item on a base item."""
    node = judge.restrict(item, against)
    if node.mark in (PASSES, OPEN):
        return Step(node)
    shown = judge.text(against)
    if lax or judge.emptiable(against):
        why = f"the walk is lax: {shown}" if lax else f"{shown} is emptiable (E1): it"
        return Step(node, after=f"{why} is skipped (M13)", skips=True)
    return Step(node, after=f"{shown} isn't emptiable (E1): the walk ends (M13)")


def left_over(judge, base, lax, row):
    """What is left of the base items where the derived ones are used up."""
    for item in base:
        shown = judge.text(item)
        if lax:
            row.add(Step(None, after=f"{shown} is left over: the walk is lax (M13)"))
        elif judge.emptiable(item):
            row.add(Step(None, after=f"{shown} is left over, and is emptiable (E1, M13)"))
        else:
            return row.ends(fails(121), f"{shown} is left over")
    return row.ends()


def each_member(judged, count):
    """M9, M10: each of so many members in turn, up to the first that fails."""
    row = Row()
    for number, node in enumerate(judged, 1):
        row.add(Step(node, f"item {number}" if count > FEW_ITEMS else ""))
        if node.mark not in (PASSES, OPEN):
            return row.ends(node.mark, by_last=True)
    return row.ends()


def alternatives(judge, item, base, reason):
    """M15: the first pass wins; else one undecided makes it undecided."""
    steps, first_open = [], None
    for place, against in enumerate(base):
        node = judge.restrict(item, against)
        steps.append(Step(node))
        if node.mark == PASSES:
            return Outcome(PASSES, "", steps, place)
        if node.mark == OPEN and first_open is None:
            first_open = place
    if first_open is not None:
        return Outcome(OPEN, "", steps, first_open, "M15")
    return Outcome(fails(reason), judge.text(item), steps)


def among_alternatives(judge, item, base):
    """A member of a sequence against the alternatives of a choice (M10)."""
    return Node(item, base, "M10", alternatives(judge, item, base.items, 117),
                " among the alternatives of ")


def unordered(judge, derived, base):
    """M6: each derived item takes the first untaken base element of its local
    name number."""
    row, untaken = Row(), list(base)
    for item in derived:
        if item.kind != Kind.ELEMENT:
            return row.ends(fails(119), judge.text(item))
        name = judge.name(item)
        same = [other for other in untaken if judge.name(other) == name]
        if not same:
            return row.ends(fails(108), f"{judge.text(item)}, of name number {name}")
        # Equal particles are one object, so the first of them is this one.
        untaken.remove(same[0])
        node = judge.element_verdict(item, same[0])
        row.add(Step(node, f"both have the name number {name}"))
        if node.mark not in (PASSES, OPEN):
            return row.ends(node.mark, by_last=True)
    return taken_all(judge, untaken, row)


def taken_all(judge, untaken, row):
    for item in untaken:
        if item.minimum > 0:
            return row.ends(fails(109), judge.text(item))
        row.add(Step(None, after=f"{judge.text(item)} is left untaken: its minimum is 0 (M6)"))
    return row.ends()
