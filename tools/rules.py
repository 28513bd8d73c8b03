"""The rules of the mark over two particles, derived first (docs/KEY.md, M1 to
M12), each as a function that gives an outcome."""

import walks
from judgement import (
    KIND_WORDS, OPEN, PASSES, Node, Outcome, Step, fails, pair_text, range_outcome,
)
from sheet import PROCESS_CONTENTS, Kind, Tree
from tidying import emptiable, tidy
from total import cut, exact

E, W, S, C, A = Kind.ELEMENT, Kind.WILDCARD, Kind.SEQUENCE, Kind.CHOICE, Kind.ALL


class Judge:
    """Judges the particles of one sheet, each two of them once."""

    def __init__(self, subject):
        self.subject = subject
        # The particles seen, each under its fields, so that equal ones are one
        # object; and what was found of one, and of two.
        self.particles = {}
        self.texts = {}
        self.empty = {}
        self.known = {}

    def whole(self):
        """The judgement on the sheet's two trees, tidied (M1)."""
        sheet = self.subject.sheet
        derived, base = (self.particle(tidy(tree)) for tree in (sheet.derived, sheet.base))
        if derived.maximum == 0 and (base.maximum == 0 or self.emptiable(base)):
            why = "may not occur either" if base.maximum == 0 else "is emptiable"
            said = f"the derived tree may not occur, and the base tree {why}"
            return Node(derived, base, "M1", Outcome(PASSES, said))
        return self.restrict(derived, base)

    def restrict(self, derived, base):
        key = id(derived), id(base)
        if key not in self.known:
            rule, find = RULES[derived.kind, base.kind]
            self.known[key] = Node(derived, base, rule, find(self, derived, base))
        return self.known[key]

    def element_verdict(self, derived, base):
        return Node(derived, base, "M2", element_element(self, derived, base))

    def particle(self, tree):
        """The one object for this particle and for each below it."""
        items = [self.particle(item) for item in tree.items]
        key = (*tree[:-1], *map(id, items))
        return self.particles.setdefault(key, tree._replace(items=items))

    def alone_in(self, kind, pair, item):
        """A group of this kind and pair that holds the item alone."""
        return self.particle(Tree(kind, 0, *pair, [item]))

    def text(self, tree):
        if id(tree) not in self.texts:
            self.texts[id(tree)] = self.subject.text(tree)
        return self.texts[id(tree)]

    def emptiable(self, tree):
        if id(tree) not in self.empty:
            self.empty[id(tree)] = emptiable(tree)
        return self.empty[id(tree)]

    def leaf(self, tree):
        return self.subject.sheet.leaves[tree.leaf]

    def name(self, tree):
        """An element's local name number."""
        return self.leaf(tree).name


def first_not_ok(*checks):
    """The first outcome that does not pass, or the last."""
    for check in checks:
        outcome = check()
        if outcome.mark != PASSES:
            return outcome
    return outcome


def element_element(judge, derived, base):
    """M2."""
    def verdict(which):
        return lambda: judge.subject.verdict(which, derived.leaf, base.leaf)

    outcome = first_not_ok(verdict("first"), lambda: pair_outcome(derived, base), verdict("second"))
    if outcome.mark != PASSES:
        return outcome
    because = judge.subject.because(derived.leaf, base.leaf)
    said = f"ok in both tables{': ' if because else ''}{because}"
    return Outcome(PASSES, said, by=outcome.by)


def pair_outcome(derived, base):
    if derived.minimum < base.minimum:
        return Outcome(fails(122), f"{derived.minimum} is below {base.minimum}")
    if base.maximum is None:
        return Outcome(PASSES)
    if derived.maximum is None:
        return Outcome(fails(123), f"the base's is {base.maximum}")
    if derived.maximum > base.maximum:
        return Outcome(fails(124), f"{derived.maximum} is above {base.maximum}")
    return Outcome(PASSES)


def leaf_wildcard(judge, derived, base):
    """M3: range, for two wildcards process contents, second table."""
    def range_of():
        reason = 101 if derived.kind == E else 103
        return range_outcome(reason, derived.minimum, derived.maximum, base)

    def process():
        own, other = judge.leaf(derived).process, judge.leaf(base).process
        if derived.kind == E or own >= other:
            return Outcome(PASSES)
        weaker = f"{PROCESS_CONTENTS[own]} is weaker than {PROCESS_CONTENTS[other]}"
        return Outcome(fails(104), weaker)

    return first_not_ok(range_of, process,
                        lambda: judge.subject.verdict("second", derived.leaf, base.leaf))


def wildcard_other(judge, derived, base):
    """M4."""
    return Outcome(fails(102 if base.kind == E else 114))


def same_kind(judge, derived, base):
    """M5: range, then the walk, lax in a choice."""
    reason = 105 if derived.kind == S else 106
    return first_not_ok(
        lambda: range_outcome(reason, derived.minimum, derived.maximum, base),
        lambda: walks.ordered(judge, derived.items, base.items, derived.kind == C),
    )


def against_all(judge, derived, base):
    """M6."""
    reason = 107 if derived.kind == A else 118
    return first_not_ok(
        lambda: range_outcome(reason, derived.minimum, derived.maximum, base),
        lambda: walks.unordered(judge, derived.items, base.items),
    )


def element_group(judge, derived, base):
    """M7: two readings."""
    once = judge.particle(derived._replace(minimum=1, maximum=1))
    alone = judge.alone_in(base.kind, (derived.minimum, derived.maximum), once)
    wrapped = f"{judge.text(derived)} in a {KIND_WORDS[base.kind]} of its own"
    first = Step(judge.restrict(alone, base), f"first reading, {wrapped}", wrapped=wrapped)
    if first.node.mark == PASSES:
        return Outcome(PASSES, "", [first], 0)
    second = Step(Node(derived, base, "M7", second_reading(judge, derived, base)),
                  "second reading")
    steps = [first, second]
    if second.node.mark == PASSES:
        return Outcome(PASSES, "", steps, 1)
    if OPEN not in (first.node.mark, second.node.mark):
        steps.append(Step(None, after="two failures give the first's reason (M7)"))
        return Outcome(first.node.mark, "", steps, 0)
    steps.append(Step(None, after="neither reading passes, and one is undecided (M7)"))
    return Outcome(OPEN, "", steps, 0 if first.node.mark == OPEN else 1, "M7")


def second_reading(judge, derived, base):
    if base.minimum > 1:
        return Outcome(fails(110 if base.kind == S else 112), f"{base.minimum} is above 1")
    if base.maximum == 0:
        return Outcome(fails(125))
    if base.kind == S:
        return walks.ordered(judge, [derived], base.items, False)
    return walks.alternatives(judge, derived, base.items, 111)


def group_element(judge, derived, base):
    """M8: the base wrapped."""
    alone = judge.alone_in(derived.kind, (1, 1), base)
    wrapped = f"the base's {judge.text(base)} in a {KIND_WORDS[derived.kind]} of its own"
    below = judge.restrict(derived, alone)
    return Outcome(below.mark, "", [Step(below, wrapped, wrapped=wrapped)], 0, "M8")


def group_wildcard(judge, derived, base):
    """M9: total range, then each member against the wildcard with pair (0,*)."""
    minimum, maximum = exact(derived)
    members = judge.particle(base._replace(minimum=0, maximum=None))
    within = range_outcome(113, minimum, maximum, base)
    if within.mark != PASSES:
        total = pair_text(cut(minimum), None if maximum is None else cut(maximum))
        return within._replace(detail=f"{total} isn't within "
                               f"{pair_text(base.minimum, base.maximum)} (T5)")
    return walks.each_member((judge.restrict(item, members) for item in derived.items),
                             len(derived.items))


def sequence_choice(judge, derived, base):
    """M10: pair times item count, then each member against the alternatives."""
    count = len(derived.items)
    maximum = None if derived.maximum is None else derived.maximum * count
    within = range_outcome(116, derived.minimum * count, maximum, base)
    if within.mark != PASSES:
        stays = maximum is None and count == 0
        note = "; unbounded stays unbounded even for 0 items" if stays else ""
        return within._replace(detail=f"{within.detail}{note}")
    return walks.each_member(
        (walks.among_alternatives(judge, item, base) for item in derived.items), count)


def unlike_groups(judge, derived, base):
    """M11."""
    return Outcome(fails(115), f"{KIND_WORDS[derived.kind]} against {KIND_WORDS[base.kind]}")


def meets_all(judge, derived, base):
    """M12."""
    element, group = (derived, base) if derived.kind == E else (base, derived)
    said = f"the element {judge.text(element)} meets the all-group {judge.text(group)}"
    return Outcome(OPEN, said)


RULES = {
    (E, E): ("M2", element_element), (E, W): ("M3", leaf_wildcard), (W, W): ("M3", leaf_wildcard),
    (W, E): ("M4", wildcard_other), (W, S): ("M4", wildcard_other),
    (W, C): ("M4", wildcard_other), (W, A): ("M4", wildcard_other),
    (S, S): ("M5", same_kind), (C, C): ("M5", same_kind),
    (A, A): ("M6", against_all), (S, A): ("M6", against_all),
    (E, S): ("M7", element_group), (E, C): ("M7", element_group),
    (S, E): ("M8", group_element), (C, E): ("M8", group_element),
    (S, W): ("M9", group_wildcard), (C, W): ("M9", group_wildcard), (A, W): ("M9", group_wildcard),
    (S, C): ("M10", sequence_choice),
    (A, S): ("M11", unlike_groups), (A, C): ("M11", unlike_groups),
    (C, S): ("M11", unlike_groups), (C, A): ("M11", unlike_groups),
    (E, A): ("M12", meets_all), (A, E): ("M12", meets_all),
}
