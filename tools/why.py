"""Why a paper has its mark: the judgements on its particles as indented lines,
and the words for the judgement that decides."""

from itertools import takewhile

from judgement import OPEN, PASSES, path
from sheet import SET_REASONS
from words import KEY, NEVER_SHOWN, REASONS, in_words

INDENT = "  "
AS_ABOVE = "as above"
# So many skipped items are named.
MOST_SKIPPED = 3


def lines(subject, node):
    """Every judgement from this one down; one that turns up again is not
    repeated."""
    found, seen = [], set()

    def add(step, depth):
        again = step.node and step.node.outcome.steps and id(step.node) in seen
        found.append(INDENT * depth + line(subject, step, AS_ABOVE if again else ""))
        if step.node and not again:
            seen.add(id(step.node))
            for below in step.node.outcome.steps:
                add(below, depth + 1)
        if step.node and step.after:
            found.append(INDENT * (depth + 1) + step.after)

    add(path(node)[0], 0)
    return found


def short_lines(subject, node):
    """The path to the judgement that decides, or this judgement alone where it
    passes."""
    steps = path(node)[:1] if node.mark == PASSES else path(node)
    return [INDENT * depth + line(subject, step) for depth, step in enumerate(steps)]


def line(subject, step, addition=""):
    """A judgement: how it came about, the two particles, mark, rules and reason."""
    if step.node is None:
        return step.after
    label = f"{step.label}: " if step.label else ""
    said = "; ".join(filter(None, [reason(step.node), addition]))
    judged = f"{particles(subject, step.node)}: {step.node.mark} ({', '.join(rules(step.node))})"
    return f"{label}{judged}{': ' if said else ''}{said}"


def particles(subject, node):
    return f"{subject.text(node.derived)}{node.between}{subject.text(node.base)}"


def rules(node):
    """The rule of the two kinds and, where they are others, that of the reason,
    those of the verdict, and that by which an item makes it undecided."""
    found = [node.rule]
    if node.mark == OPEN and node.decisive:
        found.append(node.outcome.carried)
    elif not node.decisive and node.mark.number in REASONS:
        found.append(REASONS[node.mark.number][1])
    return list(dict.fromkeys([*found, *node.outcome.by]))


def reason(node):
    """What decides a judgement, where nothing below it does."""
    if node.decisive:
        return ""
    if node.mark.word == "fails" and node.mark.number not in SET_REASONS:
        words = REASONS[node.mark.number][0].replace(f" ({NEVER_SHOWN})", "")
        return ": ".join(filter(None, [words, node.outcome.detail]))
    return node.outcome.detail


class Words:
    """The words that fit a paper's mark: what decides it, and by which rules."""

    def __init__(self, subject, node):
        if node.mark == PASSES:
            self.text, self.rules = in_words("passes", None), []
            return
        *above, last = path(node)
        self.text = f"{reason(last.node)}, at {particles(subject, last.node)}"
        self.rules = rules(last.node)
        if last.wrapped:
            self.text += f", with {last.wrapped}"
            self.rules.append(above[-1].node.rule)
        if node.mark == OPEN:
            self.rules += [step.node.outcome.carried for step in reversed(above)]
        tried = skipped([step.node for step in (*above, last)])
        if tried:
            self.text += f", after skipping {named(subject, tried)}"
            self.rules.append("M13")
        self.rules = list(dict.fromkeys(self.rules))

    def __str__(self):
        return with_rules(self.text, self.rules)


def with_rules(text, cited):
    return f"{text} ({KEY}, {', '.join(cited)})" if cited else text


def skipped(nodes):
    """The judgements on base items that the walk which ends skipped: for the item
    that ends it, which may have been meant for one of these; or, where an item is
    left, all of them."""
    if nodes[-1].mark.number == 120:
        return [step.node for step in nodes[-1].outcome.steps if step.skips]
    if len(nodes) == 1:
        return []
    walk = nodes[-2].outcome
    before = reversed(walk.steps[:walk.decides])
    return [step.node for step in takewhile(lambda step: step.skips, before)][::-1]


def named(subject, tried):
    said = [f"{subject.text(node.base)} ({node.mark.number})" for node in tried]
    more = f" and {len(said) - MOST_SKIPPED} more" if len(said) > MOST_SKIPPED else ""
    return f"{', '.join(said[-MOST_SKIPPED:])}{more}"
