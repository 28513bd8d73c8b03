"""Marks and refusals in words, as documents 01 and 02 and docs/KEY.md word them.
The letter and number beside a reason is the rule's place in docs/KEY.md."""

from sheet import SET_REASONS

KEY = "docs/KEY.md"

PASSES = "the derived tree restricts the base tree"
UNDECIDED = (
    "no definite mark follows: a verdict that counts is undecided, "
    f"or an element meets an all-group ({KEY}, M12, M14, M15)"
)

OUTSIDE = "the range isn't within the base's"
NEVER_SHOWN = "second reading, which no mark shows"

REASONS = {
    101: ("element, wildcard: " + OUTSIDE, "M3"),
    102: ("wildcard, element: a wildcard can't restrict an element", "M4"),
    103: ("wildcard, wildcard: " + OUTSIDE, "M3"),
    104: ("wildcard, wildcard: weaker process contents", "M3"),
    105: ("sequence, sequence: " + OUTSIDE, "M5"),
    106: ("choice, choice: " + OUTSIDE, "M5"),
    107: ("all, all: " + OUTSIDE, "M6"),
    108: ("an item against an all-group: no untaken base element has its local name number", "M6"),
    109: ("against an all-group: a base element of minimum above 0 is left untaken", "M6"),
    110: (f"element, sequence: the base minimum is above 1 ({NEVER_SHOWN})", "M7"),
    111: (f"element, choice: no alternative passes ({NEVER_SHOWN})", "M7"),
    112: (f"element, choice: the base minimum is above 1 ({NEVER_SHOWN})", "M7"),
    113: ("group, wildcard: the total range isn't within the base's", "M9"),
    114: ("wildcard, group: a wildcard can't restrict a group", "M4"),
    115: ("all against sequence or choice, or choice against sequence or all", "M11"),
    116: ("sequence, choice: the pair times the item count isn't within the base pair", "M10"),
    117: ("sequence, choice: a member restricts none of the alternatives", "M10"),
    118: ("sequence, all: " + OUTSIDE, "M6"),
    119: ("sequence, all: an item that isn't an element", "M6"),
    120: ("ordered walk: a derived item is left and the base items are used up", "M13"),
    121: ("ordered walk: a base item is left over that isn't emptiable", "M13"),
    122: ("element, element: the minimum is below the base's", "M2"),
    123: ("element, element: the maximum is unbounded, the base's isn't", "M2"),
    124: ("element, element: the maximum is above the base's", "M2"),
    125: (f"element, sequence or choice: the base maximum is 0 ({NEVER_SHOWN})", "M7"),
}

CALLER = "the caller's mistake: "
EXAMINER = "the examiner's mistake: "
CANDIDATE = ("the candidate's mistake in a derived tree, "
             "or one in a tree alone or in a chain's level: ")

TREE_FAULTS = (
    ("the fields of a record are out of order", "R10"),
    ("the minimum is above a bounded maximum", "R11"),
    ("an all-group's maximum isn't 1, or an all's item is no element", "R12"),
    ("the depth is above 12", "R13"),
    ("the item counts need fewer or more records", "R14"),
)

REFUSALS = {
    1: (CALLER + "sheet under 8 bytes, a contents field out of its range, "
        "or total field or actual length unlike the formula", "S2"),
    2: (CALLER + "buffer shorter than the tree handed in, "
        "or than the joined tree, which no sheet shows", "Tidying, L6"),
    3: (EXAMINER + "the fields of a leaf are out of order", "S3"),
    4: (EXAMINER + "a verdict that is not 0, 1 or 140 to 152", "S3"),
    15: (CALLER + "chain of 0 or over 17 levels, or of a length unlike its counts", "L2"),
    16: (EXAMINER + "joined tree over 1000 records or depth 12", "L5"),
    17: (EXAMINER + "a type number that the list or the table of types does not have, "
         "or not one for each leaf", "V4, V6"),
    18: (EXAMINER + "a table of types of 0 or over 200 rows, "
         "or with a row whose parent is out of order", "V5"),
}
for place, (fault, rule) in enumerate(TREE_FAULTS):
    REFUSALS[5 + place] = (f"{EXAMINER}base tree, {fault}", f"S4, {rule}")
    REFUSALS[10 + place] = (f"{CANDIDATE}{fault}", f"S4, L3, {rule}")


def in_words(word, number):
    """What a mark says: ``passes``, ``undecided``, or ``fails`` or ``refused``
    with its number."""
    if word == "passes":
        return PASSES
    if word == "undecided":
        return UNDECIDED
    if word == "fails" and number in SET_REASONS:
        return "a reason that the paper sets"
    known = REFUSALS if word == "refused" else REASONS
    if number not in known:
        return "a number that docs/KEY.md doesn't have"
    text, rule = known[number]
    return f"{text} ({KEY}, {rule})"
