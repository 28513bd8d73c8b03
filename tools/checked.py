"""What the proved programs answer, held to this aid's own reading: where the two
differ, the command ends and says so."""

import chain
import describer
import filler
import filling
import layout
import marker
import treewriters
from files import UNUSABLE, WRONG, Stop
from notation import tree_text
from proved import FILL_BY, ITEM, JOIN, TIDY, NoAnswer
from refusals import CONTENTS, TYPE_TABLE, Refused
from tidying import emptiable, tidy
from total import total

NO_CONTENT = "no content"


def joined(paper):
    """The tree of a paper's chain, None for no content."""
    levels = paper.chain.levels
    return same_tree(paper, "joined tree", JOIN, chain.join(levels),
                     lambda: treewriters.join(levels, paper.leaves), NO_CONTENT)


def tidied(paper, tree, here=None):
    """The tidied tree, which must be the one here: that in which the steps end, where
    there is one, else that of the plain reading."""
    here = tidy(tree) if here is None else here
    return same_tree(paper, "tidied tree", TIDY, here,
                     lambda: treewriters.tidy(tree, paper.leaves))


def item(paper, tree, k):
    """The root's k-th item, from 0, None where there is none."""
    here = tree.items[k] if k < len(tree.items) else None
    return same_tree(paper, "item", ITEM, here, lambda: treewriters.item(tree, k, paper.leaves))


def same_tree(paper, what, program, here, ask, without="none"):
    """A program's tree, which must be the one here."""
    def words(tree, _):
        return without if tree is None else tree_text(tree, paper.names)

    return same(what, program, here, ask, words)


def filled(sheet, types, table):
    """The sheet with its second table filled, byte for byte as here."""
    here = filling.fill(sheet, types, table)
    same("filled sheet", filler.program_for(table), layout.encode(here),
         lambda: filler.fill(sheet, types, table), sheet_words)
    return here


def sheet_words(data, other):
    """What of a sheet's bytes is not as in another's."""
    if other is None or len(data) != len(other):
        return f"of {len(data)} bytes"
    at = next(at for at, byte in enumerate(data) if byte != other[at])
    return f"{data[at]} at byte {at}"


def same(what, program, here, ask, words):
    """A program's answer, which must be the one here; ``words`` tells an answer
    from another, which is None where the program refuses."""
    def differ(there, said):
        found = f"{words(here, there)} by this aid, {said} by {program.called}"
        return Stop(WRONG, f"the {what} is {found}")

    try:
        there = ask()
    except NoAnswer as none:
        raise Stop(UNUSABLE, f"no {what}: {none}") from none
    except Refused as refused:
        raise differ(None, f"refused {refused.number}") from refused
    if there != here:
        raise differ(there, words(there, here))
    return there


def type_table(rows, is_refused):
    """Holds to the program whether it refuses a table of types in bytes. No sheet
    stands after the table, so one that is accepted is refused by the contents."""
    def words(number):
        known = {CONTENTS: "accepted", None: "taken for a sheet"}
        return known.get(number, f"refused {number}")

    here, there = TYPE_TABLE if is_refused else CONTENTS, None
    try:
        FILL_BY.written(layout.encode_filling_by(rows[:layout.MOST_COUNT], [], b""))
    except NoAnswer as none:
        raise Stop(UNUSABLE, f"no answer about the table of types: {none}") from none
    except Refused as refused:
        there = refused.number
    if here != there:
        raise Stop(WRONG, f"the table of types is {words(here)} by this aid, {words(there)} by "
                   f"{FILL_BY.called}")


def description(tree):
    """The describing program's total range and emptiness."""
    here = describer.Description(total(tree), emptiable(tree))
    try:
        given = describer.describe(tree)
    except NoAnswer as none:
        raise Stop(UNUSABLE, f"no total range: {none}") from none
    if given != here:
        raise Stop(WRONG, f"the total range is {here.total} by this aid, {given.total} by the "
                   "describing program, or they disagree about emptiness")
    return given


def mark(data, refusal=None):
    """The marking program's mark of a sheet, which is refused here by this."""
    try:
        given = marker.mark(data)
    except NoAnswer as none:
        raise Stop(UNUSABLE, f"no mark: {none}") from none
    same_refusal(given, refusal)
    return given


def marks(sheets):
    """The marking program's marks of sheets that are accepted here."""
    if len(sheets) == 1:
        return [mark(sheets[0])]
    try:
        given = marker.mark_many(sheets)
    except NoAnswer as none:
        raise Stop(UNUSABLE, f"no mark: {none}") from none
    for one in given:
        same_refusal(one, None)
    return given


def same_refusal(given, refusal):
    """The program must refuse what is refused here, by the same number, and
    nothing else."""
    here = str(refusal) if refusal else "accepted"
    there = str(given) if given.word == "refused" else "accepted"
    if here != there:
        raise Stop(WRONG, f"the sheet is {here} by this aid, {there} by the marking program")
