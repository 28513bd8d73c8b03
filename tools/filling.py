"""Type verdicts, as document 02 §6 words them (docs/KEY.md, V2 and V3), along the
chains of any table of types (§7; V6). The filled sheets that count are those of the
proved programs."""

from sheet import OK, UNDECIDED, Kind
from typenames import ANY_SIMPLE_TYPE, ANY_TYPE, BUILTIN

# The reason where a type is not derived from the base's.
NOT_DERIVED = 148


def type_derivation_ok(derived, base, table=BUILTIN):
    """V2: the verdict on two types of a table."""
    if base in (ANY_TYPE, ANY_SIMPLE_TYPE) or base in table.chain(derived):
        return OK
    return NOT_DERIVED


def fill(sheet, types, table=BUILTIN):
    """V3: the sheet with the verdict of their types on each two elements that
    the second table leaves undecided. There is a type number for each leaf; a
    wildcard's is not read."""
    second = [list(row) for row in sheet.second]
    for row, column in undecided_elements(sheet):
        second[row][column] = type_derivation_ok(types[row], types[column], table)
    return sheet._replace(second=second)


def undecided_elements(sheet):
    """Each two elements that the second table leaves undecided, derived first."""
    elements = [number for number, leaf in enumerate(sheet.leaves) if leaf.kind == Kind.ELEMENT]
    return [(row, column) for row in elements for column in elements
            if sheet.second[row][column] == UNDECIDED]


def in_words(derived, base, table=BUILTIN):
    """Why two types have their verdict."""
    own, other = table.names[derived], table.names[base]
    if derived == base:
        return f"both are {own}"
    if base in table.chain(derived):
        return f"{own} is derived from {other}"
    if base == ANY_SIMPLE_TYPE:
        return f"{other} is ok as the base of every type"
    return f"{own} is not derived from {other}"
