"""Runs the proved programs for filling on a sheet and a type number for each leaf."""

import layout
from proved import FILL, FILL_BY
from typenames import BUILTIN


def program_for(table):
    """Which program fills by this table."""
    return FILL_BY if table.declared else FILL


def fill(sheet, types, table=BUILTIN):
    """The filled sheet's bytes; raises Refused where the program refuses the sheet,
    the types or the table, NoAnswer where it does neither."""
    data = layout.encode(sheet)
    if table.declared:
        given = layout.encode_filling_by(table.parents, types, data)
    else:
        given = layout.encode_filling(types, data)
    return program_for(table).written(given).stdout
