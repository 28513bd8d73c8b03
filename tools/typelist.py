"""The use `types`: the rows of a paper's table of types, by name, and of one in
bytes."""

import checked
import refusals
from files import (
    FINE, UNUSABLE, WRONG, Stop, argument, content, is_text, put_bytes, put_text, shown,
)
from marker import Mark
from trees import paper_in


def types(options):
    if not options.bytes:
        return types_of_paper(options)
    if options.output is not None:
        raise Stop(UNUSABLE, "-o writes a paper's table of types in bytes: it is not for --bytes")
    return types_in_bytes(options.file)


def types_of_paper(options):
    """Lists the paper's own table, or the built-in list where it has none; or writes
    it in bytes."""
    table = paper_in(options.file)[1].table
    if options.output is not None:
        put_bytes(bytes(table.parents), options.output, "table")
    else:
        put_text("".join(f"{row_words(table, row)}\n" for row in range(len(table.names))))
    return FINE


def row_words(table, row):
    """A row's number, name and parent, and the chain from it up to anyType."""
    said = f"row {row}: {table.names[row]}, parent {table.parents[row]}"
    chain = " < ".join(table.names[above] for above in table.chain(row))
    return f"{said}: {chain}" if row else said


def types_in_bytes(name):
    """Lists a table in bytes, or says by which row it is refused."""
    data = content(name)
    try:
        parents = refusals.read_type_table(data)
    except refusals.Refused as refused:
        if is_text(data):
            raise Stop(WRONG, f"{shown(name)}: expected a table of types in bytes, found text: if "
                       f"it is a paper, use `tools/paper types{argument(name)}`") from refused
        put_text(f"{Mark('refused', refused.number).in_words()}\n{refused.place}\n")
        checked.type_table(data, True)
        return WRONG
    put_text("".join(f"row {row}: parent {parent}\n" for row, parent in enumerate(parents)))
    checked.type_table(data, False)
    return FINE
