"""The numbers of docs/LAYOUT.md, as the crates have them.

A number that has a definition or a constant is read from the crates, another one from the page.
`faults` says where page, definition and constant differ.
"""
import re

from reading import ROOT, first, source, tables

PAGE = "docs/LAYOUT.md"
PRINTED = "samples/smallest.sheet"
FORMULA = r"[a-z0-9_]+(?:[-+*][a-z0-9_]+)*"
LETTERS = {1: "B", 2: "H", 4: "I"}


def value(formula, numbers):
    """What a formula of names and numbers gives; a name alone may stand for a text."""
    if formula in numbers:
        return numbers[formula]
    if not re.fullmatch(FORMULA, formula):
        raise KeyError(formula)
    return eval(re.sub(r"[a-z]\w*", lambda name: str(numbers[name.group()]), formula))


def stated(pattern, files):
    """Each number that a line of this form states: path and number."""
    found = []
    for file in sorted(ROOT.glob(files)):
        path = file.relative_to(ROOT).as_posix()
        found += [(path, int(n)) for n in re.findall(pattern, source(path), re.M)]
    return found


def in_crates(row):
    """A row's definition and constant, each with the places where the crates state its number."""
    definition, constant = first(row.get("definition", "")), first(row.get("constant", ""))
    if definition:
        pattern = r"^ *%s = (\d+)$" % re.escape(definition)
        yield definition, stated(pattern, "crates/*/specs/*.antt")
    if constant:
        yield constant, stated(r"const %s: \w+ = (\d+);" % constant, "crates/*/src/**/*.rt")


def rows():
    """The rows of the page's tables that name a number, each by its columns."""
    for _, heads, cells in tables(source(PAGE)):
        if "name" in heads and len(cells) == len(heads):
            row = dict(zip(heads, cells))
            row["number"] = int(row.get("number", row.get("at byte")))
            yield first(row["name"]), heads[0], row


def layouts():
    """Of contents, leaf and record: name, place and width of each field."""
    fields = {}
    for name, layout, row in rows():
        if "at byte" in row:
            fields.setdefault(layout, []).append((name, row["number"], int(row["bytes"])))
    return fields


def numbers(given=(), crates=True):
    """Every number by its name: those given, else the crates' unless they are left out, else the
    page's."""
    known, given = {}, dict(given)
    for name, _, row in rows():
        found = [n for _, places in in_crates(row) for _, n in places if crates]
        formula = first(row.get("how it follows", ""))
        usual = value(formula, known) if formula else (found + [row["number"]])[0]
        known[name] = given.get(name, usual)
    for layout, fields in layouts().items():
        letters = "".join(LETTERS.get(width, "%ds" % width) for _, _, width in fields)
        known[layout + "_format"] = given.get(layout + "_format", "<" + letters)
    return known


def faults():
    """Where the page and the crates differ, and where the page does not fit itself."""
    wrong, known = [], numbers()
    for name, _, row in rows():
        crates = list(in_crates(row))
        for what, places in crates:
            if len(places) != 1:
                wrong.append("%d lines of the crates state `%s`" % (len(places), what))
            wrong += ["`%s` is %d, `%s` of %s is %d" % (name, row["number"], what, path, n)
                      for path, n in places if n != row["number"]]
        if known[name] != row["number"] and not crates:
            wrong.append("`%s` is %d, its formula gives %s" % (name, row["number"], known[name]))
    for layout, fields in layouts().items():
        end = 0
        for name, at, width in fields:
            if at != end:
                wrong.append("`%s` is at byte %d, the field before ends at %d" % (name, at, end))
            end = at + width
        if end != known[layout]:
            wrong.append("the fields of `%s` end at %d, not %d" % (layout, end, known[layout]))
    return ["%s: %s" % (PAGE, line) for line in wrong + printed_faults()]


def printed_faults():
    """Where the page's printed sheet is not the sample."""
    sheet, wrong = [], []
    for _, heads, cells in tables(source(PAGE)):
        if heads[:2] == ["at byte", "bytes"]:
            if int(cells[0]) != len(sheet):
                wrong.append("byte %s of the printed sheet is byte %d" % (cells[0], len(sheet)))
            sheet += [int(byte) for byte in cells[1].split()]
    if bytes(sheet) != (ROOT / PRINTED).read_bytes():
        wrong.append("the printed sheet is not " + PRINTED)
    return wrong
