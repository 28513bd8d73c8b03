"""The command `tools/paper`: its uses, what each reads and prints."""

import argparse
import sys

import checked
import draft
import layout
import many
import marker
import printed
import refusals
import trees
import typelist
from faults import PaperError
from files import (
    FINE, STANDARD, UNUSABLE, WRONG, Stop, argument, content, is_text, put_bytes, put_text, shown,
    text_of,
)
from judgement import Subject
from notation import leaf_names
from rules import Judge
from sheet import usual_verdict
from usage import DESCRIPTION, EPILOG, USES
from why import Words


def main(words):
    options = arguments().parse_args(words)
    try:
        return options.use(options)
    except Stop as stop:
        print(stop, file=sys.stderr)
        return stop.status
    except KeyboardInterrupt:
        return UNUSABLE


def arguments():
    parser = argparse.ArgumentParser(
        prog="tools/paper", description=DESCRIPTION, epilog=EPILOG,
        formatter_class=argparse.RawDescriptionHelpFormatter,
    )
    uses = parser.add_subparsers(metavar="USE", required=True)
    for name, (use, words) in USES_OF.items():
        sub = uses.add_parser(name, help=USES[name], description=USES[name])
        for word, settings in words:
            sub.add_argument(*word.split(), **settings)
        sub.set_defaults(use=use)
    return parser


def write(options):
    text = text_of(options.file)
    try:
        sheet = draft.parse(text, checked.joined, checked.filled)
    except PaperError as error:
        raise Stop(WRONG, error.report(shown(options.file), text)) from error
    put_bytes(layout.encode(sheet), options.output, "sheet")
    return FINE


def read(options):
    data = content(options.file)
    try:
        sheet = refusals.read(data)
    except refusals.Refused as refused:
        if is_text(data):
            raise Stop(WRONG, f"{shown(options.file)}: expected a sheet's bytes, found text: if it "
                       f"is a paper, use `tools/paper mark{argument(options.file)}`") from refused
        refusal = marker.Mark("refused", refused.number)
        put_text(f"# {refusal.in_words()}\n# {refused.place}\n")
        checked.mark(data, refusal)
        return WRONG
    put_text(printed.paper_text(sheet))
    return put_mark_of(sheet, checked.mark(data))


def put_mark_of(sheet, given):
    """The mark of a sheet that is read as a paper, with the words that fit."""
    subject = Subject(sheet, leaf_names(sheet.leaves), frozenset(unusual(sheet)))
    node = Judge(subject).whole() if given.word != "passes" else None
    if node and node.mark != given:
        put_text(f"# {given.in_words()}\n")
        raise Stop(WRONG, many.difference("the sheet", node.mark, given))
    put_text(f"# {given}: {Words(subject, node)}\n" if node else f"# {given.in_words()}\n")
    return FINE


def unusual(sheet):
    """The verdicts that the paper of a sheet sets: those that are not usual."""
    for which, table in (("first", sheet.first), ("second", sheet.second)):
        for row, verdicts in enumerate(table):
            for column, verdict in enumerate(verdicts):
                if verdict != usual_verdict(row, column):
                    yield which, row, column


def item_number(word):
    number = int(word)
    if not 0 <= number <= trees.MOST_ITEM:
        raise ValueError
    return number


item_number.__name__ = f"number from 0 to {trees.MOST_ITEM}"

ONE_FILE = ("file", {"metavar": "FILE", "nargs": "?", "default": STANDARD,
                     "help": "standard input where there is none"})
FILES = ("files", {"metavar": "FILE", "nargs": "*",
                   "help": "papers, or folders of files *.paper; standard input where there is "
                           "none"})
# Each use with its words; usage.py says what it does.
USES_OF = {
    "mark": (many.mark, [FILES, ("--csv", {
        "action": "store_true", "help": "a line of comma-separated values for each paper"})]),
    "why": (many.reasons, [FILES, ("--short", {
        "action": "store_true", "help": "only the path to the judgement that decides"})]),
    "write": (write, [ONE_FILE, ("-o", {
        "dest": "output", "metavar": "SHEET", "default": STANDARD,
        "help": "the file for the sheet in place of standard output"})]),
    "read": (read, [ONE_FILE]),
    "join": (trees.join, [ONE_FILE, ("-o", {
        "dest": "output", "metavar": "TREE",
        "help": "a file for the tree's bytes in place of its notation"})]),
    "total": (trees.total, [ONE_FILE]),
    "emptiable": (trees.emptiable, [ONE_FILE]),
    "tidy": (trees.tidy, [ONE_FILE, ("--steps", {
        "action": "store_true", "help": "each step with its rule and the tree after it"})]),
    "item": (trees.item, [("k", {"metavar": "K", "type": item_number,
                                 "help": "the item's number, from 0"}), ONE_FILE]),
    "types": (typelist.types, [ONE_FILE, ("-o", {
        "dest": "output", "metavar": "TABLE",
        "help": "a file for the table in bytes, a byte for each row, in place of the list"}),
        ("--bytes", {"action": "store_true",
                     "help": "the file is such a table in bytes, not a paper"})]),
}
