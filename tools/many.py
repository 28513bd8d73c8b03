"""Marking papers, one or many: each with the words that fit its mark, or with
every judgement behind it."""

import csv
import io
import sys
from collections import Counter
from typing import List, NamedTuple, Optional

import checked
import draft
import layout
import why
from faults import PaperError
from files import FINE, UNUSABLE, WRONG, Stop, put_text, shown
from judgement import Node, Subject
from marker import Mark
from papers import Entry, Part, entries_of, files_of
from rules import Judge
from tidying import tidy
from words import in_words

# A whole tree's text is cut after so many characters.
LONGEST_WHOLE = 200
# What becomes of a paper besides the marking program's words.
WRONG_NOTATION, NOT_READ = "wrong notation", "not read"
COUNTED = {
    "passes": ("passes", "pass"), "fails": ("fails", "fail"),
    "undecided": ("undecided", "undecided"),
    WRONG_NOTATION: ("in wrong notation", "in wrong notation"), NOT_READ: ("not read", "not read"),
}
COLUMNS = ("file", "paper", "line", "mark", "number", "rules", "words")


class Result(NamedTuple):
    """What became of one paper."""

    entry: Entry
    mark: Mark
    words: str
    rules: List[str] = []
    # Of a paper that has a mark; its judgements where they are asked for.
    subject: Optional[Subject] = None
    node: Optional[Node] = None
    status: int = FINE
    # The whole message of a paper that has no mark.
    message: str = ""

    @property
    def line(self):
        return f"{self.mark}: {why.with_rules(self.words, self.rules)}"


def mark(options):
    """One line for each paper."""
    files, others = files_of(options.files)
    results = results_of(files, explained=False)
    if options.csv:
        put_text(table(results))
        put_messages([*others, count(results)])
    elif is_one(options, results):
        put_one(results[0], [])
    else:
        put_messages(others)
        lines = [f"{result.entry.label}: {result.line}" for result in results]
        put_text("\n".join([*lines, count(results)]) + "\n")
    return max(result.status for result in results)


def reasons(options):
    """Every judgement of each paper, or the path to the one that decides."""
    files, others = files_of(options.files)
    results = results_of(files, explained=True)
    if is_one(options, results):
        put_one(results[0], judgements(results[0], options.short))
        return results[0].status
    put_messages(others)
    for result in results:
        lines = [f"{result.entry.label}: {result.line}", *judgements(result, options.short)]
        put_text("\n".join(lines) + "\n\n")
    put_text(f"{count(results)}\n")
    return max(result.status for result in results)


def is_one(options, results):
    """Whether one paper of one file was asked for."""
    return len(results) == 1 and options.files in ([], [results[0].entry.file], ["-"])


def put_one(result, lines):
    if result.message:
        raise Stop(result.status, result.message)
    put_text("\n".join([result.line, *lines]) + "\n")


def put_messages(lines):
    for line in lines:
        print(line, file=sys.stderr)


def results_of(files, explained):
    """What becomes of each paper of the files, in order. The marking program
    marks all of them in one run."""
    read = [result for name in files for result in read_file(name)]
    marked = iter(checked.marks([layout.encode(result.subject.sheet) for result in read
                                 if result.subject]))
    return [with_mark(result, next(marked), explained) if result.subject else result
            for result in read]


def read_file(name):
    """The papers of a file, not yet marked, or why they can't be."""
    try:
        entries = entries_of(name)
    except Stop as stop:
        return [without_mark(Entry(shown(name), Part("", 1, ""), True), stop)]
    return [read_entry(entry) for entry in entries]


def read_entry(entry):
    try:
        subject = draft.read(entry.part.text).subject(checked.joined, checked.filled)
    except PaperError as error:
        report = error.report(entry.file, entry.part.text)
        return Result(entry, Mark(WRONG_NOTATION, None), error.in_a_line(), status=WRONG,
                      message=report)
    except Stop as stop:
        # A program that is missing leaves the other papers their marks; one that
        # disagrees leaves nothing to rely on.
        if stop.status == UNUSABLE:
            return without_mark(entry, stop)
        raise Stop(stop.status, f"{entry.label}: {stop}") from stop
    return Result(entry, None, "", subject=subject)


def without_mark(entry, stop):
    """A paper, or a file, that can't be read."""
    what = NOT_READ if stop.status == UNUSABLE else WRONG_NOTATION
    words = str(stop).removeprefix(f"{entry.file}: ")
    return Result(entry, Mark(what, None), words, status=stop.status, message=str(stop))


def with_mark(result, given, explained):
    """The paper with the marking program's mark and the words that fit it. The
    reading here must come to the same mark."""
    if given.word == "passes" and not explained:
        return result._replace(mark=given, words=in_words("passes", None))
    node = Judge(result.subject).whole()
    if node.mark != given:
        put_messages([difference(result.entry.label, node.mark, given)])
        return result._replace(mark=given, words=in_words(*given), status=WRONG)
    words = why.Words(result.subject, node)
    return result._replace(mark=given, words=words.text, rules=words.rules,
                           node=node if explained else None)


def difference(label, here, there):
    return (f"{label}: THE MARKS DIFFER: {here} by this aid's reading of the rules, {there} by "
            "the marking program, which is proved. The reasons of this aid are wrong here: "
            "please report this paper.")


def judgements(result, short):
    """The lines below a mark; none where this aid has no reasons for it."""
    if not result.node:
        return []
    if short:
        return why.short_lines(result.subject, result.node)
    return [*prepared(result.subject, result.node), *why.lines(result.subject, result.node)]


def prepared(subject, node):
    """What comes before the rules: joining, tidying, and the early pass where it
    might have been."""
    def text(tree):
        return subject.text(tree, LONGEST_WHOLE)

    sheet = subject.sheet
    found = [f"the base's chain joined (L4): {text(sheet.base)}"] if subject.is_joined else []
    for which, tree in (("derived", sheet.derived), ("base", sheet.base)):
        if tidy(tree) != tree:
            found.append(f"the {which} tree tidied (D1 to D6): {text(tidy(tree))}")
    if node.derived.maximum == 0 and node.rule != "M1":
        found.append("no early pass (M1): the base tree may occur, and isn't emptiable")
    return found


def count(results):
    """How many papers there are, and how many of each mark."""
    marks = Counter(result.mark.word for result in results)
    said = [f"{marks[word]} {one if marks[word] == 1 else more}"
            for word, (one, more) in COUNTED.items() if marks[word]]
    papers = "1 paper" if len(results) == 1 else f"{len(results)} papers"
    return f"{papers}: {', '.join(said)}"


def table(results):
    """The results as comma-separated values."""
    text = io.StringIO()
    writer = csv.writer(text, lineterminator="\n")
    writer.writerow(COLUMNS)
    for result in results:
        entry = result.entry
        number = "" if result.mark.number is None else result.mark.number
        writer.writerow([entry.file, entry.part.name, entry.part.line, result.mark.word, number,
                         " ".join(result.rules), result.words])
    return text.getvalue()
