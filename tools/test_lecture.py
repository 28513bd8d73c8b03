"""The lecture on tidy trees in docs/KEY.md: its commands print what stands below
them."""

import re
import subprocess
import unittest

from support import ROOT, needs_every_program

KEY = ROOT / "docs" / "KEY.md"
LEVEL = "## "
HEADING = f"{LEVEL}Lecture: tidy trees"
# In front of each line of a block of commands and of what they print.
BLOCK = "    "
COMMAND = re.compile(r"(echo|printf) ")
# The lecture has at least so many commands.
FEWEST = 20

PAGE = r"""# A page

    echo 'above it'

## Lecture: tidy trees

Some text, and
echo 'in no block'

    echo 'S[a]'
    S[a]
    printf 'echoes\n  b\n'
    echoes
      b

    what stands before a block's first command is not printed
    echo c | sed 's/c/echo/'
    echo

### Further down

    printf '## no heading\n'
    ## no heading
text that ends the block
    printf ''

## Another section

    echo 'below it'
"""
COMMANDS = [
    ("echo 'S[a]'", ["S[a]"]), (r"printf 'echoes\n  b\n'", ["echoes", "  b"]),
    ("echo c | sed 's/c/echo/'", ["echo"]), (r"printf '## no heading\n'", ["## no heading"]),
    ("printf ''", []),
]


def section(page, heading=HEADING):
    """The lines from below a heading up to the next of its level; none where the page
    doesn't have it."""
    lines = page.splitlines()
    if heading not in lines:
        return []
    below = lines[lines.index(heading) + 1:]
    ends = (at for at, line in enumerate(below) if line.startswith(LEVEL))
    return below[:next(ends, len(below))]


def commands(lines):
    """Each command of the indented blocks, with the lines below it up to the next
    command or the block's end."""
    found, shown = [], []
    for line in lines:
        text = line[len(BLOCK):]
        if not line.startswith(BLOCK):
            shown = []
        elif COMMAND.match(text):
            shown = []
            found.append((text, shown))
        else:
            shown.append(text)
    return found


def difference(command, shown):
    """What a command prints in the repository's root beside what the page shows;
    empty where they are the same."""
    done = subprocess.run(["bash", "-c", command], cwd=ROOT, check=False, capture_output=True)
    printed = done.stdout.decode().splitlines()
    if printed == shown:
        return ""
    parts = [("the command", [command]), ("the page shows", shown), ("it prints", printed)]
    if done.stderr:
        parts.append(("and as messages", done.stderr.decode().splitlines()))
    return "".join(f"{what}:\n" + "".join(f"{BLOCK}{line}\n" for line in lines)
                   for what, lines in parts)


class Lecture(unittest.TestCase):
    def setUp(self):
        self.commands = commands(section(KEY.read_text(encoding="utf-8")))

    def test_the_lecture_is_there(self):
        self.assertGreaterEqual(len(self.commands), FEWEST, f"commands below '{HEADING}'")

    @needs_every_program
    def test_its_commands_print_what_it_shows(self):
        for command, shown in self.commands:
            with self.subTest(command=command):
                wrong = difference(command, shown)
                if wrong:
                    self.fail(f"\n{wrong}")


class Reading(unittest.TestCase):
    """How the page is read."""

    def test_commands(self):
        self.assertEqual(commands(section(PAGE)), COMMANDS)
        last = section(PAGE, "## Another section")
        self.assertEqual(commands(last), [("echo 'below it'", [])])

    def test_a_section_that_is_missing(self):
        for page in ("", PAGE.replace(HEADING, f"#{HEADING}"), PAGE.replace(HEADING, HEADING[:-1])):
            self.assertEqual(section(page), [])

    def test_what_is_printed(self):
        for command, shown in COMMANDS:
            self.assertEqual(difference(command, shown), "")
        for shown in ([], ["a"], ["a", "b "], ["a", "", "b"], ["b", "a"], ["a", "b", "c"]):
            wrong = difference("echo a; echo b", shown)
            self.assertTrue(wrong.endswith("it prints:\n    a\n    b\n"), wrong)
        self.assertEqual(difference("echo a; pwd -P >&2", ["b", "c"]), (
            "the command:\n    echo a; pwd -P >&2\nthe page shows:\n    b\n    c\n"
            f"it prints:\n    a\nand as messages:\n    {ROOT}\n"))


if __name__ == "__main__":
    unittest.main()
