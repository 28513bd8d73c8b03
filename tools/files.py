"""What the command reads and writes, and how it ends."""

import os
import sys

FINE, WRONG, UNUSABLE = 0, 1, 2
# Stands for standard input and standard output.
STANDARD = "-"
STANDARD_INPUT, STANDARD_OUTPUT = 0, 1
# No text has this byte, and every sheet does.
NO_TEXT = b"\0"
UTF_16 = (b"\xff\xfe", b"\xfe\xff")
BREAKS = "\t\n\r\f\v"


class Stop(Exception):
    """Ends the command with a message and an exit status."""

    def __init__(self, status, message):
        super().__init__(message)
        self.status = status


def shown(name):
    return "<stdin>" if name == STANDARD else str(name)


def content(name):
    if name == STANDARD and os.isatty(STANDARD_INPUT):
        print("reading standard input up to its end (Ctrl-D)", file=sys.stderr)
    try:
        with open(STANDARD_INPUT if name == STANDARD else name, "rb") as file:
            return file.read()
    except OSError as error:
        what = "standard input" if name == STANDARD else name
        raise Stop(UNUSABLE, f"{what}: {error.strerror}") from error


def text_of(name):
    """The text in a file; a sheet is none."""
    data = content(name)
    if data.startswith(UTF_16):
        raise Stop(WRONG, f"{shown(name)}: expected text in UTF-8, found UTF-16: save it as UTF-8")
    if NO_TEXT in data:
        raise Stop(WRONG, f"{shown(name)}: expected a paper as text, found bytes: "
                   f"if they are a sheet's, use `tools/paper read{argument(name)}`; if they are "
                   f"a table of types, `tools/paper types --bytes{argument(name)}`")
    try:
        text = data.decode("utf-8-sig")
        return text if "\n" in text else text.replace("\r", "\n")
    except UnicodeDecodeError as error:
        before = error.object[:error.start].decode().split("\n")
        place = f"{shown(name)}:{len(before)}:{len(before[-1]) + 1}"
        found = f"byte {error.object[error.start]}"
        raise Stop(WRONG, f"{place}: expected text in UTF-8, found {found}") from error


def is_text(data):
    """Whether bytes look like text that somebody wrote."""
    try:
        text = data.decode("utf-8-sig")
    except UnicodeDecodeError:
        return False
    return bool(text.strip()) and all(c.isprintable() or c in BREAKS for c in text)


def argument(name):
    """The file's name as a further word of a command."""
    return "" if name == STANDARD else f" {name}"


def put_bytes(data, name, what):
    if name == STANDARD and os.isatty(STANDARD_OUTPUT):
        raise Stop(UNUSABLE, f"a {what} is not for the terminal: give -o {what.upper()}, "
                   "or redirect")
    put(data, name)


def put(data, name):
    standard = name == STANDARD
    try:
        with open(STANDARD_OUTPUT if standard else name, "wb", closefd=not standard) as file:
            file.write(data)
    except BrokenPipeError:
        # Whoever reads the output has seen enough.
        raise SystemExit(UNUSABLE) from None
    except OSError as error:
        what = "standard output" if standard else name
        raise Stop(UNUSABLE, f"{what}: {error.strerror}") from error


def put_text(text):
    # A file's name may be no text.
    put(text.encode("utf-8", "surrogateescape"), STANDARD)
