"""The files of worked rows: row_at(path) gives a Row, or raises a RowFault, which names the file and the line.

    args: check                          the words of the command line; left out: run
    status: 2                            the exit status that is owed; left out: 0
    --- input, no newline at end         standard input: the lines up to the next section
    {node, a@x, [
    --- output                           the standard output that is owed: the lines up to the end of the file
    cluster refused C1 T1 syntax line 1

A section without a line is the empty text. Behind the name of a section may stand `no newline at end`, `escaped`, or both.
What a reader of the file couldn't see, or a section can't hold, stands in an escaped section alone: there `\\r`, `\\t`, `\\\\`
and `\\xHH` are a carriage return, a tab, a backslash and the byte with that hexadecimal number. Needed is that for bytes
that aren't UTF-8, for characters that aren't printable, for blanks at the end of a line (`\\x20`) and for lines that begin
with `---` (`\\x2d--`).
"""
import os
import re
from typing import NamedTuple, Optional

from support import TOP, read

ROWS = os.path.join(TOP, "tests", "rows")
EXAMPLES = os.path.join(TOP, "examples")
EXAMPLE_ROWS = os.path.join(TOP, "tests", "examples")
SECTIONS = ("input", "output")
ESCAPED, NO_NEWLINE = "escaped", "no newline at end"
ESCAPES = {"\\r": b"\r", "\\t": b"\t", "\\\\": b"\\"}


class Row(NamedTuple):
    words: list
    status: int
    # None where the row's kind has no section for it.
    input: Optional[bytes]
    output: bytes


class RowFault(Exception):
    """Why a file is no row."""

    def __init__(self, path, line, reason):
        super().__init__(f"{os.path.relpath(path, TOP)} line {line}: {reason}")


def example_row(example):
    """The path of an example's row."""
    return os.path.join(EXAMPLE_ROWS, os.path.splitext(os.path.relpath(example, EXAMPLES))[0] + ".row")


def row_at(path):
    """The row of a file. The input of an example's row is the example."""
    name = os.path.relpath(path, EXAMPLE_ROWS)
    if name.startswith(os.pardir):
        return read_row(path)
    example = os.path.join(EXAMPLES, os.path.splitext(name)[0] + ".txt")
    return read_row(path, ("output",))._replace(input=read(example))


def read_row(path, sections=SECTIONS):
    """The row of a file that has these sections, each once."""
    lines = lines_of(path)
    begins = [place for place, line in enumerate(lines) if line.startswith("---")] + [len(lines)]
    words, status = head_of(path, lines[:begins[0]])
    texts = {}
    for begin, end in zip(begins, begins[1:]):
        name, marks = section_of(path, begin + 1, lines[begin], sections)
        if name in texts:
            raise RowFault(path, begin + 1, f"a second section `--- {name}`")
        texts[name] = text_of(path, begin + 1, lines[begin + 1:end], marks)
    for name in sections:
        if name not in texts:
            raise RowFault(path, max(len(lines), 1), f"the row ends here, and has no section `--- {name}`")
    return Row(words, status, texts.get("input"), texts["output"])


def lines_of(path):
    """The lines of a file, each of which can be read as it stands."""
    lines = []
    *whole, rest = read(path).split(b"\n")
    for number, line in enumerate(whole, 1):
        try:
            lines.append(line.decode())
        except UnicodeDecodeError:
            raise RowFault(path, number, "it isn't UTF-8: write such a byte as \\xHH in an escaped section") from None
        hidden = [char for char in lines[-1] if not char.isprintable()]
        if hidden:
            raise RowFault(path, number, f"it has {ascii(hidden[0])}, which can't be seen: write that in an escaped section")
        if lines[-1].endswith(" "):
            raise RowFault(path, number, "a blank at its end can't be seen: write \\x20 in an escaped section")
    if rest:
        raise RowFault(path, len(lines) + 1, "it has no line end (for a text without one: `, no newline at end`)")
    return lines


def head_of(path, lines):
    """The words and the status of the lines before the first section."""
    values = {}
    for number, line in enumerate(lines, 1):
        key, colon, value = line.partition(":")
        if key not in ("args", "status") or not colon:
            raise RowFault(path, number, f"unknown head line {line!r}: there are `args: WORDS`, `status: N` and `--- SECTION`")
        if key in values:
            raise RowFault(path, number, f"a second line `{key}:`")
        values[key] = value.strip()
        if key == "status" and not re.fullmatch("[0-9]{1,3}", values[key]):
            raise RowFault(path, number, f"{values[key]!r} is no exit status")
    return values.get("args", "run").split(), int(values.get("status", 0))


def section_of(path, number, line, sections):
    """The name and the marks of a section's first line."""
    name, *marks = line[len("--- "):].split(", ")
    if name not in sections or not line.startswith("--- "):
        known = " and ".join(f"`--- {name}`" for name in sections)
        raise RowFault(path, number, f"unknown section {line!r}: there is {known} (a text's line that begins so is escaped)")
    for mark in marks:
        if mark not in (ESCAPED, NO_NEWLINE):
            raise RowFault(path, number, f"unknown mark {mark!r}: there are `, {ESCAPED}` and `, {NO_NEWLINE}`")
    return name, marks


def text_of(path, number, lines, marks):
    """The text of a section's lines, which stand behind the line of that number."""
    text = b""
    for place, line in enumerate(lines, number + 1):
        text += (unescaped(path, place, line) if ESCAPED in marks else line.encode()) + b"\n"
    if NO_NEWLINE in marks:
        if not lines:
            raise RowFault(path, number, "an empty text has no newline anyway: leave the mark out")
        text = text[:-1]
    return text


def unescaped(path, number, line):
    """The bytes of a line with escapes."""
    text = b""
    for piece in re.findall(r"\\x[0-9a-fA-F]{2}|\\.?|[^\\]+", line):
        if piece.startswith("\\x") and len(piece) == 4:
            text += bytes.fromhex(piece[2:])
        elif piece.startswith("\\") and piece not in ESCAPES:
            raise RowFault(path, number, f"unknown escape `{piece}`: there are \\r, \\t, \\\\ and \\xHH")
        else:
            text += ESCAPES.get(piece) or piece.encode()
    return text
