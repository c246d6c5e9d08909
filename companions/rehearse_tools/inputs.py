"""What the tools read and write: whole files, and the parts of an input of the program.

Texts are kept as they are, also where they aren't UTF-8: bytes that aren't stand in a str as lone surrogates.
"""
import sys
from collections.abc import Iterable, Iterator, Sequence
from contextlib import contextmanager
from dataclasses import dataclass
from typing import BinaryIO, Optional

from rehearse_tools.endings import Refused, write_bytes

# The line between a cluster file and its script.
APART = "==="
# A long file is read in pieces of so many bytes.
CHUNK = 1 << 18


@dataclass(frozen=True)
class Plan:
    """A plan of a sweep: its name, and its events."""
    name: str
    events: list[str]

    @property
    def lines(self) -> list[str]:
        return [f"plan {self.name}", *self.events]


@dataclass(frozen=True)
class Input:
    """The parts of an input: the cluster file, whether there is a line `===`, the lines of the base, comments among them, the
    commands of the base, and the plans."""
    cluster: str
    has_script: bool
    lines: list[str]
    base: list[str]
    plans: list[Plan]


# ---- Bytes and files


def to_text(data: bytes) -> str:
    """Bytes as a text."""
    return data.decode("utf-8", "surrogateescape")


def to_bytes(text: str) -> bytes:
    """A text as its bytes."""
    return text.encode("utf-8", "surrogateescape")


def called(path: str) -> str:
    """How a file that is read is called where something is wrong with it."""
    return "standard input" if path == "-" else path


@contextmanager
def opened(path: str) -> Iterator[BinaryIO]:
    """A file to read; `-` is standard input."""
    try:
        if path != "-":
            with open(path, "rb") as file:
                yield file
        elif sys.stdin is None:
            raise Refused("standard input: it is closed")
        else:
            yield sys.stdin.buffer
    except OSError as fault:
        raise Refused(f"{called(path)}: {fault.strerror}") from None


def read_bytes(path: str) -> bytes:
    """A file, which isn't empty; `-` is standard input."""
    with opened(path) as file:
        data = file.read()
    if not data:
        raise Refused(f"{called(path)}: it is empty")
    return data


def read_chunks(path: str) -> Iterator[bytes]:
    """The same, piece by piece."""
    with opened(path) as file:
        chunk = file.read(CHUNK)
        if not chunk:
            raise Refused(f"{called(path)}: it is empty")
        while chunk:
            yield chunk
            chunk = file.read(CHUNK)


def read_text(path: str) -> str:
    """The same as a text."""
    return to_text(read_bytes(path))


def write_out(text: str) -> None:
    """Writes a text to standard output. A reader that has gone away isn't an error of ours."""
    write_bytes(to_bytes(text))


def write_file(path: str, data: bytes) -> None:
    """Writes a file."""
    try:
        with open(path, "wb") as file:
            file.write(data)
    except OSError as fault:
        raise Refused(f"{path}: {fault.strerror}") from None


def write_page(path: Optional[str], data: bytes) -> None:
    """Writes a file, or to standard output where none is named."""
    if path is None:
        write_bytes(data)
    else:
        write_file(path, data)


# ---- Lines


def lines_of(text: str) -> list[str]:
    """The lines of a text, without their ends."""
    *lines, rest = text.split("\n")
    return [line.removesuffix("\r") for line in lines] + ([rest] if rest else [])


def text_of(lines: Iterable[str]) -> str:
    """Lines as a text."""
    return "".join(f"{line}\n" for line in lines)


def words_of(line: str) -> list[str]:
    """The words of a line, which stand apart by spaces alone."""
    return [word for word in line.split(" ") if word]


def is_command(line: str) -> bool:
    """Whether a line of a script gets an answer."""
    return bool(words_of(line)) and not line.startswith("#")


def commands_of(lines: Sequence[str]) -> list[str]:
    """The commands among the lines of a script."""
    return list(filter(is_command, lines))


def plan_name(line: str) -> str:
    """The name of the plan that a line begins, or ""."""
    words = words_of(line)
    return words[1] if len(words) == 2 and words[0] == "plan" else ""


def end_of_cluster(lines: Sequence[str]) -> int:
    """The place of the line `===`, or -1. A CR may stand behind it where a line end does."""
    return next((place for place, line in enumerate(lines)
                 if line == APART or line == f"{APART}\r" and place + 1 < len(lines)), -1)


def before_plans(text: str) -> str:
    """What stands before the first plan of an input, as it stands there; all of it where there is none."""
    lines = text.split("\n")
    end = end_of_cluster(lines)
    place = next((place for place in range(end + 1, len(lines)) if plan_name(lines[place].removesuffix("\r"))), -1) if end >= 0 else -1
    return text if place < 0 else text_of(lines[:place])


def split_input(text: str) -> Input:
    """The parts of an input."""
    lines = text.split("\n")
    end = end_of_cluster(lines)
    if end < 0:
        return Input(text if text.endswith("\n") else text + "\n", False, [], [], [])
    base: list[str] = []
    plans: list[Plan] = []
    for line in lines_of("\n".join(lines[end + 1:])):
        name = plan_name(line)
        if name:
            plans.append(Plan(name, []))
        elif not plans:
            base.append(line)
        elif is_command(line):
            plans[-1].events.append(line)
    return Input(text_of(lines[:end]), True, base, commands_of(base), plans)


def joined(cluster: str, script: Iterable[str]) -> str:
    """An input of a cluster file and the lines of a script."""
    return f"{cluster}{APART}\n{text_of(script)}"
