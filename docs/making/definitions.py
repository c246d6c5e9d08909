"""The definitions of a crate: what is `pub` in its specs/*.antt, each with its type and with the comment above it."""
import re
from collections.abc import Iterator
from dataclasses import dataclass, field
from pathlib import Path

from tree import BadSource, Crate, read

BEGIN = re.compile(r"(?:(?:abbrev|unfoldable|opaque) )*pub (?!use )(?:(record|data) )?(\S+)(.*)")
PART = re.compile(r"(?:pub )?([\w-]+) :(?: |$)")
RULE = re.compile(r"-- ----+ (.*)")
# A definition without arguments is shown with what it is, where both have so many characters at most.
LONGEST_VALUE = 90


@dataclass(frozen=True)
class Part:
    """A field of a record, or a case of a data type, with the comment above it."""

    name: str
    told: str


@dataclass(frozen=True)
class Definition:
    """A definition: its name with what stands behind it up to the equations, the comment above it, and its parts."""

    name: str
    head: str
    told: str
    parts: tuple[Part, ...] = ()


@dataclass
class File:
    """A file of definitions, with what its first lines say of it. A text among the definitions is a line that parts them."""

    path: Path
    told: str
    entries: list[Definition | str] = field(default_factory=list)


def comment_above(lines: list[str], number: int) -> str:
    """The comment that ends on the line above."""
    begin = number
    while begin > 0 and lines[begin - 1].lstrip().startswith("--") and not RULE.match(lines[begin - 1]):
        begin -= 1
    return " ".join(line.strip().removeprefix("--").strip() for line in lines[begin:number])


def indent_of(line: str) -> int:
    """How far a line is indented."""
    return len(line) - len(line.lstrip(" "))


def head_at(lines: list[str], number: int, name: str, rest: str) -> tuple[str, int]:
    """What a definition's head says, on one line, with the value of one that has no arguments, and the line behind it."""
    indent, words = indent_of(lines[number]), [name + rest]
    number += 1
    while number < len(lines) and not words[-1].endswith("where") and indent_of(lines[number]) > indent and lines[number].strip():
        words.append(lines[number].strip())
        number += 1
    head = " ".join(words).removesuffix("where").rstrip()
    value = re.fullmatch(rf"{re.escape(name)} = (.+)", lines[number]) if number < len(lines) else None
    is_whole = "".join(lines[number + 1 : number + 2])[:1] != " "
    if value and is_whole and "→" not in head and len(head) + len(value[1]) <= LONGEST_VALUE:
        return f"{head} = {value[1]}", number
    return head, number


def parts_at(lines: list[str], number: int, indent: int) -> tuple[Part, ...]:
    """The fields or cases below a head, which are all indented by two more."""
    found = []
    while number < len(lines) and (indent_of(lines[number]) > indent or not lines[number].strip()):
        named = PART.match(lines[number].strip()) if indent_of(lines[number]) == indent + 2 else None
        if named:
            found.append(Part(named[1], comment_above(lines, number)))
        number += 1
    return tuple(found)


def entries_of(lines: list[str]) -> Iterator[Definition | str]:
    """The definitions in these lines, and the lines that part them."""
    # Definitions that name one another stand in a block, and the comment above it is the first one's.
    block_told, is_in_block = "", False
    for number, line in enumerate(lines):
        rule, begin = RULE.match(line), BEGIN.fullmatch(line.strip())
        is_in_block = is_in_block and (not line or line.startswith((" ", "--")))
        if re.fullmatch(r"(\w+ )?mutual", line):
            block_told, is_in_block = comment_above(lines, number), True
        elif rule:
            yield rule[1]
        elif begin and indent_of(line) == (2 if is_in_block else 0):
            kind, name, rest = begin.groups()
            head, behind = head_at(lines, number, name, rest)
            parts = parts_at(lines, behind, indent_of(line)) if kind else ()
            head = head.removesuffix(" : Type 0") if kind else head
            yield Definition(name, head, comment_above(lines, number) or block_told, parts)
            block_told = ""


def file_at(path: Path) -> File:
    """A file of definitions."""
    lines = read(path).splitlines()
    end = next((number for number, line in enumerate(lines) if not line.startswith("--")), len(lines))
    file = File(path, comment_above(lines, end))
    file.entries += entries_of(lines[end:])
    return file


def files_of(crate: Crate) -> list[File]:
    """The files of a crate's definitions, in the order of its specs/Lib.antt."""
    specs = crate.folder / "specs"
    names = re.findall(r"(?m)^pub mod (\w+)$", read(specs / "Lib.antt"))
    beside = {path.stem for path in specs.rglob("*.antt")} - {"Lib"}
    if set(names) != beside:
        raise BadSource(f"{crate.name}/specs/Lib.antt names {sorted(set(names) ^ beside)}, or lacks them")
    return [file_at(specs / f"{name}.antt") for name in names]
