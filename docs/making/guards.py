"""The page of what guards rules and contracts, docs/GUARDS.md: behind docs/parts/guards.md stands for each crate which wrong bodies
its contracts refuse. That is said in the first lines of each edit, which begin with `# `: a sentence that tells what the body does
wrong, and one that begins with `Refused by` and tells what refuses it. An edit without such lines is told by its name alone; those
that `rt ci` tries have them."""
import re
from collections.abc import Iterator
from dataclasses import dataclass
from itertools import takewhile
from pathlib import Path

from tree import TOP, BadSource, Crate, crates, read, shown

PART = TOP / "docs" / "parts" / "guards.md"
MADE = "<!-- `docs/make` writes this page: docs/parts/guards.md is its first part, and the wrong bodies tell of themselves. -->"
OTHERS = TOP / "wrong-bodies"
TOLD = re.compile(r"(\S.*)\. Refused by (\S.*)\.")


@dataclass(frozen=True)
class Edit:
    """A wrong body: its name with the mark of its shelf behind it, what it does wrong and what refuses it, if that is said."""

    name: str
    wrong: str
    refused: str


def shelves_of(crate: Crate) -> Iterator[tuple[Path, str]]:
    """The folders of a crate's edits, each with the mark of its shelf."""
    yield from ((crate.folder / "must-fail", ""), (OTHERS / crate.name, "\\*"), (OTHERS / "tests" / crate.name, "+"))


def edit_of(path: Path, mark: str) -> Edit:
    """An edit, as its first lines tell of it."""
    head = takewhile(lambda line: line.startswith("#"), read(path).splitlines())
    text = " ".join(line.removeprefix("#").strip() for line in head)
    told = TOLD.fullmatch(text)
    if not told and (text or not mark):
        raise BadSource(f"{shown(path)} doesn't begin with '# SENTENCE.' and '# Refused by CLAUSE.'")
    wrong, refused = (told[1], told[2]) if told else ("", "")
    return Edit(f"`{path.stem}`{mark}", wrong, refused)


def edits_of(crate: Crate) -> list[Edit]:
    """The edits of a crate: those that `rt ci` tries come first."""
    return [edit_of(path, mark) for shelf, mark in shelves_of(crate) for path in sorted(shelf.glob("*.edit"))]


def cell(text: str) -> str:
    """A text as it stands in a table."""
    return text.replace("|", "\\|")


def wrong_bodies(crate: Crate) -> Iterator[str]:
    """What is told of the wrong bodies of a crate."""
    edits = edits_of(crate)
    if not edits:
        return
    yield from (f"#### `{crate.name}`", "", "| Wrong body | Edit | Refused by |", "|---|---|---|")
    yield from (f"| {cell(it.wrong)} | {it.name} | {cell(it.refused)} |" for it in edits if it.wrong)
    yield ""
    others = [it.name for it in edits if not it.wrong]
    if others:
        yield from (f"And {', '.join(others)}.", "")


def guards() -> str:
    """The page of guards."""
    lines = [line for crate in reversed(crates()) for line in wrong_bodies(crate)]
    return "\n".join([MADE, "", read(PART), *lines]).rstrip("\n") + "\n"
