"""The page of what lint finds, docs/LINT.md: docs/parts/lint.md has the words, and the definitions whether a finding is a warning
or a hint, and whether a live step hangs at it. Where a table of that part is one of findings, a column with that stands behind
their codes."""
import re
from collections.abc import Iterator
from itertools import groupby
from pathlib import Path

from tree import CRATES, TOP, BadSource, read, shown

PART = TOP / "docs" / "parts" / "lint.md"
MADE = "<!-- `docs/make` writes this page: its words stand in docs/parts/lint.md, and what is a warning in the sources. -->"
FILE_WORDS = CRATES / "rh_cluster_lint" / "specs" / "FileWords.antt"
STEP_WORDS = CRATES / "rh_line_lint" / "specs" / "StepWords.antt"
LEVELS = CRATES / "rh_step_findings" / "specs" / "Levels.antt"
TERMS = CRATES / "rh_cluster_lint" / "specs" / "Terms.antt"
STEPS = CRATES / "rh_script_lint" / "specs" / "Steps.antt"
REFUSED = CRATES / "rh_script_lint" / "specs" / "Refused.antt"
LIVE = [CRATES / "rh_otp_lint" / "specs" / name for name in ("Answers.antt", "Hanging.antt", "Twice.antt")]
HEAD, LINE = "| Code | What it says |", "|---|---|"


def cases(path: Path, name: str, value: str) -> set[str]:
    """The variants for which a definition, written case by case, gives this value."""
    return set(re.findall(rf"(?m)^{name} \((\w+)[^)]*\) = {value}$", read(path)))


def variants(words: Path, levels: Path) -> Iterator[tuple[str, str]]:
    """The codes of one sort of findings, each with what it is worth: with a star a live step hangs, and no more is told."""
    hints, hanging = cases(levels, "is_warning", "false"), cases(levels, "hangs", "true")
    for variant, code in re.findall(r'(?m)^words_of \(?(\w+)[^=]*= words \(codes "(\w+): ', read(words)):
        yield code, ("hint" if variant in hints else "warning") + ("*" if variant in hanging - hints else "")


def records(path: Path) -> Iterator[tuple[str, str]]:
    """The codes of findings that are written as a record, each with its kind."""
    text = read(path)
    shared = dict(re.findall(r'(?m)^(\w+) [\w ]+ = sentence \(words \(codes "(\w+): ', text))
    for kind, code, name in re.findall(r'kind = (Warning|Hint);\s+text = (?:codes "(\w+): |(\w+))', text):
        yield code or shared[name], kind.lower()


def findings() -> dict[str, str]:
    """What each finding is worth, by its code."""
    found = dict([*records(TERMS), *variants(FILE_WORDS, FILE_WORDS), *variants(STEP_WORDS, LEVELS), *records(REFUSED),
                  *records(STEPS), *(finding for path in LIVE for finding in records(path))])
    if not all(found):
        raise BadSource("a finding of lint has no code")
    return found


def codes_of(row: str) -> list[str]:
    """The codes in the first cell of a row."""
    return re.findall(r"`(\w+)`", row.split("|")[1])


def with_kind(row: str, known: dict[str, str]) -> str:
    """A row of findings with what they are worth behind their codes."""
    kinds = sorted({known[code] for code in codes_of(row)})
    if len(kinds) != 1:
        raise BadSource(f"{shown(PART)}: these are findings of different kinds: {row}")
    _, code, told = row.split("|", 2)
    star = "\\*" if kinds[0].endswith("*") else ""
    return f"| {code.strip()}{star} | {kinds[0].rstrip('*')} |{told}"


def table(rows: list[str], known: dict[str, str]) -> Iterator[str]:
    """A table, and if it is one of findings, with its column."""
    if rows[:2] == [HEAD, LINE] and all(code in known for row in rows[2:] for code in codes_of(row)):
        yield from (HEAD.replace("Code | ", "Code | | "), LINE + "---|", *(with_kind(row, known) for row in rows[2:]))
    else:
        yield from rows


def lint() -> str:
    """The page of what lint finds."""
    known, lines = findings(), read(PART).splitlines()
    told = [code for line in lines if line.startswith("| `") for code in codes_of(line)]
    wrong = [code for code in known if told.count(code) != 1]
    if wrong:
        raise BadSource(f"{shown(PART)} hasn't one row for {', '.join(wrong)}")
    page = [MADE, ""]
    for is_table, rows in groupby(lines, lambda line: line.startswith("|")):
        page += table(list(rows), known) if is_table else rows
    return "\n".join(page) + "\n"
