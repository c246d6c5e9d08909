"""The form of the sources, where a tool can tell it.

A clause is what stands behind `requires`, `ensures`, `invariant` or `decreases` in a source, or behind `ghost NAME =` where a type
says how it is seen. It is broken by hand, since no tool lays it out.
"""
import re
from collections.abc import Iterator
from pathlib import Path

from support import TOP

CRATES = Path(TOP, "crates")
MOST_COLUMNS = 100
MOST_LINES = 500
OPENS_CLAUSE = re.compile(r"\s*(?:requires|ensures|invariant|decreases|ghost (?!use\b)\w+ =)[^{]*\{")
STRING = re.compile(r'"(?:[^"\\]|\\.)*"')

# A test's name, and what is wrong, or None.
Test = tuple[str, str | None]


def clause_lines(text: str) -> Iterator[tuple[int, str]]:
    """The lines of all clauses of a source, with their numbers."""
    depth = 0
    for number, line in enumerate(text.splitlines(), 1):
        if depth or OPENS_CLAUSE.match(line):
            yield number, line
            code = STRING.sub("", line)
            depth += code.count("{") - code.count("}")


def sources(*suffixes: str) -> list[Path]:
    """The files of all crates that end so, but for what was built."""
    return sorted(path for path in CRATES.rglob("*") if path.suffix in suffixes and "out" not in path.parts)


def clauses_are_short(_program: str) -> Iterator[Test]:
    """No line of a clause is too long to be read at a glance."""
    for crate in sorted(folder for folder in CRATES.iterdir() if folder.is_dir()):
        wrong = [f"{path.relative_to(TOP)}:{number} has {len(line)}"
                 for path in sources(".rt") if crate in path.parents
                 for number, line in clause_lines(path.read_text(encoding="utf-8")) if len(line) > MOST_COLUMNS]
        yield f"clauses of {crate.name}: at most {MOST_COLUMNS} columns", "; ".join(wrong) or None


def files_are_short(_program: str) -> Iterator[Test]:
    """Each source, definition and proof is of a length that one reads in one go."""
    wrong = [f"{path.relative_to(TOP)} has {count}" for path in sources(".rt", ".antt")
             if (count := len(path.read_text(encoding="utf-8").splitlines())) > MOST_LINES]
    yield f"sources, definitions and proofs have at most {MOST_LINES} lines", "; ".join(wrong) or None


TESTS = (clauses_are_short, files_are_short)
