"""The names in parts that are written by hand: each has to stand in the sources, those of guards.md and lint.md there or in
proofs, wrong bodies, tests and tools; and each crate has to be named."""
import re
from pathlib import Path

from tree import CRATES, TOP, BadSource, crates, proved_crates, read, shown

# The parts that name rows, tests, wrong bodies and tools, too.
OF_ALL = ("guards.md", "lint.md")
NAME = re.compile(r"`([A-Za-z_]\w*(?:(?:::|/)\w+)*)`")


def words_in(top: Path, *patterns: str) -> set[str]:
    """All words of some files, and their names."""
    paths = [path for pattern in patterns for path in top.glob(pattern)]
    return {path.stem for path in paths}.union(*(re.findall(r"\w+", read(path)) for path in paths))


def words_of_sources() -> set[str]:
    """All words of the sources and the definitions, and the names of crates."""
    words = {crate.name for crate in crates()} | {"specs", "proofs"}
    return words | words_in(CRATES, "*/src/**/*.rt", "*/specs/**/*.antt")


def words_of_all() -> set[str]:
    """The words of proofs, wrong bodies, tests and tools besides."""
    words = words_of_sources() | words_in(CRATES, "*/proofs/**/*.antt", "*/must-fail/*.edit")
    return words | words_in(TOP, "wrong-bodies/**/*.edit", "tests/*.py", "companions/rehearse_tools/*.py")


def check_crates(path: Path) -> None:
    """Sees to it that this file has a word for each crate with contracts."""
    missing = [crate.name for crate in proved_crates() if f"`{crate.name}`" not in read(path)]
    if missing:
        raise BadSource(f"{shown(path)} has no word for {', '.join(missing)}")


def check_names(paths: list[Path]) -> None:
    """Sees to it that each name in backquotes in these files stands in the sources."""
    for path in paths:
        known = words_of_all() if path.name in OF_ALL else words_of_sources()
        named = {name for name in NAME.findall(read(path)) if not set(re.split("::|/", name)) <= known}
        if named:
            raise BadSource(f"{shown(path)} names what no source has: {', '.join(sorted(named))}")
