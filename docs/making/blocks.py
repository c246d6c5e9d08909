"""What is made inside of pages that are written by hand: the lines between `<!-- made: WHAT -->` and `<!-- end -->`."""
import re
from collections.abc import Callable, Iterator
from functools import cache
from pathlib import Path

from commands import made_commands, made_refusals
from tree import TOP, BadSource, Crate, crates, head_of, proved_crates, read, shown

BLOCK = re.compile(r"(?ms)^(<!-- made: (\w+)(?: ([^\n]+?))? -->\n).*?^(<!-- end -->)$")
# Pages whose blocks are made: in one of these a word tells nothing of what is to be changed.
PAGES = ("ARCHITECTURE.md", "CHANGING.md", "RULES.md", "SCRIPTS.md")
MADE_PAGES = ("CONTRACTS.md", "DEFINITIONS.md", "GUARDS.md", "LINT.md", "CHANGING.md")
SOURCE_FOLDERS = ("src", "specs", "proofs", "must-fail")


def first_sentence(crate: Crate) -> str:
    """What the first lines of a crate say it is."""
    told = " ".join(head_of(crate))
    return re.split(r"(?<=\w)\. ", told + " ")[0].rstrip(" .")


def reach(crate: Crate, every: dict[str, Crate]) -> set[str]:
    """All crates on which a crate stands."""
    return {name for below in crate.below for name in {below} | reach(every[below], every)}


def next_below(crate: Crate, every: dict[str, Crate]) -> list[str]:
    """The crates that a crate names and that none of the others stands on."""
    return [name for name in crate.below if not any(name in reach(every[other], every) for other in crate.below)]


def made_drawing(_words: str) -> Iterator[str]:
    """A drawing of the crates: an arrow goes from each to those that it stands on."""
    every = {crate.name: crate for crate in crates()}
    yield from ("```mermaid", "graph TD")
    for crate in reversed(proved_crates()):
        below = next_below(crate, every)
        if below:
            yield f"  {crate.name} --> {' & '.join(below)}"
    yield "```"


def made_table(_words: str) -> Iterator[str]:
    """A table of the crates: the program first, the tests last."""
    yield from ("| Crate | Has |", "|---|---|")
    tests = [crate for crate in crates() if not crate.has_contracts]
    for crate in [*reversed(proved_crates()), *tests]:
        yield f"| `{crate.name}` | {first_sentence(crate)} |"


@cache
def searched() -> tuple[Path, ...]:
    """The files in which words are searched: sources, proofs, wrong bodies, companions, tests and pages."""
    folders = [crate.folder / name for crate in crates() for name in SOURCE_FOLDERS]
    folders += [TOP / "companions", TOP / "wrong-bodies", TOP / "tests" / "companions", TOP / "docs" / "help"]
    found = [path for folder in folders if folder.is_dir() for path in folder.rglob("*") if path.is_file()]
    found += list((TOP / "tests").glob("*.py")) + [page for page in (TOP / "docs").glob("*.md") if page.name not in MADE_PAGES]
    found += (TOP / "docs" / "parts").glob("*.md")
    found += [TOP / name for name in ("README.md", "rehearse", "build", "test", "crates.txt")]
    return tuple(path for path in sorted(found) if "__pycache__" not in path.parts)


@cache
def text_of(path: Path) -> str:
    """The text of a file that is searched: of a wrong body without what is told of it."""
    text = read(path)
    return re.sub(r"(?m)^#.*\n", "", text) if path.suffix == ".edit" else text


def folder_of(path: Path) -> str:
    """The folder under which a file is listed."""
    parts = path.relative_to(TOP).parts
    if parts[0] == "crates":
        return "/".join(parts[:3])
    return "/".join(parts[:2]) if parts[0] == "wrong-bodies" else path.parent.relative_to(TOP).as_posix()


def made_files(words: str) -> Iterator[str]:
    """The files in which a pattern is found, by folder; of proofs and wrong bodies only how many."""
    pattern = re.compile(words)
    found = [path for path in searched() if pattern.search(text_of(path))]
    if not found:
        raise BadSource(f"nothing has {words}")
    yield from (f"`{words}` stands in {len(found)} files:", "")
    for folder in dict.fromkeys(map(folder_of, found)):
        here = [path for path in found if folder_of(path) == folder]
        start = (TOP / folder) if folder != "." else TOP
        if folder.endswith(("proofs", "must-fail")) or folder.startswith("wrong-bodies"):
            yield f"- `{folder}`: {len(here)}"
        else:
            names = ", ".join(f"`{path.relative_to(start).as_posix()}`" for path in here)
            yield f"- `{folder}`: {names}" if folder != "." else f"- {names}"


MAKERS: dict[str, Callable[[str], Iterator[str]]] = {
    "drawing": made_drawing, "crates": made_table, "files": made_files, "commands": made_commands,
    "refusals": made_refusals}


def with_blocks(path: Path) -> str:
    """The text of a page with its blocks made."""
    text = read(path)
    for _, what, _, _ in BLOCK.findall(text):
        if what not in MAKERS:
            raise BadSource(f"{shown(path)}: nothing makes {what}")
    return BLOCK.sub(lambda found: f"{found[1]}\n" + "\n".join(MAKERS[found[2]](found[3])) + f"\n\n{found[4]}", text)
