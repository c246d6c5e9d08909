"""The crates of the repository, by crates.txt, and the files of each."""
from dataclasses import dataclass
from pathlib import Path

TOP = Path(__file__).resolve().parents[2]
CRATES = TOP / "crates"


class BadSource(Exception):
    """A file isn't written as it is read here, or a page names what isn't there."""


@dataclass(frozen=True)
class Crate:
    """A crate, and the crates of this repository that its own files name."""

    name: str
    below: tuple[str, ...]

    @property
    def folder(self) -> Path:
        return CRATES / self.name

    @property
    def has_contracts(self) -> bool:
        """Whether it has definitions: crates of tests have none."""
        return (self.folder / "specs").is_dir()

    @property
    def front(self) -> Path:
        """The file with which it begins."""
        library = self.folder / "src" / "lib.rt"
        return library if library.is_file() else self.folder / "src" / "main.rt"

    def sources(self) -> list[Path]:
        """Its sources: a module before the modules inside it."""
        return sorted((self.folder / "src").rglob("*.rt"), key=lambda path: path.with_suffix("").parts)


def read(path: Path) -> str:
    """The text of a file."""
    return path.read_text(encoding="utf-8")


def shown(path: Path) -> str:
    """A path as the documents name it, from the top of the repository."""
    return path.relative_to(TOP).as_posix()


def crates() -> list[Crate]:
    """All crates, in the order of crates.txt."""
    found: list[Crate] = []
    for line in read(TOP / "crates.txt").splitlines():
        name, colon, below = line.partition(":")
        if line.startswith("#") or not line.strip():
            continue
        if not colon or not (CRATES / name).is_dir():
            raise BadSource(f"crates.txt: there is no crate {line!r}")
        here = [word for word in below.split() if (CRATES / word).is_dir()]
        found.append(Crate(name, tuple(here)))
    return found


def proved_crates() -> list[Crate]:
    """The crates with contracts: the program, what it stands on, and the laws."""
    return [crate for crate in crates() if crate.has_contracts]


def head_of(crate: Crate) -> list[str]:
    """What the first lines of a crate say of it."""
    lines = read(crate.front).splitlines()
    return [line.removeprefix("//!").removeprefix(" ") for line in lines if line.startswith("//!")]
