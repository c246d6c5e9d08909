"""Makes a tree in which a crate of laws is checked over definitions alone, in seconds.

    python3 tests/laws_alone.py CRATE FOLDER [CRATE/MODULE ..]
    cd FOLDER/crates/CRATE && rt check

The proof of a law is made of definitions, of types and of other proofs. No body of a function has a part in it, but before a crate is
checked the functions of all libraries below it are. So in FOLDER each library has its definitions, its types with what they mean, and of
its proofs those that the crate cites, directly or not, and the MODULEs that are named besides; it has no function. Libraries that are as
they were in FOLDER are left alone, so only the crate is checked anew there.

What passes in such a tree isn't proved for the gate, which checks all crates as they are: `rt ci CRATE` does.
"""
import re
import shutil
import sys
from collections.abc import Iterator
from pathlib import Path
from typing import NamedTuple

from support import TOP

CRATES = Path(TOP, "crates")
# Where an item of a source, or what is written above one, begins: never indented.
BEGINS = re.compile(r"//|#!?\[|(?:pub|use|ghost|fn|impl|struct|enum|mod|const|static|type|trait|unsafe)\b")
ABOVE = re.compile(r"//|#!?\[|$")
KEPT = re.compile(r"(?:pub(?:\([^)]*\))? )?(?:(?:struct|enum|const|static|type|trait|mod)\b|impl(?:<[^>]*>)? Model\b)")
USE = re.compile(r"(pub(?:\([^)]*\))? )?use ([\w:]+)::(?:\{([^{}]*)\}|(\w+));", re.DOTALL)
# A constant of a type, which stands in its `impl` beside functions.
CONSTANT = re.compile(r"(?:    ///[^\n]*\n)*    (?:pub(?:\([^)]*\))? )?const \w+:[^;]*;")
CITED = re.compile(r"Rattle\.(\w+)\.proofs\.([\w.]*\w)")
LISTED = re.compile(r"(?:pub )?mod (\w+)")


class Proof(NamedTuple):
    """A file of proofs: its crate, and its path in `proofs`, without the ending."""
    crate: str
    path: str

    @property
    def file(self) -> Path:
        return CRATES / self.crate / "proofs" / f"{self.path}.antt"


def libraries() -> dict[str, list[str]]:
    """Of each crate those that it stands on, lowest first, as crates.txt has them."""
    lines = Path(TOP, "crates.txt").read_text(encoding="utf-8").splitlines()
    rows = [line.partition(":") for line in lines if line and not line.startswith("#")]
    return {name: names.split() for name, _, names in rows}


def below(crate: str, stands_on: dict[str, list[str]]) -> list[str]:
    """This repository's crates below a crate, lowest first."""
    found: set[str] = set()
    new = set(stands_on[crate])
    while new:
        found |= new
        new = {name for other in new for name in stands_on.get(other, [])} - found
    return [name for name in stands_on if name in found]


# ---- Sources


def items(source: str) -> Iterator[str]:
    """The items of a source, each with what is written above it."""
    item: list[str] = []
    has_begun = False
    for line in source.splitlines():
        if has_begun and BEGINS.match(line):
            yield "\n".join(item)
            item, has_begun = [], False
        item.append(line)
        has_begun = has_begun or not ABOVE.match(line)
    yield "\n".join(item)


def first_line(item: str) -> str:
    """The line with which an item itself begins."""
    return next((line for line in item.splitlines() if not ABOVE.match(line)), "")


def with_types_alone(use: re.Match[str]) -> str:
    """A `use` of what this repository or the library offers, without the functions; theirs are the names in small letters."""
    opens, path, several, one = use.groups()
    names = [name.strip() for name in (several or one).split(",") if name.strip()]
    kept = names if path.split("::")[0] in ("core", "std") else [name for name in names if name[0].isupper()]
    return f"{opens or ''}use {path}::{{{', '.join(kept)}}};" if kept else ""


def declared(source: str) -> Iterator[str]:
    """What is left of a source: its types, with what they mean, constants, modules and what is used of others."""
    for item in items(source):
        line = first_line(item)
        if not line or "use" in line.split()[:2] and line.startswith("ghost") or KEPT.match(line):
            yield item
        elif USE.search(item) and "use" in line.split()[:2]:
            yield USE.sub(with_types_alone, item)
        elif line.startswith("impl") and " for " not in line and CONSTANT.search(item):
            yield "\n".join([line, *CONSTANT.findall(item), "}"])


def without_unused(source: str) -> str:
    """A source without the names that it uses no more."""
    code = re.sub(r"//.*|(?:ghost )?use [^;]*;", "", source)

    def used(use: re.Match[str]) -> str:
        names = [name.strip() for name in (use[3] or use[4]).split(",")]
        kept = names if use[1] else [name for name in names if re.search(rf"\b{name.split(' as ')[-1]}\b", code)]
        return f"{use[1] or ''}use {use[2]}::{{{', '.join(kept)}}};" if kept else ""

    return re.sub(r"(?m)^" + USE.pattern, used, source, flags=re.DOTALL | re.MULTILINE)


# ---- Proofs


def proof_of(crate: str, names: str) -> Proof | None:
    """The file in which something stands that is cited by these names, with dots between them."""
    parts = names.split(".")
    found = (Proof(crate, "/".join(parts[:count])) for count in range(len(parts), 0, -1))
    return next((proof for proof in found if proof.file.is_file()), None)


def cited(file: Path) -> set[Proof]:
    """The proofs that a file cites."""
    found = (proof_of(crate, names) for crate, names in CITED.findall(file.read_text(encoding="utf-8")))
    return {proof for proof in found if proof is not None}


def cited_at_all(proofs: set[Proof]) -> set[Proof]:
    """These proofs with all that they cite, directly or not."""
    found: set[Proof] = set()
    while proofs:
        found |= proofs
        proofs = {other for proof in proofs for other in cited(proof.file)} - found
    return found


# ---- The tree


def write_if_new(path: Path, text: str) -> None:
    """A file that has this text already stays as it is."""
    if not path.is_file() or path.read_text(encoding="utf-8") != text:
        path.parent.mkdir(parents=True, exist_ok=True)
        path.write_text(text, encoding="utf-8")


def write_library(folder: Path, crate: str, proofs: set[Proof]) -> None:
    """The definitions and the types of a crate, and these of its proofs."""
    texts = {path.relative_to(CRATES): path.read_text(encoding="utf-8") for path in (CRATES / crate / "specs").rglob("*.antt")}
    for path in (CRATES / crate / "src").rglob("*.rt"):
        texts[path.relative_to(CRATES)] = without_unused("\n".join(declared(path.read_text(encoding="utf-8"))) + "\n")
    own = {proof for proof in proofs if proof.crate == crate}
    for proof in own:
        texts[proof.file.relative_to(CRATES)] = proof.file.read_text(encoding="utf-8")
    if own:
        tops = {proof.path.split("/")[0] for proof in own}
        lines = (CRATES / crate / "proofs" / "Lib.antt").read_text(encoding="utf-8").splitlines()
        listed = [line for line in lines if (module := LISTED.match(line)) and module[1] in tops]
        texts[Path(crate, "proofs", "Lib.antt")] = "\n".join(listed) + "\n"
    for part in ("src", "specs", "proofs"):
        for file in (folder / "crates" / crate / part).rglob("*.*"):
            if file.relative_to(folder / "crates") not in texts:
                file.unlink()
    for name, text in texts.items():
        write_if_new(folder / "crates" / name, text)


def write_tree(crate: str, folder: Path, named: set[Proof]) -> None:
    """The crate as it is, and the libraries below it."""
    stands_on = libraries()
    names = below(crate, stands_on)
    own = {other for file in (CRATES / crate).rglob("*.antt") for other in cited(file) if other.crate != crate}
    proofs = cited_at_all(own | named)
    for name in names:
        write_library(folder, name, proofs)
    for part in ("src", "specs", "proofs"):
        shutil.rmtree(folder / "crates" / crate / part, ignore_errors=True)
        if (CRATES / crate / part).is_dir():
            shutil.copytree(CRATES / crate / part, folder / "crates" / crate / part)
    write_if_new(folder / "crates.txt", "".join(f"{name}: {' '.join(stands_on[name])}\n" for name in [*names, crate]))
    write_if_new(folder / "HANDLES", Path(TOP, "HANDLES").read_text(encoding="utf-8"))


def main() -> None:
    if len(sys.argv) < 3 or sys.argv[1] not in libraries():
        sys.exit(str(__doc__))
    named = {Proof(*module.split("/", 1)) for module in sys.argv[3:]}
    missing = sorted(f"{proof.crate}/{proof.path}" for proof in named if not proof.file.is_file())
    if missing:
        sys.exit(f"no such proofs: {', '.join(missing)}")
    write_tree(sys.argv[1], Path(sys.argv[2]), named)


if __name__ == "__main__":
    main()
