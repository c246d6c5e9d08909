"""The shelves of wrong bodies, and what has to be so of them.

An edit is a file NAME.edit of the folder crates/CRATE/must-fail, whose edits `rt ci` tries, or of wrong-bodies/CRATE, whose
edits wrong_bodies.py tries. Those of wrong-bodies/tests/CRATE the prover lets through, and a test fails. First may come lines that
begin with `#` and tell of it (docs/making/guards.py). Then its lines are `file: PATH`, for the changes behind it, and pairs of
`old: TEXT` and `new: TEXT`: a text that stands in that file once, when the changes before are made, and the one that takes its
place.
"""
import re
from collections.abc import Iterator
from dataclasses import dataclass
from itertools import dropwhile
from pathlib import Path

from support import TOP

CRATES = Path(TOP, "crates")
WRONG_BODIES = Path(TOP, "wrong-bodies")
TESTED = WRONG_BODIES / "tests"
# The crates whose edits rt ci tries: those on which most stands, and which aren't dear. The first edit of a crate costs a proof of the
# whole crate again, so each of them has several, and the other crates have none in the gate, which took 153 minutes on the machine of
# CI with six crates more here.
IN_GATE = {"rh_arena", "rh_wheel", "rh_settle", "rh_step", "rh_trail", "rh_room", "rh_sweep", "rh_history", "rh_otp_net", "rh_otp_text"}
LEAST_OF_A_CRATE = 3
# How many edits there may be for rt ci to try: with 150 in some fifty crates they took as long as all proofs together.
MOST_IN_GATE = 60

# A test's name, and what is wrong, or None.
Test = tuple[str, str | None]


class BadEdit(Exception):
    """What is wrong with an edit."""


@dataclass(frozen=True)
class Change:
    """A text of a file of the crate, and the one that takes its place."""

    file: str
    old: str
    new: str


def gate_shelf(crate: str) -> Path:
    """The folder of the edits that rt ci tries."""
    return CRATES / crate / "must-fail"


def other_shelf(crate: str) -> Path:
    """The folder of the edits that wrong_bodies.py tries."""
    return WRONG_BODIES / crate


def test_shelf(crate: str) -> Path:
    """The folder of the edits that only a test refuses."""
    return TESTED / crate


def crates_on_other_shelf() -> list[str]:
    """The crates that have edits which wrong_bodies.py tries."""
    return sorted(folder.name for folder in WRONG_BODIES.iterdir() if folder.is_dir() and folder != TESTED)


def files_on(shelf: Path) -> list[Path]:
    """The files of a crate's shelf."""
    return sorted(shelf.iterdir()) if shelf.is_dir() else []


def changes_of(text: str) -> list[Change]:
    """The changes that the text of an edit asks for, in their order."""
    changes: list[Change] = []
    file = old = None
    for line in dropwhile(lambda line: line.startswith("#"), text.removesuffix("\n").split("\n")):
        if line.startswith("file: ") and old is None:
            file = line.removeprefix("file: ")
        elif line.startswith("old: ") and file and old is None:
            old = line.removeprefix("old: ")
        elif line.startswith("new:") and old:
            changes.append(Change(file, old, line.removeprefix("new:").removeprefix(" ")))
            old = None
        else:
            raise BadEdit(f"the line {line!r} isn't the next one of 'file: ', 'old: ' and 'new: '")
    if old is not None or not changes:
        raise BadEdit("it doesn't end behind a pair of 'old: ' and 'new: '")
    return changes


def changed(crate: Path, changes: list[Change]) -> dict[str, str]:
    """The files of a crate that the changes turn, with their texts behind them."""
    texts: dict[str, str] = {}
    for change in changes:
        if change.file not in texts:
            path = crate / change.file
            if re.fullmatch(r"(src|specs|proofs)(/\w+)+\.\w+", change.file) is None or not path.is_file():
                raise BadEdit(f"{change.file} is no file of src/, specs/ or proofs/")
            texts[change.file] = path.read_text(encoding="utf-8")
        found = texts[change.file].count(change.old)
        if found != 1:
            raise BadEdit(f"{change.old!r} stands in {change.file} {found} times, and not once")
        texts[change.file] = texts[change.file].replace(change.old, change.new)
    return texts


def edit_fault(crate: str, edit: Path) -> str | None:
    """Why an edit can't be applied to its crate, or None."""
    try:
        if re.fullmatch(r"\w+\.edit", edit.name) is None:
            raise BadEdit("it has no name of an edit")
        texts = changed(CRATES / crate, changes_of(edit.read_text(encoding="utf-8")))
        if all(text == (CRATES / crate / file).read_text(encoding="utf-8") for file, text in texts.items()):
            raise BadEdit("it changes nothing")
    except (BadEdit, OSError, UnicodeDecodeError) as fault:
        return f"{edit.relative_to(TOP)}: {fault}"
    return None


def edits_apply(_program: str) -> Iterator[Test]:
    """Each edit of all shelves can be applied, and no two edits of a crate have one name."""
    for crate in sorted({folder.name for folder in CRATES.iterdir()} | set(crates_on_other_shelf())):
        in_gate, others = files_on(gate_shelf(crate)), files_on(other_shelf(crate)) + files_on(test_shelf(crate))
        wrong = [fault for edit in in_gate + others if (fault := edit_fault(crate, edit))]
        twice = sorted({edit.name for edit in in_gate} & {edit.name for edit in others})
        wrong += [f"{name} stands on two shelves" for name in twice]
        yield f"the wrong bodies of {crate}", "; ".join(wrong) or None


def gate_is_small(_program: str) -> Iterator[Test]:
    """Not too many edits are on the shelf that rt ci tries."""
    count = sum(len(files_on(gate_shelf(crate.name))) for crate in CRATES.iterdir())
    wrong = f"there are {count} of them: put some into wrong-bodies" if count > MOST_IN_GATE else None
    yield f"at most {MOST_IN_GATE} wrong bodies are tried by rt ci", wrong


def gate_has_its_crates(_program: str) -> Iterator[Test]:
    """rt ci tries several edits of each of these crates, and none of others."""
    counts = {crate.name: len(files_on(gate_shelf(crate.name))) for crate in CRATES.iterdir()}
    wrong = [f"{crate} has {counts.get(crate, 0)}" for crate in sorted(IN_GATE) if counts.get(crate, 0) < LEAST_OF_A_CRATE]
    wrong += [f"{crate} has {count}, and isn't one of them" for crate, count in sorted(counts.items()) if count and crate not in IN_GATE]
    yield f"rt ci tries {LEAST_OF_A_CRATE} or more wrong bodies of each of {len(IN_GATE)} crates", "; ".join(wrong) or None


TESTS = (edits_apply, gate_is_small, gate_has_its_crates)
