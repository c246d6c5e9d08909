#!/usr/bin/env python3
"""Has the prover refuse the wrong bodies of wrong-bodies/NAME, which rt ci doesn't try."""
import argparse
import os
import re
import shutil
import signal
import subprocess
import sys
import tempfile
from collections.abc import Iterator
from pathlib import Path

# No file is left behind.
sys.dont_write_bytecode = True
from shelves import CRATES, crates_on_other_shelf, files_on, other_shelf  # noqa: E402
from support import TOP  # noqa: E402

HELP = """\
The edits are tried on a copy of the crates, in place of those of crates/NAME/must-fail, by rt must-fail, whose lines
are passed on as they come: those of the edits at the end. An edit fails that is still proved, that can't be applied or
read, or that wasn't tried. The last line is 'N passed, M failed', and the status is 1 where one failed.

All crates take about an hour on 4 processors, and longer where the libraries aren't proved yet.
"""
# What rt says of an edit, and how that begins where all is well.
TOLD = r"rt: must-fail (\w+/\w+)\.edit: (.*)"
REFUSED = "refused, as it must be"


def copy_to(room: Path, names: list[str]) -> None:
    """Copies what rt reads of this repository. These crates have the edits of wrong-bodies, and the others none."""
    for file in ("crates.txt", "HANDLES"):
        shutil.copy(Path(TOP, file), room)
    shutil.copytree(CRATES, room / "crates", ignore=shutil.ignore_patterns("out", "must-fail"))
    for name in names:
        shutil.copytree(other_shelf(name), room / "crates" / name / "must-fail")


def lines_of_rt(room: Path, names: list[str]) -> Iterator[str]:
    """The lines of rt must-fail in the copy, as they come. What rt keeps while it runs goes with the copy."""
    (room / "tmp").mkdir()
    with subprocess.Popen(["rt", "must-fail", *names], cwd=room, env={**os.environ, "TMPDIR": str(room / "tmp")},
                          stdin=subprocess.DEVNULL, stdout=subprocess.PIPE, encoding="utf-8", errors="replace") as rt:
        try:
            yield from rt.stdout
        finally:
            rt.terminate()
            rt.wait()


def try_edits(names: list[str]) -> dict[str, str]:
    """What rt says of each edit that it tried, by crate and name."""
    told = {}
    with tempfile.TemporaryDirectory(prefix="wrong-bodies-") as folder:
        room = Path(folder)
        copy_to(room, names)
        for line in lines_of_rt(room, names):
            print(line, end="", flush=True)
            if found := re.match(TOLD, line):
                told[found[1]] = found[2]
    return told


def chosen_crates() -> list[str]:
    """The crates that the command line names, or all that have edits in wrong-bodies."""
    there = crates_on_other_shelf()
    parser = argparse.ArgumentParser(description=__doc__, epilog=HELP, formatter_class=argparse.RawDescriptionHelpFormatter)
    parser.add_argument("names", metavar="NAME", nargs="*", help="a crate that has a folder in wrong-bodies; none: all of them")
    names = parser.parse_args().names
    if strange := sorted(set(names) - set(there)):
        parser.error(f"there is no wrong-bodies/{strange[0]}; there are {', '.join(there)}")
    if shutil.which("rt") is None:
        parser.error("it needs the command rt of the Rattle kit on the PATH")
    return sorted(set(names)) or there


def main() -> None:
    # An end by a signal ends rt and removes the copy too.
    for number in (signal.SIGINT, signal.SIGTERM, signal.SIGHUP):
        signal.signal(number, lambda which, _: sys.exit(128 + which))
    names = chosen_crates()
    told = try_edits(names)
    owed = [f"{name}/{edit.stem}" for name in names for edit in files_on(other_shelf(name))]
    failed = [edit for edit in owed if not told.get(edit, "").startswith(REFUSED)]
    for edit in failed:
        print(f"FAILED {edit}: {told.get(edit, 'it was not tried')}")
    print(f"{len(owed) - len(failed)} passed, {len(failed)} failed")
    sys.exit(1 if failed else 0)


if __name__ == "__main__":
    main()
