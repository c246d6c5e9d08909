"""Tests of conftest.py: by pytest each worked row is an item, which is chosen by its name and lost alone."""
import os
import subprocess

from groups import Group
from row_files import ROWS
from support import LONGEST_RUN, TOP, in_folder, run

PYTEST = "pytest-3"
# The rows of this folder, of which two have a node a@x.
FOLDER = os.path.join(ROWS, "bare-nodes")
NAMES = ("empty-text", "one-bare-node", "two-bare-nodes")


def told(program, *words):
    """A finished run of pytest on the rows of the folder: its status, its lines but the last, and that one."""
    done = subprocess.run([PYTEST, "-q", "-p", "no:cacheprovider", FOLDER, "--program", program, *words], cwd=TOP, capture_output=True,
                          text=True, timeout=LONGEST_RUN, env={**os.environ, "PYTHONDONTWRITEBYTECODE": "1"})
    *lines, last = done.stdout.splitlines() or [""]
    return done.returncode, lines, last


def same(owed, shown):
    """What is wrong with a value, or None."""
    return None if owed == shown else f"want {owed}, have {shown}"


def rows_as_items(program, folder):
    """All of them, one of them, and one that is lost."""
    yield "the rows of the folder", same(sorted(f"{name}.row" for name in NAMES), sorted(os.listdir(FOLDER)))
    status, lines, last = told(program, "--collect-only")
    items = [line.split("::")[-1] for line in lines if "::" in line]
    yield "items", same((0, [f"bare-nodes/{name}" for name in NAMES]), (status, items))
    status, _, last = told(program)
    yield "all rows", same((0, "3 passed, 0 failed"), (status, last))
    status, _, last = told(program, "-k", "one-bare")
    yield "a row by its name", same((0, "1 passed, 0 failed"), (status, last))
    # This one ends by a signal where there are two nodes.
    broken = os.path.join(folder, "broken")
    with open(broken, "w") as file:
        file.write(f'#!/bin/sh\ntext=$(cat)\ncase $text in *b@x*) kill -9 $$ ;; esac\nprintf %s "$text" | "{program}" "$@"\n')
    os.chmod(broken, 0o755)
    status, lines, last = told(broken)
    is_named = any("bare-nodes/two-bare-nodes" in line for line in lines) and "status -9, want 0" in lines
    yield "one row is lost", same((1, "2 passed, 1 failed", True), (status, last, is_named))
    if "--numprocesses" in run(PYTEST, ["--help"], cwd=TOP).stdout.decode():
        status, _, last = told(broken, "-n", "2")
        yield "side by side", same((1, "2 passed, 1 failed"), (status, last))


TESTS = (Group(in_folder(rows_as_items), needs=(PYTEST,)),)
