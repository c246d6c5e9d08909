"""The tests by pytest: each worked row is an item, and so is each part of any other group (groups.py). They are chosen by their names.

  python3 -m pytest tests -n auto                             all of them side by side, by pytest-xdist, on the program of ./rehearse
  python3 -m pytest tests/rows -k 'takeover and not tie'      some rows: an item is called as its file
  python3 -m pytest tests/rows/story                          those of a folder
  python3 -m pytest tests/companions -k 'survey and faults'   some of the companions' tests
  python3 -m pytest tests/run_program.py -k random_scripts    some of the program's other tests
  python3 -m pytest tests --program PATH                      on another program

An exception loses one item, and not those beside it. The last line is 'N passed, M failed', of items. An item in which time counts
is alone only without -n. What an item needs and isn't there skips it. ./test counts by run_program.py and run_companions.py, which
need no pytest.
"""
import os
import subprocess
import sys
from collections.abc import Iterator
from pathlib import Path
from typing import Any, Optional

import pytest

# No file is left behind.
sys.dont_write_bytecode = True
TESTS = os.path.dirname(os.path.abspath(__file__))
sys.path.insert(0, TESTS)
import run_program  # noqa: E402
from groups import Group, Part, Told, program_at  # noqa: E402
from row_files import EXAMPLE_ROWS, ROWS  # noqa: E402
from run_companions import MODULES, groups_of  # noqa: E402
from support import TOP  # noqa: E402


def pytest_addoption(parser: pytest.Parser) -> None:
    """The program on which the tests are run."""
    parser.addoption("--program", type=program_at, help="the program (default: the one that ./rehearse runs)")


def pytest_configure(config: pytest.Config) -> None:
    """The program is asked for once."""
    if config.getoption("--program", None) is None:
        done = subprocess.run([os.path.join(TOP, "rehearse"), "--which"], capture_output=True, text=True, check=False)
        config.option.program = done.stdout.strip()


def pytest_collect_file(file_path: Path, parent: pytest.Collector) -> Optional[pytest.Collector]:
    """The rows, the modules of the companions' tests, and those of the program; what else lies in tests isn't for pytest."""
    if file_path.suffix == ".row":
        return RowFile.from_parent(parent, path=file_path)
    if str(file_path) == run_program.__file__:
        return Others.from_parent(parent, path=file_path)
    if str(file_path.parent) == MODULES and file_path.suffix == ".py":
        return Module.from_parent(parent, path=file_path)
    return None


@pytest.hookimpl(trylast=True)
def pytest_unconfigure(config: pytest.Config) -> None:
    """The last line."""
    told = config.pluginmanager.get_plugin("terminalreporter")
    if told is not None and not hasattr(config, "workerinput") and not config.option.collectonly:
        counts = {word: len(told.stats.get(word, ())) for word in ("passed", "failed", "error")}
        print(f"{counts['passed']} passed, {counts['failed'] + counts['error']} failed")


class Wrong(Exception):
    """What is wrong with some tests."""


class Named(pytest.Item):
    """An item that tells what is wrong, and no traceback of what runs it."""

    def repr_failure(self, excinfo: pytest.ExceptionInfo[BaseException], style: Any = None) -> Any:
        return str(excinfo.value) if isinstance(excinfo.value, Wrong) else super().repr_failure(excinfo, style)


# ---- Rows


class RowFile(pytest.File):
    """The file of a row."""

    def collect(self) -> Iterator[pytest.Item]:
        path = str(self.path)
        top = ROWS if path.startswith(ROWS + os.sep) else EXAMPLE_ROWS
        yield RowItem.from_parent(self, name=os.path.splitext(os.path.relpath(path, top))[0])


class RowItem(Named):
    """A worked row, or the row of an example."""

    def runtest(self) -> None:
        wrong = run_program.row_fault(self.config.option.program, str(self.path))
        if wrong is not None:
            raise Wrong(wrong)

    def reportinfo(self) -> tuple[Path, int, str]:
        return self.path, 0, self.name


# ---- Groups


class Module(pytest.File):
    """A module with the tests of a companion."""

    def groups(self) -> list[Any]:
        """Its groups."""
        return groups_of(self.path.stem)

    def collect(self) -> Iterator[pytest.Item]:
        for group in self.groups():
            whole = group if isinstance(group, Group) else Group(group)
            for part in whole.parts():
                yield Item.from_parent(self, name=part.name.split(": ", 1)[-1], part=part)


class Others(Module):
    """All tests of the program but the rows, which are items of their own."""

    def groups(self) -> list[Any]:
        return [group for group in run_program.ALL if group is not run_program.WORKED]


class Item(Named):
    """A part of a group."""

    def __init__(self, *, part: Part, **more: Any):
        super().__init__(**more)
        self.part = part

    def runtest(self) -> None:
        missing = self.part.group.missing()
        if missing:
            pytest.skip(f"it needs {', '.join(missing)}")
        told = Told()
        told.count(self.part.group.tests(self.config.option.program, *self.part.words), self.part.name)
        self.user_properties.append(("tests", told.passed + len(told.failed)))
        if told.failed:
            raise Wrong("\n".join(told.failed))

    def reportinfo(self) -> tuple[Path, int, str]:
        return self.path, 0, f"{self.path.stem}: {self.name}"
