"""Groups of tests, which are run side by side on all processors, and counted.

A group is a function of the program's path that gives pairs: the name of a test, and what is wrong, or None. As a `Group` it
says more of itself. Each group has a process of its own, and so has each part of one: no part sees what another one did.
"""
import argparse
import multiprocessing
import os
import shutil
import signal
import subprocess
import sys
import time
import traceback
from collections import deque
from collections.abc import Callable, Iterable, Iterator, Sequence
from dataclasses import dataclass, field
from importlib.util import find_spec
from multiprocessing.connection import Connection, wait
from multiprocessing.process import BaseProcess
from typing import Any, Optional

Test = tuple[str, Optional[str]]
# What may be needed and is no program: a package of this Python, and one of the system's, which what is installed runs on.
MODULES = ("jinja2",)
SYSTEM_MODULES = {"python3-jinja2": "jinja2"}
SYSTEM_PYTHON = "/usr/bin/python3"
SLOWEST = 10
LAST_SECONDS = 2
LONGEST_NAME = 80
# A forked process has the groups as they are: a function that was made by another one couldn't be sent to it.
FORKED = multiprocessing.get_context("fork")


def nothing_more(_told: list) -> Iterable[Test]:
    """No tests behind the parts."""
    return ()


def is_there(need: str) -> bool:
    """Whether a program or a package of Python is there."""
    if need in SYSTEM_MODULES:
        words = [SYSTEM_PYTHON, "-c", f"import {SYSTEM_MODULES[need]}"]
        return os.path.exists(SYSTEM_PYTHON) and subprocess.run(words, capture_output=True, check=False).returncode == 0
    return shutil.which(need) is not None or need in MODULES and find_spec(need) is not None


@dataclass(frozen=True)
class Group:
    """Tests, and how they are run."""
    tests: Callable[..., Iterable[Test]]
    # Where there are items, the tests are a function of one of them too, and those of each item are a part.
    items: Sequence[Any] = ()
    # The programs that have to be on the PATH, and the packages of Python that have to be there.
    needs: Sequence[str] = ()
    # Time counts in it, so that nothing may run beside it.
    is_alone: bool = False
    # It takes long, so that it begins before others.
    is_long: bool = False
    # More tests: of what the parts returned, in the order of the items.
    end: Callable[[list], Iterable[Test]] = nothing_more

    @property
    def name(self) -> str:
        return self.tests.__name__

    def missing(self) -> list[str]:
        """The programs that it needs and that aren't there."""
        return [need for need in self.needs if not is_there(need)]

    def parts(self) -> list["Part"]:
        """Its parts, one for each item."""
        return [Part(self, (item,), f"{self.name} of {item}"[:LONGEST_NAME]) for item in self.items] or [Part(self, (), self.name)]


@dataclass(frozen=True, eq=False)
class Part:
    """What one process runs of a group."""
    group: Group
    words: tuple
    name: str


@dataclass
class Told:
    """What came of a part: how many tests passed, what is told of the others, what the tests returned."""
    passed: int = 0
    failed: list[str] = field(default_factory=list)
    value: Any = None
    seconds: float = 0.0

    def count(self, tests: Iterable[Test], name: str) -> None:
        """Runs tests. If they can't go on, that is one that failed."""
        try:
            for test, wrong in self.kept(tests):
                if wrong is None:
                    self.passed += 1
                else:
                    self.failed.append(f"{test}: {wrong}")
        except Exception:
            self.failed.append(f"{name} can't go on: {traceback.format_exc()}")

    def kept(self, tests: Iterable[Test]) -> Iterator[Test]:
        """The tests; what they return is kept."""
        self.value = yield from tests


def work(part: Part, program: str, to: Connection) -> None:
    """Runs a part, in a process that was made for it, and sends what came of it."""
    # A shell's command in the background ignores SIGINT, and so would all that is started here.
    signal.signal(signal.SIGINT, signal.default_int_handler)
    signal.signal(signal.SIGTERM, signal.SIG_DFL)
    told, begin = Told(), time.monotonic()
    try:
        told.count(part.group.tests(program, *part.words), part.name)
    except KeyboardInterrupt:
        sys.exit(1)
    told.seconds = time.monotonic() - begin
    to.send(told)


def received(ours: Connection, part: Part, process: BaseProcess) -> Told:
    """What came of a part that is through."""
    try:
        told = ours.recv()
    except EOFError:
        told = None
    ours.close()
    process.join()
    return told or Told(failed=[f"{part.name}: its process ended, with status {process.exitcode}"])


def side_by_side(parts: Iterable[Part], program: str, most: int) -> Iterator[tuple[Part, Told]]:
    """Runs parts, at most so many at once, and gives each with what came of it when it is through."""
    waiting, running = deque(parts), {}
    try:
        while waiting or running:
            while waiting and len(running) < most:
                part = waiting.popleft()
                ours, theirs = FORKED.Pipe(duplex=False)
                process = FORKED.Process(target=work, args=(part, program, theirs))
                process.start()
                theirs.close()
                running[ours] = part, process
            for ours in wait(list(running)):
                part, process = running.pop(ours)
                yield part, received(ours, part, process)
    finally:
        end = time.monotonic() + LAST_SECONDS
        for _, process in running.values():
            # By Ctrl-C at a terminal it's interrupted already. Interrupted, it removes its files.
            process.join(max(0, end - time.monotonic()))
            if process.is_alive():
                os.kill(process.pid, signal.SIGINT)


def processors() -> int:
    """How many processors there are to use."""
    return len(os.sched_getaffinity(0))


def program_at(path: str) -> str:
    """The whole path of a program that is there."""
    if not os.access(path, os.X_OK) or os.path.isdir(path):
        raise argparse.ArgumentTypeError(f"there is no program {path}")
    return os.path.abspath(path)


def command_line(told: str) -> argparse.ArgumentParser:
    """The command line of a script of tests, of which this is told."""
    usage, _, more = told.partition("\n")
    line = argparse.ArgumentParser(usage=usage.partition(": ")[2], description=more, formatter_class=argparse.RawTextHelpFormatter)
    line.add_argument("--times", action="store_true", help=f"tells the {SLOWEST} parts that took longest, before the last line")
    line.add_argument("program", type=program_at)
    return line


def is_ready(group: Group, skips: bool, counted: Told) -> bool:
    """Whether all that a group needs is there. Else it is skipped, or counts as one failed test."""
    missing = ", ".join(group.missing())
    if missing and skips:
        print(f"SKIPPED {group.name}: it needs {missing}", flush=True)
    elif missing:
        add(counted, Told(failed=[f"{group.name}: it needs {missing}"]))
    return not missing


def add(counted: Told, told: Told) -> None:
    """Counts what came of some tests, and prints what is told of those that failed."""
    counted.passed += told.passed
    counted.failed += told.failed
    for text in told.failed:
        print(f"FAILED {text}", flush=True)


def finish(groups: Iterable[Any], program: str, skips: bool = False, shows_times: bool = False) -> None:
    """Runs groups of tests, of which some are bare functions, prints each test that failed and the line 'N passed, M failed',
    and ends this program, with status 1 where something failed. A group that can't go on counts as one failed test, and so
    does one for which a program is missing, unless it is skipped."""
    signal.signal(signal.SIGTERM, lambda *_: sys.exit(143))
    counted, found = Told(), {}
    every = [group if isinstance(group, Group) else Group(group) for group in groups]
    ready = [(group, group.parts()) for group in every if is_ready(group, skips, counted)]
    ready.sort(key=lambda pair: not pair[0].is_long)
    beside, alone = ([part for group, parts in ready for part in parts if group.is_alone == is_alone] for is_alone in (False, True))
    try:
        for stage, most in (beside, processors()), (alone, 1):
            for part, told in side_by_side(stage, program, most):
                add(counted, told)
                found[part] = told
    except KeyboardInterrupt:
        sys.exit(130)
    for group, parts in ready:
        last = Told()
        last.count(group.end([found[part].value for part in parts]), group.name)
        add(counted, last)
    if shows_times:
        for seconds, name in sorted(((told.seconds, part.name) for part, told in found.items()), reverse=True)[:SLOWEST]:
            print(f"{seconds:7.1f} s  {name}")
    print(f"{counted.passed} passed, {len(counted.failed)} failed")
    sys.exit(1 if counted.failed else 0)
