"""Records of random rehearsals: what real nodes did at each command, a JSON file for each rehearsal in a folder.

From them tests/live_figures.py counts how many agree, again and again, without nodes. A rehearsal has one try or two: where the
nodes did otherwise than companions/live tells it is made once more, with more time.
"""
import json
import os
import subprocess
import tempfile
import time
from concurrent.futures import ThreadPoolExecutor
from dataclasses import asdict, dataclass, field
from typing import Any, Callable, Iterable, Iterator, Optional

from random_live import Rehearsal
from support import LONGEST_RUN, TOP

COMPANION = os.path.join(TOP, "companions", "replay")
# A run of replay takes at most so many seconds for each unit of the factor.
MOST_SECONDS = 200


class BadRecord(Exception):
    """A folder has no records, or a file of it is none. The text names it."""


@dataclass(frozen=True)
class Command:
    """A command with its line behind ===, what the rules, the nodes and companions/live answered when it was made, the timers
    for which there was no time left, where processes of nodes that don't answer stand, and the nodes that were busy."""
    line: int
    command: str
    rules: list[str]
    nodes: list[str]
    live: list[str]
    agrees: bool
    agrees_live: bool
    late: list[str]
    stands: list[Any] = field(default_factory=list)
    busy: list[Any] = field(default_factory=list)


@dataclass(frozen=True)
class Try:
    """A rehearsal that was made: by which factor its times were longer, how many others were made at once, how many seconds it
    took, what came of it, or why nothing did."""
    factor: float
    at_once: int
    seconds: float
    commands: list[Command] = field(default_factory=list)
    fault: Optional[str] = None

    @property
    def agrees_live(self) -> bool:
        """Whether the nodes did in every command what companions/live told then."""
        return self.fault is None and all(command.agrees_live for command in self.commands)

    @property
    def late(self) -> list[str]:
        """The timers for which there was no time left."""
        return [timer for command in self.commands for timer in command.late]


@dataclass
class Record:
    """A rehearsal, the release of the nodes, and each time that it was made."""
    seed: int
    kind: str
    text: str
    release: str = ""
    tries: list[Try] = field(default_factory=list)

    @property
    def last(self) -> Try:
        return self.tries[-1]

    def save(self, folder: str) -> None:
        """Writes it into the folder, as a whole or not at all."""
        path = path_of(folder, self.seed)
        with open(path + ".new", "w", encoding="utf-8") as file:
            json.dump(asdict(self), file, indent=1)
            file.write("\n")
        os.replace(path + ".new", path)


def path_of(folder: str, seed: int) -> str:
    """The file of a record."""
    return os.path.join(folder, f"{seed}.json")


def record_of(path: str) -> Record:
    """The record in a file."""
    try:
        with open(path, encoding="utf-8") as file:
            read = json.load(file)
        tries = [Try(**{**one, "commands": [Command(**command) for command in one["commands"]]}) for one in read.pop("tries")]
        return Record(**read, tries=tries)
    except OSError as fault:
        raise BadRecord(f"{path}: {fault.strerror}") from None
    except (ValueError, TypeError, KeyError, AttributeError):
        raise BadRecord(f"{path}: it is no record of a rehearsal") from None


def records_of(folder: str) -> list[Record]:
    """All records of a folder, in the order of their seeds."""
    try:
        names = sorted((name for name in os.listdir(folder) if name.endswith(".json")), key=lambda name: (len(name), name))
    except OSError as fault:
        raise BadRecord(f"{folder}: {fault.strerror}") from None
    found = [record_of(os.path.join(folder, name)) for name in names]
    if not all(record.tries for record in found):
        raise BadRecord(f"{folder}: a record of it was never made")
    if not found:
        raise BadRecord(f"{folder}: it has no records")
    return found


# ---- Making them


def answers_in(told: str) -> tuple[list[Command], dict[str, Any]]:
    """The commands that `replay --json --compare both` prints, and its last line."""
    *lines, last = map(json.loads, told.splitlines())
    return [Command(one["line"], one["command"], one["rules"], one["nodes"], one["live"], one["agrees"], one["agrees_live"],
                    one["late"], one["stands"], one["busy"]) for one in lines], last


def made(program: str, text: str, factor: float, at_once: int) -> tuple[Try, str]:
    """A rehearsal that is made on real nodes, and their release."""
    begin = time.monotonic()
    with tempfile.NamedTemporaryFile("w", suffix=".txt", encoding="utf-8") as file:
        file.write(text)
        file.flush()
        words = ["--json", "--compare", "both", "--factor", f"{factor:g}", "--most", f"{MOST_SECONDS * factor:g}"]
        done = subprocess.run([COMPANION, "--rehearse", program, *words, file.name], stdin=subprocess.DEVNULL,
                              capture_output=True, text=True, timeout=LONGEST_RUN + MOST_SECONDS * factor)
    seconds = round(time.monotonic() - begin, 1)
    try:
        commands, last = answers_in(done.stdout)
        return Try(factor, at_once, seconds, commands), last["release"]
    except (ValueError, KeyError, TypeError):
        return Try(factor, at_once, seconds, fault=f"status {done.returncode}: {done.stderr.strip()}"), ""


def first_tries(program: str, wanted: Iterable[Rehearsal], folder: str, jobs: int,
                tell: Callable[[str], None]) -> Iterator[Record]:
    """Makes rehearsals, some at once. One that has its record in the folder isn't made again."""

    def one(rehearsal: Rehearsal) -> Record:
        if os.path.exists(path_of(folder, rehearsal.seed)):
            return record_of(path_of(folder, rehearsal.seed))
        done, release = made(program, rehearsal.text, 1, jobs)
        record = Record(rehearsal.seed, rehearsal.kind, rehearsal.text, release, [done])
        record.save(folder)
        tell(f"{rehearsal.seed} {rehearsal.kind}: {told_of(done)}")
        return record

    with ThreadPoolExecutor(jobs) as pool:
        yield from pool.map(one, wanted)


def make_again(program: str, record: Record, factor: float, at_once: int, folder: str, tell: Callable[[str], None]) -> None:
    """Makes a rehearsal once more, with its times so much longer; so many are made at once."""
    done, _ = made(program, record.text, factor, at_once)
    record.tries.append(done)
    record.save(folder)
    tell(f"{record.seed} {record.kind}, made again: {told_of(done)}")


def told_of(done: Try) -> str:
    """What came of a try, as one line."""
    if done.fault is not None:
        return f"nothing came of it: {done.fault}"
    counts = f"{sum(command.agrees for command in done.commands)} as by the rules, "
    counts += f"{sum(command.agrees_live for command in done.commands)} as by companions/live"
    return f"{len(done.commands)} commands, {counts}, {done.seconds} s" + (", no time left" if done.late else "")
