#!/usr/bin/env python3
"""Counts the records of random rehearsals on real nodes (run_live.py --random): live_figures.py [--json] FOLDER PROGRAM

How many agree in every command with the rules, which are the answers of PROGRAM, and how many with what companions/live tells
of live nodes; where the first difference from the rules is, by its reason, a place of docs/LIVE_OTP.md that companions/live
names; in how many something hangs; and how many were made again with more time. Both are asked anew: the nodes' answers alone
are of the records. A rehearsal that was made again counts twice: as it was at first, and as it was then. Status 2: the folder
has no records.
"""
import argparse
import json
import os
import subprocess
import sys
from collections import Counter
from concurrent.futures import ThreadPoolExecutor
from dataclasses import dataclass, field
from typing import Any, Iterator, Optional

# No file is left behind.
sys.dont_write_bytecode = True
from groups import program_at  # noqa: E402
from live_records import BadRecord, Record, Try, records_of  # noqa: E402
from random_live import CAREFUL, KINDS  # noqa: E402
from support import LONGEST_RUN, TOP  # noqa: E402

sys.path.append(os.path.join(TOP, "companions"))
from rehearse_tools.live_sides import agree, rows_of  # noqa: E402

COMPANION = os.path.join(TOP, "companions", "live")
NOT_TOLD = "not told by companions/live"


@dataclass(frozen=True)
class Told:
    """What is told of a command: the rules' lines, the outcomes of live nodes with the orders of messages that give each, and
    why both differ."""
    rules: list[str]
    outcomes: list[tuple[list[str], frozenset[int]]]
    anchor: Optional[str]


def told_of(program: str, text: str) -> list[Told]:
    """What the program and companions/live tell of each command of a rehearsal."""
    words = ["--json", "--rehearse", program, "/dev/stdin"]
    done = subprocess.run([COMPANION, *words], input=text, capture_output=True, text=True, timeout=LONGEST_RUN)
    if done.returncode == 2 or not done.stdout:
        raise BadRecord(f"companions/live refuses a record: {done.stdout}{done.stderr}")
    return [Told(one["rules"], [(other["live"], frozenset(other["which"])) for other in one["outcomes"]], one["anchor"])
            for one in json.loads(done.stdout)["commands"]]


@dataclass(frozen=True)
class Judged:
    """A try: whether each command came out as by the rules, and whether as companions/live tells, of whose orders of messages
    those count that gave all that was before; and whether all came out as by the first of these orders."""
    made: Try
    rules: list[bool]
    live: list[bool]
    in_first_order: bool

    @property
    def first(self) -> Optional[int]:
        """The place of the first command that differs from the rules."""
        return None if all(self.rules) else self.rules.index(False)

    @property
    def first_live(self) -> Optional[int]:
        """The place of the first command that differs from what companions/live tells."""
        return None if all(self.live) else self.live.index(False)

    @property
    def hanging(self) -> list[int]:
        """The places of the commands at which a call or a boot script doesn't go on at the nodes."""
        return [place for place, command in enumerate(self.made.commands)
                if any(line == "no answer" or line.startswith("pending ") for line in command.nodes)]


def judged(told: list[Told], made: Try) -> Judged:
    """Compares a try with what is told. One of which nothing came agrees in nothing."""
    if made.fault is not None:
        return Judged(made, [False], [False], False)
    live, orders = [], frozenset(order for _, which in told[0].outcomes for order in which)
    for one, command in zip(told, made.commands):
        is_met, orders = met(one, command.nodes, orders)
        live.append(is_met)
    is_first = all(met(one, command.nodes, frozenset({0}))[0] for one, command in zip(told, made.commands))
    return Judged(made, [agree(one.rules, command.nodes) for one, command in zip(told, made.commands)], live, is_first)


def met(told: Told, nodes: list[str], orders: frozenset[int]) -> tuple[bool, frozenset[int]]:
    """Whether one of these orders of messages gives what the nodes did, and the orders that are left."""
    fits = frozenset(order for lines, which in told.outcomes if which & orders and agree(lines, nodes) for order in which)
    return bool(fits & orders), fits & orders or orders


@dataclass
class Case:
    """A record with what is told of it, and its tries as they were judged: the first one and the last one."""
    record: Record
    told: list[Told]
    first: Judged
    last: Judged

    @property
    def anchor(self) -> Optional[str]:
        """Why the rules are otherwise at the first command that differs from them."""
        place = self.last.first
        return None if place is None else self.told[place].anchor or NOT_TOLD


def case_of(program: str, record: Record) -> Case:
    """Judges a record."""
    told = told_of(program, record.text)
    if any(made.fault is None and len(made.commands) != len(told) for made in record.tries):
        raise BadRecord(f"{record.seed}: it has other commands than its text")
    return Case(record, told, judged(told, record.tries[0]), judged(told, record.last))


def cases_of(program: str, records: list[Record]) -> list[Case]:
    """Judges records, some at once."""
    with ThreadPoolExecutor(2) as pool:
        return list(pool.map(lambda record: case_of(program, record), records))


# ---- Counting


@dataclass
class Figures:
    """What is counted of some rehearsals."""
    rehearsals: int = 0
    commands: int = 0
    # Up to the first that differs from the rules.
    reached: int = 0
    run_first: int = 0
    run: int = 0
    live_first: int = 0
    live: int = 0
    live_order: int = 0
    again: int = 0
    late: int = 0
    hanging: int = 0
    nothing: int = 0
    anchors: Counter[str] = field(default_factory=Counter)

    def add(self, case: Case) -> None:
        """Counts a rehearsal."""
        place = case.last.first
        self.rehearsals += 1
        self.commands += len(case.told)
        self.reached += len(case.told) if place is None else place + 1
        self.run_first += case.first.first is None
        self.run += place is None
        self.live_first += case.first.first_live is None
        self.live += case.last.first_live is None
        self.live_order += case.last.in_first_order
        self.again += len(case.record.tries) > 1
        self.late += len(case.record.tries) > 1 and bool(case.record.tries[0].late)
        self.hanging += bool(case.last.hanging)
        self.nothing += case.record.last.fault is not None
        if case.anchor is not None:
            self.anchors[case.anchor] += 1


def figures_of(cases: list[Case]) -> dict[str, Figures]:
    """The figures of each kind, and of all."""
    kinds = [kind for kind in (*KINDS, CAREFUL) if any(case.record.kind == kind for case in cases)]
    found = {name: Figures() for name in (*kinds, "all")}
    for case in cases:
        found[case.record.kind].add(case)
        found["all"].add(case)
    return found


# ---- What is told


ROWS = (("rehearsals", "rehearsals"), ("commands", "commands"), ("up to the first that differs from the rules", "reached"),
        ("agree with the rules, at the first try", "run_first"), ("agree with the rules, behind the second try", "run"),
        ("agree with companions/live, at the first try", "live_first"),
        ("agree with companions/live, behind the second try", "live"),
        ("of these by its first order of messages", "live_order"),
        ("made again", "again"), ("of these no time was left", "late"), ("something hangs", "hanging"),
        ("nothing came of it", "nothing"))


def share(count: int, whole: int) -> str:
    """A count with its share."""
    return f"{count} ({100 * count / whole:.1f} %)" if whole else "0"


def table(cases: list[Case]) -> Iterator[str]:
    """The figures as lines."""
    figures = figures_of(cases)
    seeds = [case.record.seed for case in cases]
    releases = sorted({case.record.release for case in cases if case.record.release})
    yield f"{len(cases)} rehearsals, seeds {min(seeds)} to {max(seeds)}, OTP {', '.join(releases)}"
    yield f"{'':50}" + "".join(f"{name:>14}" for name in figures)
    for text, name in ROWS:
        is_count = name in ("rehearsals", "commands", "reached")
        shown = [str(getattr(one, name)) if is_count else share(getattr(one, name), one.rehearsals) for one in figures.values()]
        yield f"{text:50}" + "".join(f"{one:>14}" for one in shown)
    yield "first difference from the rules, by its reason:"
    for anchor, _ in figures["all"].anchors.most_common():
        yield f"  {anchor:48}" + "".join(f"{share(one.anchors[anchor], one.rehearsals):>14}" for one in figures.values())
    for case in cases:
        place = case.last.first_live
        if place is not None:
            line = case.record.last.fault or case.record.last.commands[place].command
            yield f"otherwise than companions/live: {case.record.seed} {case.record.kind}, command {place + 1}, {line}"


def as_json(cases: list[Case]) -> str:
    """The figures as one JSON object."""
    told: dict[str, Any] = {name: vars(one) for name, one in figures_of(cases).items()}
    differing = [{"seed": case.record.seed, "command": case.last.first_live + 1} for case in cases
                 if case.last.first_live is not None]
    return json.dumps({"figures": told, "otherwise_than_live": differing}, indent=1)


def differing_text(case: Case) -> str:
    """A rehearsal that differs from what companions/live tells, to look at: its input, with the nodes' lines below each
    command. A line of theirs that isn't told stands behind `#>`, one that is told and isn't there behind `#<`."""
    told, made, first = iter(case.told), iter(case.record.last.commands), case.last.first_live
    lines, place = [], 0
    is_script = False
    for line in case.record.text.splitlines():
        lines.append(line)
        if is_script:
            one, command = next(told), next(made)
            outcomes = [other for other, _ in one.outcomes]
            nearest = min(outcomes, key=lambda other: sum(mark != " " for mark, _ in rows_of(other, command.nodes)))
            lines += [f"#{mark} {text}" for mark, text in rows_of(nearest, command.nodes)]
            lines += ["# the first that differs from companions/live"] if place == first else []
            lines += [f"# no time left: {timer}" for timer in command.late]
            place += 1
        is_script = is_script or line == "==="
    return "\n".join(lines) + "\n"


def asked(name: str, about: str | None) -> tuple[argparse.Namespace, list[Case]]:
    """What the command line NAME [--json] FOLDER PROGRAM says, and the cases of that folder. A bad record ends with status 2."""
    line = argparse.ArgumentParser(usage=f"{name}.py [--json] FOLDER PROGRAM", description=about,
                                   formatter_class=argparse.RawTextHelpFormatter)
    line.add_argument("--json", action="store_true")
    line.add_argument("folder")
    line.add_argument("program", type=program_at)
    given = line.parse_args()
    try:
        return given, cases_of(given.program, records_of(given.folder))
    except BadRecord as fault:
        print(f"{name}: {fault}", file=sys.stderr)
        sys.exit(2)


def main() -> None:
    given, cases = asked("live_figures", __doc__)
    print(as_json(cases) if given.json else "\n".join(table(cases)))


if __name__ == "__main__":
    main()
