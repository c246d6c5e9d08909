"""What is told of the commands of a rehearsal on live nodes, by their model and by the program, so that it can be compared: of the lines of
an answer or a report but the first one the order counts nothing.
"""
import os
import random
import sys
from collections.abc import Sequence
from dataclasses import dataclass

from live_rules import report_of, split_answers
from support import TOP, fault_of, run

sys.path.append(os.path.join(TOP, "companions"))
from rehearse_tools.inputs import is_command, joined, split_input, words_of  # noqa: E402
from rehearse_tools.live_sides import doubled  # noqa: E402
from rehearse_tools.otp25 import rehearsal as model  # noqa: E402
from rehearse_tools.otp25.cluster import cluster_of  # noqa: E402
from rehearse_tools.otp25.system import System  # noqa: E402

Lines = tuple[str, frozenset[tuple[str, int]]]


@dataclass(frozen=True)
class Told:
    """What is told of a command: its answer, and the report behind it."""
    answer: Lines
    report: Lines


def lines_of(told: list[str]) -> Lines:
    """The first line of an answer, and the set of the others, each with how often it stands there."""
    found, node = [], ""
    for line in told[1:]:
        node = words_of(line)[1] if line.startswith("node ") else node
        found.append(f"{node}{line}" if line.startswith("  ") else line)
    return told[0], frozenset((line, found.count(line)) for line in found)


def by_model(text: str, order: int) -> list[Told]:
    """What the model tells of a rehearsal in an order of messages; 0 is that in which they are sent."""
    parts = split_input(text)
    state = model.Rehearsal(System(cluster_of(parts.cluster), random.Random(order) if order else None))
    told = []
    for words in map(words_of, filter(is_command, parts.lines)):
        answer = ["ok"] if words == ["show"] else state.do(words)
        told.append(Told(lines_of(answer), lines_of(report_of(state))))
    return told


def by_program(program: str, text: str, more: Sequence[str] = ()) -> list[Told]:
    """What the program tells of a rehearsal, with more words on its command line."""
    parts = split_input(text)
    commands = list(filter(is_command, parts.lines))
    done = run(program, ["run", "--rules", "otp25", *more], input=joined(parts.cluster, doubled(commands)).encode())
    wrong, answers = fault_of(done, 0, None), split_answers(done.stdout.decode())
    if wrong is not None or len(answers) != 2 * len(commands):
        raise ValueError(f"{wrong}, {len(answers)} answers to {2 * len(commands)} commands")
    return [Told(lines_of(["ok"] if words_of(command) == ["show"] else answer), lines_of(report))
            for command, answer, report in zip(commands, answers[::2], answers[1::2])]


def now_of(report: Lines) -> int:
    """What the clock is."""
    return next(int(words_of(line)[1]) for line, _ in report[1] if line.startswith("now "))
