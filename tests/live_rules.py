"""Rehearsals by the rules of OTP 25, `run --rules otp25`, beside the model of companions/live: both answer the scripts of tests/live,
which real nodes made, and random ones (random_live.py), in the order in which messages are sent. With undo and redo put into a random
script the model answers from a copy of what it was before each step.

An answer agrees if its first line is the same, if what happened is the same in the same order, and if the same applications wait. Behind
each command stands a `show`, of which all is compared with the model's state: nodes, what runs there, in the order of the starts, what
waits there, is forbidden there and is being started, for what its processes wait, timers, where each distributed application runs, and
which calls are open.
"""
import os
import random
import sys
from collections.abc import Callable, Iterable, Iterator
from glob import glob
from typing import Optional

from groups import Group
from random_live import rehearsal
from support import TOP, fault_of, read, run

sys.path.append(os.path.join(TOP, "companions"))
from rehearse_tools.inputs import is_command, split_input, words_of  # noqa: E402
from rehearse_tools.otp25.cluster import ClusterFile, cluster_of  # noqa: E402
from rehearse_tools.otp25.dist_ac_state import ForAnyStart, ForIntroduction, ForLock, ForStart, ForWeight  # noqa: E402
from rehearse_tools.otp25.rehearsal import Rehearsal  # noqa: E402
from rehearse_tools.otp25.system import Node, System  # noqa: E402
from rehearse_tools.otp25.waiting import stands  # noqa: E402

SCRIPTS = sorted(glob(os.path.join(TOP, "tests", "live", "*.txt")))
# So many random rehearsals as they are, and so many that go back and forth.
FIRST, COUNT, BACK_COUNT, AT_ONCE = 5_000, 240, 120, 20
FIRST_WORDS = ("ok", "refused", "no answer", "error", "endless", "bad line", "cluster refused")
ORDERLESS = ("waits ", "pending ", "  waiting ", "  timer ")

Test = tuple[str, Optional[str]]
# What is tested of a rehearsal with some options, and what is wrong.
Wrong = Callable[[str, bytes, list[str]], Iterator[Test]]


class Model:
    """The model of a cluster, with the states behind each step, so that it can go back."""

    def __init__(self, cluster: ClusterFile):
        self.states = [Rehearsal(System(cluster, None))]
        self.place = 0

    def do(self, words: list[str]) -> list[str]:
        """The lines of the answer to a command."""
        last = len(self.states) - 1
        if words[0] in ("undo", "undo_all"):
            return self.move(words[0], 0, self.place, -1, "at_start")
        if words[0] in ("redo", "redo_all"):
            return self.move(words[0], last, last - self.place, 1, "at_end")
        state = self.states[self.place].copy()
        # A call that a node answers with an error is a step all the same.
        is_step = words != ["show"] and state.refusal(words) is None
        answer = state.do(words) if words != ["show"] else report_of(state)
        if is_step:
            self.states[self.place + 1:] = [state]
            self.place += 1
        return answer

    def move(self, word: str, end: int, many: int, by: int, nowhere: str) -> list[str]:
        """Takes steps back, or makes them again."""
        if word.endswith("_all"):
            self.place = end
            return [f"ok {many}"]
        if many == 0:
            return [f"refused {nowhere}"]
        self.place += by
        return ["ok"]


# ---- The report


def report_of(state: Rehearsal) -> list[str]:
    """All that a report tells of the model's state."""
    system, lines = state.system, []
    for line in state.report():
        if line.startswith("node ") and lines:
            lines += more_of(system, last_node(lines))
        lines.append(line)
    lines += more_of(system, last_node(lines))
    places = {app: [node.name for node in nodes_up(system) if node.controller.runs_here(app)]
              for app in system.file.apps if app in system.file.entries}
    lines += [f"app {app} running {' '.join(names)}" if names else f"app {app} nowhere" for app, names in places.items()]
    lines += [f"open {' '.join(call.words)}" for call in system.calls
              if call.is_open and call.node in system.nodes and system.nodes[call.node].life == call.life]
    return ["ok", f"now {system.clock}", *lines[1:]]


def nodes_up(system: System) -> list[Node]:
    """The nodes that are up, in the order of the file."""
    return [node for node in map(system.nodes.get, system.file.nodes) if node is not None and node.is_up]


def last_node(lines: list[str]) -> str:
    """The node of the last line of a node, or nothing."""
    return next((line.split()[1] for line in reversed(lines) if line.startswith("node ")), "")


def more_of(system: System, name: str) -> list[str]:
    """What a report tells of a node beside what live nodes can show of it."""
    node = system.nodes.get(name)
    if node is None:
        return []
    timers = [(timer.due, timer.message) for timer in system.timers if timer.to.node == name and timer.to.life == node.life]
    lines = [f"  timer failover {message.app} {due}" for due, message in timers if hasattr(message, "app")]
    forbidden = [f"  forbidden {app}" for app in system.file.apps if is_forbidden(node, app)]
    if not node.is_up:
        return [*forbidden, *(f"  timer sync {due}" for due, message in timers if type(message).__name__ == "Timeout"), *lines]
    starting = [f"  starting {row[0]}" for row in reversed(node.controller.starting)]
    boot = [f"  blocked boot {node.script.is_at}"] if node.script.is_at else []
    return [*forbidden, *starting, *blocked_of(node), *boot, *lines]


def is_forbidden(node: Node, app: str) -> bool:
    """Whether an application is forbidden at a node that is alive: its dist_ac knows that of those that it controls, else its controller."""
    if node.dist_ac is not None and app in node.dist_ac.apps:
        return not node.dist_ac.apps[app].run[node.name]
    return (node.controller.permissions or {}).get(app) is False


def blocked_of(node: Node) -> list[str]:
    """For what the dist_ac of a node that is up waits."""
    if node.dist_ac is None or not stands(node.dist_ac):
        return []
    stand = node.dist_ac.stand
    if isinstance(stand, ForLock):
        return ["  blocked dist_ac lock"]
    if isinstance(stand, ForIntroduction):
        return [f"  blocked dist_ac introduction for {stand.nodes[0]}"]
    app = stand.attempt.app
    if isinstance(stand, ForAnyStart):
        return [f"  blocked dist_ac start {app}"]
    if isinstance(stand, ForStart):
        return [f"  blocked dist_ac start {app} for {stand.node}"]
    assert isinstance(stand, ForWeight)
    return [f"  blocked dist_ac weight {app} for {stand.nodes[0]}"]


# ---- Comparing


def split_answers(text: str) -> list[list[str]]:
    """What the program printed, by command."""
    answers: list[list[str]] = []
    for line in text.splitlines():
        if line.startswith(FIRST_WORDS):
            answers.append([])
        answers[-1].append(line)
    return answers


def in_parts(answer: list[str]) -> tuple[str, list[str], list[str]]:
    """The first line of an answer, what happened, and who waits, whose order counts nothing; of a report, with the node before each line
    of what waits there."""
    happened, waits, node = [], [], ""
    for line in answer[1:]:
        node = line if line.startswith("node ") else node
        if line.startswith(ORDERLESS):
            waits.append(f"{node}{line}")
        else:
            happened.append(line)
    return answer[0], happened, sorted(waits)


def difference(program: str, text: str) -> Optional[str]:
    """Where the program and the model part in a rehearsal."""
    parts = split_input(text)
    commands = [told for line in parts.lines if is_command(line) for told in (line, "show")]
    shown = f"{parts.cluster}===\n" + "".join(f"{line}\n" for line in commands)
    done = run(program, ["run", "--rules", "otp25"], input=shown.encode())
    wrong = fault_of(done, 0, None)
    if wrong is not None:
        return wrong
    answers = split_answers(done.stdout.decode())
    if len(answers) != len(commands):
        return f"{len(answers)} answers to {len(commands)} commands"
    model = Model(cluster_of(parts.cluster))
    for number, (command, answer) in enumerate(zip(commands, answers), 1):
        owed = model.do(words_of(command))
        if in_parts(answer) != in_parts(owed):
            return f"command {number}, {command}: the model tells {owed}, the program {answer}"
    return None


def back_and_forth(seed: int) -> str:
    """The random rehearsal of a seed with commands that go back and forth in it, and reports behind them."""
    chance = random.Random(seed)
    head, separator, script = rehearsal(seed).text.partition("===\n")
    lines = []
    for line in script.splitlines():
        lines.append(line)
        if chance.random() < 0.5:
            lines += chance.choice([["undo", "show", "redo"], ["undo"], ["undo", "undo", "redo"], ["undo_all", "redo_all"], ["undo_all", "redo"]])
    lines += ["show", "undo_all", "show", "redo_all", "show"]
    return head + separator + "".join(f"{line}\n" for line in lines)


def in_scripts(program: str, wrong_with: Wrong) -> Iterator[Test]:
    """What is tested of the scripts that real nodes made."""
    for path in SCRIPTS:
        for name, wrong in wrong_with(program, read(path), []):
            yield f"{os.path.basename(path)} on live nodes: {name}", wrong


def in_random_ones(program: str, seeds: Iterable[int], wrong_with: Wrong) -> Iterator[Test]:
    """What is tested of random rehearsals, some of which go back and forth, in other orders, too."""
    for seed in seeds:
        text = back_and_forth(seed) if seed % 2 else rehearsal(seed).text
        for name, wrong in wrong_with(program, text.encode(), ["--pick", "last"] if seed % 4 < 2 else []):
            yield f"random rehearsal {seed} on live nodes: {name}", wrong


def scripts(program: str) -> Iterator[Test]:
    """The scripts that real nodes made."""
    yield "scripts that real nodes made", None if len(SCRIPTS) > 90 else f"there are {len(SCRIPTS)}"
    for path in SCRIPTS:
        with open(path, encoding="utf-8") as file:
            yield f"{os.path.basename(path)} by the rules of OTP 25", difference(program, file.read())


def random_ones(program: str, seeds: Iterable[int]) -> Iterator[Test]:
    """Random rehearsals, as they are."""
    for seed in seeds:
        yield f"random rehearsal {seed} by the rules of OTP 25", difference(program, rehearsal(seed).text)


def going_back(program: str, seeds: Iterable[int]) -> Iterator[Test]:
    """Random rehearsals that go back and forth."""
    for seed in seeds:
        yield f"random rehearsal {seed}, back and forth by the rules of OTP 25", difference(program, back_and_forth(seed))


def parts_of(first: int, count: int) -> list[range]:
    """The seeds, so many at once."""
    return [range(seed, min(seed + AT_ONCE, first + count)) for seed in range(first, first + count, AT_ONCE)]


TESTS = (Group(random_ones, parts_of(FIRST, COUNT), is_long=True), Group(going_back, parts_of(FIRST, BACK_COUNT), is_long=True), scripts)
