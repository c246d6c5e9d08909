"""The two sides of `live`: what the rules answer to each command of a script, and what live nodes show for it, in several
orders of messages."""
import random
from dataclasses import dataclass, field
from typing import Any, Iterator, Optional


from rehearse_tools.inputs import words_of
from rehearse_tools.otp25.cluster import ClusterFile
from rehearse_tools.otp25.reasons import SENTENCES, Memory, Step, reason_for
from rehearse_tools.otp25.rehearsal import Rehearsal
from rehearse_tools.otp25.system import System
from rehearse_tools.otp25.waiting import Wait, waits_in
from rehearse_tools.program import Program
from rehearse_tools.reading import JsonRun

BACK_AND_FORTH = ("undo", "redo", "undo_all", "redo_all")
# Of a report live nodes can't show these.
RULES_ALONE = ("now", "app", "timer", "forbidden")
Row = tuple[str, str]


@dataclass(frozen=True)
class Ruled:
    """What the rules answer to a command, as lines, and the report behind it."""
    answer: list[str]
    report: list[str]


@dataclass
class Answer:
    """A command, what the rules answer, with the report behind it, and the outcomes of live nodes, each with the numbers of the
    orders that gave it, the one of the first order in front."""
    number: int
    line: str
    rules: list[str]
    outcomes: list[tuple[list[str], list[int]]]
    agrees: bool
    reason: Optional[str] = None
    waits: list[Wait] = field(default_factory=list)
    burns: list[tuple[str, ...]] = field(default_factory=list)
    # In how many orders something hangs behind it.
    hanging: int = 0

    @property
    def live(self) -> list[str]:
        return self.outcomes[0][0]

    @property
    def hangs(self) -> bool:
        return self.hanging > 0

    @property
    def sentence(self) -> Optional[str]:
        return SENTENCES[self.reason] if self.reason is not None else None


# ---- Comparing


def keyed(lines: list[str]) -> list[tuple[str, str]]:
    """Lines with the key by which they are compared: below a node of a report that node stands before the line."""
    found, node = [], ""
    for line in lines:
        if line.startswith("node "):
            node = words_of(line)[1]
        found.append((node + line if line.startswith("  ") else line, line))
    return found


def is_compared(line: str) -> bool:
    """Whether live nodes can show a line of a report."""
    return words_of(line)[0] not in RULES_ALONE


def moves(lines: list[str]) -> dict[str, list[str]]:
    """For each application that moves, its starts and stops in order."""
    done: dict[str, list[str]] = {}
    for line in lines:
        if line.startswith(("started ", "stopped ")):
            done.setdefault(words_of(line)[1], []).append(line)
    return {app: told for app, told in done.items() if len({line[:7] for line in told}) == 2}


def rows_of(rules: list[str], live: list[str]) -> list[Row]:
    """The lines of both answers: `<` marks what only the rules say, and `>` what only live nodes show. Lines that follow from one
    command may come in any order, but for the starts and stops of one application."""
    left, rest = keyed(rules), keyed(live)
    rows: list[tuple[str, Row]] = []
    for key, line in left:
        is_there = (key, line) in rest
        if is_there:
            rest.remove((key, line))
        rows.append((key, (" " if is_there or not is_compared(line) else "<", line)))
    before = {key: earlier for (key, _), (earlier, _) in zip(keyed(live), [("", ""), *keyed(live)])}
    for key, line in rest:
        place = next((place for place, (other, _) in enumerate(rows) if other == before[key]), len(rows) - 1)
        rows.insert(place + 1, (key, (">", line)))
    found = [row for _, row in rows]
    if not rest and not any(mark == "<" for mark, _ in found):
        found += [(">", f"in another order: {', '.join(told)}") for app, told in moves(live).items() if moves(rules).get(app) != told]
    return found


def agree(rules: list[str], live: list[str]) -> bool:
    """Whether two answers agree."""
    return all(mark == " " for mark, _ in rows_of(rules, live))


# ---- The live side


class Side:
    """Live nodes in one order of messages. Where a script goes back, the states behind its steps are kept."""

    def __init__(self, cluster: ClusterFile, order: int, goes_back: bool):
        self.states = [Rehearsal(System(cluster, random.Random(order) if order else None))]
        self.place = 0
        self.goes_back = goes_back

    @property
    def state(self) -> Rehearsal:
        return self.states[self.place]

    def branch(self) -> "Side":
        """Another value of the same state, for a plan."""
        other = Side.__new__(Side)
        other.states, other.place, other.goes_back = [self.state.copy()], 0, False
        return other

    def do(self, words: list[str], rules: list[str]) -> list[str]:
        """What live nodes show for a command. They can't go back: undo and redo are answered as by the rules, and take the model to
        the state that stood behind the same step."""
        if words[0] in BACK_AND_FORTH:
            if rules[0].startswith("ok"):
                many = int(rules[0].split()[1]) if words[0].endswith("_all") else 1
                self.place += -many if words[0].startswith("undo") else many
            return list(rules)
        if self.goes_back and rules[0] == "ok" and words[0] != "show":
            self.states[self.place + 1:] = [self.state.copy()]
            self.place += 1
        return self.state.do(words)


class Sides:
    """Both sides of a script: what the rules answer comes in, and each answer tells how live nodes agree with it."""

    def __init__(self, cluster: ClusterFile, orders: int, goes_back: bool = False):
        self.sides = [Side(cluster, order, goes_back) for order in range(orders)]
        self.memory = Memory()
        self.report: list[str] = []

    def branch(self) -> "Sides":
        """The same behind the commands so far, for a plan."""
        other = Sides.__new__(Sides)
        other.sides = [side.branch() for side in self.sides]
        other.memory = self.memory.copy()
        other.report = list(self.report)
        return other

    def answer(self, number: int, line: str, ruled: Ruled) -> Answer:
        """Makes a command on the live side, in each order."""
        rules = ruled.answer
        words = words_of(line)
        before = self.sides[0].state.system.copy()
        burnt = [set(side.state.system.burning) for side in self.sides]
        told = [side.do(words, rules) for side in self.sides]
        systems = [side.state.system for side in self.sides]
        outcomes = outcomes_of(told)
        waits = [waits_in(system) for system in systems]
        agrees = [agree(rules, live) for live in told]
        burning = dict.fromkeys(row[:2] for system in systems for row in sorted(system.burning))
        answer = Answer(number, line, rules, outcomes, all(agrees), waits=waits[0], burns=list(burning),
                        hanging=sum(any(wait.ends is None for wait in one) for one in waits))
        # The order of messages by which the reason is told: the first one in which something differs, or burns.
        place = next((place for place, is_as_by_rules in enumerate(agrees) if not is_as_by_rules),
                     next((place for place, system in enumerate(systems) if system.burning - burnt[place]), None))
        if place is not None:
            marked = rows_of(rules, told[place])
            answer.reason = reason_for(Step(words, [text for mark, text in marked if mark == "<"],
                                            [text for mark, text in marked if mark == ">"], systems[place], before,
                                            waits[place], self.report), self.memory)
        self.memory.note(words, systems[0], waits[0])
        self.report = ruled.report
        return answer


def outcomes_of(told: list[list[str]]) -> list[tuple[list[str], list[int]]]:
    """The different outcomes among the answers of several orders, each with the numbers of those that gave it, from 0 on."""
    found: dict[Any, tuple[list[str], list[int]]] = {}
    for number, lines in enumerate(told):
        key = tuple(sorted(keyed(lines))) + tuple(sorted(map(str, moves(lines).items())))
        found.setdefault(key, (lines, []))[1].append(number)
    return list(found.values())


# ---- The side of the rules


def doubled(commands: list[str]) -> Iterator[str]:
    """Each command with a `show` behind it."""
    for command in commands:
        yield command
        yield "show"


def rules_of(program: Program, cluster: str, commands: list[str]) -> tuple[JsonRun, list[Ruled]]:
    """What the program answers to commands: its run, and each answer with the report behind it. Only a whole run has any."""
    run = program.run(cluster, list(doubled(commands)))
    if run.status != 0:
        return run, []
    answers = program.complete(run, 2 * len(commands))
    return run, [Ruled(answer.lines, shown.report.lines) for answer, shown in zip(answers[::2], answers[1::2])]
