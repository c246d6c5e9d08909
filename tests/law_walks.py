"""A rehearsal as a walk from state to state, by either set of rules: of what the laws of live_laws.py speak.

A walk is read from the reports behind the commands. What a report by the rules of OTP 25 doesn't tell is kept beside it: where an
application is forbidden, by the file and by each `permit` that was answered by ok; since when one is lost, and whether it may start by
itself. Of a permission whose call has no answer nothing is known, so no node counts as one that could run it.
"""
import os
import sys
from collections.abc import Iterator
from dataclasses import dataclass, field
from typing import Optional

from agreement import told_by
from support import TOP

sys.path.append(os.path.join(TOP, "companions"))
from rehearse_tools.inputs import is_command, split_input, words_of  # noqa: E402
from rehearse_tools.otp25.cluster import ClusterFile, cluster_of  # noqa: E402

Pair = tuple[str, str]


@dataclass
class State:
    """A report: the clock, the mode of each node, what runs there, waits and is being started, where each distributed application runs,
    and when timers are due."""
    now: int = 0
    mode: dict[str, str] = field(default_factory=dict)
    running: dict[str, list[str]] = field(default_factory=dict)
    waiting: dict[str, list[str]] = field(default_factory=dict)
    starting: dict[str, list[str]] = field(default_factory=dict)
    places: dict[str, list[str]] = field(default_factory=dict)
    due: list[int] = field(default_factory=list)
    # Of which applications a failover timer is set. By the rules of OTP 25 none is cancelled, so it may be one that means nothing any more.
    failing_over: set[str] = field(default_factory=set)
    lines: list[str] = field(default_factory=list)

    def is_up(self, node: str) -> bool:
        return self.mode[node] == "up"

    def is_started(self, node: str, app: str) -> bool:
        """Whether it runs there, or waits there."""
        return app in self.running[node] + self.waiting[node]


def state_of(report: list[str]) -> State:
    """The state that a report tells, of either set of rules."""
    state, node = State(lines=[line for line in report if not line.startswith("now ")]), ""
    for word, *rest in map(words_of, report[1:]):
        if word == "now":
            state.now = int(rest[0])
        elif word == "node":
            node = rest[0]
            state.mode[node] = rest[1]
            state.running[node], state.waiting[node], state.starting[node] = [], [], []
        elif word in ("running", "waiting", "starting"):
            {"running": state.running, "waiting": state.waiting, "starting": state.starting}[word][node].append(rest[0])
        elif word == "app":
            state.places[rest[0]] = rest[2:] if rest[1] == "running" else []
        elif word == "timer":
            state.due.append(int(rest[-1]))
            state.failing_over |= {rest[1]} if rest[0] == "failover" else set()
    return state


@dataclass
class Step:
    """A command: its words, its answer, the states before and behind it, and the pairs of a node and an application that aren't known to
    be permitted before and behind it."""
    cluster: ClusterFile
    words: list[str]
    answer: list[str]
    before: State
    after: State
    barred_before: set[Pair]
    barred: set[Pair]

    @property
    def word(self) -> str:
        return self.words[0]

    @property
    def app(self) -> str:
        """The application that it names, or nothing."""
        place = 1 if self.word.endswith("_all") else 2
        return self.words[place] if len(self.words) > place else ""

    @property
    def is_done(self) -> bool:
        return self.answer[0] == "ok"

    @property
    def lines(self) -> list[list[str]]:
        """The words of what happened."""
        return [words_of(line) for line in self.answer[1:]]

    @property
    def spread(self) -> list[str]:
        """The distributed applications."""
        return list(self.cluster.entries)

    @property
    def nodes_up(self) -> list[str]:
        """The nodes that come up."""
        return [words[1] for words in self.lines if words[0] == "up"]

    def group(self, app: str, node: str) -> Optional[int]:
        """The place of the group of an application's list in which a node stands."""
        return next((place for place, group in enumerate(self.cluster.entries[app].groups)
                     if node in (group if isinstance(group, tuple) else (group,))), None)

    def listed(self, app: str) -> list[str]:
        """The nodes of an application's list that are up behind it."""
        return [node for node in self.cluster.entries[app].nodes if self.after.is_up(node)]

    def can_run(self, node: str, app: str, is_before: bool = False) -> bool:
        """Whether a node is up, has an application started, may run it, and runs all that it needs."""
        state, barred = (self.before, self.barred_before) if is_before else (self.after, self.barred)
        has = self.cluster.nodes[node].platform | set(state.running[node])
        may = state.is_up(node) and state.is_started(node, app) and (node, app) not in barred
        return may and has.issuperset(self.cluster.apps[app].needs)


def first_barred(cluster: ClusterFile, node: str) -> set[Pair]:
    """What the file forbids at a node."""
    return {(node, app) for app, is_allowed in cluster.nodes[node].permissions or () if not is_allowed}


def barred_behind(cluster: ClusterFile, barred: set[Pair], words: list[str], answer: list[str]) -> set[Pair]:
    """What isn't known to be permitted behind a command."""
    kept = set(barred)
    if words[0] == "permit" and not answer[0].startswith("refused"):
        pair = (words[1], words[2])
        kept.discard(pair)
        if words[3] == "false" or answer[0] != "ok":
            kept.add(pair)
    for ended in (words_of(line)[1] for line in answer[1:] if line.startswith("ended ")):
        kept = {pair for pair in kept if pair[0] != ended} | first_barred(cluster, ended)
    return kept


def walk_of(program: str, rules: str, text: str) -> list[Step]:
    """The walk of a rehearsal by a set of rules."""
    parts = split_input(text)
    cluster, answers = cluster_of(parts.cluster), told_by(program, rules, text)
    states = list(map(state_of, answers[::2]))
    barred = {pair for node in cluster.nodes for pair in first_barred(cluster, node)}
    steps = []
    for words, answer, before, after in zip(map(words_of, filter(is_command, parts.lines)), answers[1::2], states, states[1:]):
        behind = barred_behind(cluster, barred, words, answer)
        steps.append(Step(cluster, words, ["ok"] if words == ["show"] else answer, before, after, barred, behind))
        barred = behind
    return steps


# ---- What is kept of the past


@dataclass(frozen=True)
class Loss:
    """An application was lost with a node; its failover time is over at a moment between these."""
    node: str
    earliest: int
    latest: int


def is_started_again(step: Step, app: str, loss: Loss) -> bool:
    """Whether the wait for a lost application may end before its time: the node with which it was lost comes up, or a command starts
    it there or stops it."""
    by_call = (step.word in ("stop", "stop_all") or step.word == "start_all" and step.before.is_up(loss.node)
               or step.word == "start" and step.words[1] == loss.node)
    return step.app == app and by_call or loss.node in step.nodes_up


def with_losses(walk: list[Step]) -> Iterator[tuple[Step, dict[str, Loss], dict[str, Loss]]]:
    """Each step with the applications that are lost, and whose failover time runs, before it and behind it."""
    lost: dict[str, Loss] = {}
    for step in walk:
        before = lost
        lost = {app: loss for app, loss in lost.items() if not step.after.places[app] and step.after.now < loss.latest
                and not is_started_again(step, app, loss)}
        for app in step.spread:
            gone = [node for node in step.before.places[app] if step.after.mode[node] == "down"]
            timeout = step.cluster.entries[app].timeout
            if len(gone) == len(step.before.places[app]) == 1 and not step.after.places[app] and timeout:
                lost[app] = Loss(gone[0], step.before.now + timeout, step.after.now + timeout)
        yield step, before, lost


def starts(step: Step, app: str) -> bool:
    """Whether a command starts an application, and isn't refused, or a node comes up that boots it."""
    by_boot = any(app == booted for node in step.nodes_up for booted, _ in step.cluster.nodes[node].boot)
    by_call = step.word in ("start", "start_all") and step.app == app and not step.answer[0].startswith("refused ")
    return by_call or by_boot


def ends_by_call(step: Step, app: str) -> bool:
    """Whether an application is stopped where it runs, or at all nodes, or ends by itself at a node that goes on."""
    if not step.is_done or step.app != app or step.after.places[app]:
        return False
    if step.word == "stop_all":
        return True
    return step.word in ("stop", "exit") and app in step.before.running[step.words[1]] and step.after.is_up(step.words[1])


def with_quiet(walk: list[Step]) -> Iterator[tuple[Step, set[str], set[str]]]:
    """Each step with the applications that were stopped or ended, and weren't started since, before it and behind it."""
    quiet: set[str] = set()
    for step in walk:
        before = quiet
        quiet = {app for app in quiet if not starts(step, app) and not step.after.places[app]}
        quiet |= {app for app in step.spread if ends_by_call(step, app)}
        yield step, before, quiet
