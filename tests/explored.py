"""`explore` beside a plain search over the model (model.py): random small clusters, bases, events, bounds and questions.

The search here keeps whole states, tells them apart by all that a state has but the clock, the numbers of starts and the start
kinds, with timers counted from now, and goes through the events in the order of their lines. So the program has to print the same
text: as many states, the same verdicts, and as short lists of events. That nothing hangs on what is left out is a test of its own:
a search that tells states apart by all that they have finds the same verdicts, and lists as short. The seed is fixed, so that each
run makes the same searches. That these reach all that they are made for is a test too.
"""
import collections
import copy
import os
import random
import re
import subprocess
from pathlib import Path
from typing import Iterator, Optional

import model
from groups import Group
from model_state import report
from random_scripts import Part
from support import TOP, fault_of, run

SEARCHES, AT_ONCE = 200, 10
MOST_STEPS = 2 ** 32 - 1
PATTERNS = ["crash *", "crash *", "boot *", "boot *", "tick 500", "tick 1000", "wait", "wait", "permit * * false", "permit * {app} true", "stop {node} *",
            "start * {app} permanent", "takeover * * transient", "exit * * abnormal", "start_all * temporary", "stop_all *",
            "boot {node}", "crash {node}"]


def key(state) -> tuple:
    """What states are told apart by. A pair that was never started has the restart type that a new state has."""
    pairs = [(node, app) for node in range(len(state.cluster.nodes)) for app in range(len(state.cluster.apps))]
    return (tuple(state.mode), tuple(map(tuple, state.running)), tuple(map(tuple, state.waiting)),
            tuple(tuple(sorted(apps)) for apps in state.forbidden),
            tuple(state.restart.get(pair, "temporary") for pair in pairs),
            tuple(sorted(state.standing.items())),
            tuple((entry[0] - state.now, *entry[1:]) for entry in sorted(state.timers, key=lambda entry: entry[0])))


def whole_key(state) -> tuple:
    """All that a state has."""
    pairs = [(node, app) for node in range(len(state.cluster.nodes)) for app in range(len(state.cluster.apps))]
    return key(state), state.now, tuple(state.starts), tuple(tuple(state.kind.get(pair, ("normal",))) for pair in pairs)


def events_of(rehearsal, pattern: str) -> list[list[str]]:
    """The events of a line `may`: those with each name of the cluster in place of a `*`."""
    words = pattern.split()
    nodes, apps = ([part.name for part in parts] for parts in (rehearsal.cluster.nodes, rehearsal.cluster.apps))
    kinds = [apps] if words[0] in ("start_all", "stop_all") else [nodes, apps]
    found = [words]
    for place, names in enumerate(kinds, 1):
        if place < len(words) and words[place] == "*":
            found = [[*line[:place], name, *line[place + 1:]] for line in found for name in names]
    return found


def wait_in(state) -> Optional[list[str]]:
    """The tick to the next timer, if one is set: it takes a millisecond at least."""
    return ["tick", str(max(1, min(entry[0] for entry in state.timers) - state.now))] if state.timers else None


class Question:
    """A line `ask`: whether it is asked of each state, what has to be so, the application and the nodes that it names, and how long one may
    wait."""

    def __init__(self, words: list[str]):
        self.within = int(words[-1]) if words[-2] == "within" else None
        self.always = words[1] == "always"
        rest = words[2 if self.always else 1:]
        if self.within is not None:
            self.always, rest = True, rest[:-2]
        # By these rules nothing hangs.
        self.hangs = rest == ["nothing", "hangs"]
        self.app, self.state, self.down = (None, None, []) if self.hangs else (rest[1], rest[2], rest[5:])
        self.always = self.always or self.hangs or self.state == "once"

    def holds(self, search, state) -> bool:
        if not self.always and state.timers:
            return True
        return any(self.is_met(search.rehearsal, later) for later in search.waiting(state, self.within))

    def is_met(self, rehearsal, state) -> bool:
        if self.hangs:
            return True
        app = rehearsal.number(rehearsal.cluster.apps, self.app)
        places = sum(app in running for running in state.running)
        if places <= 1 if self.state == "once" else places > 0:
            return True
        nodes = [rehearsal.number(rehearsal.cluster.nodes, name) for name in self.down]
        return bool(nodes) and all(state.mode[node] != "up" for node in nodes)


class LimitMet(Exception):
    """A limit of starts or of time refuses an event, which another state might accept that is alike."""


class Search:
    """A search: `text` is what is owed, `status` how it ends, and `reached` what of it happened. States are told apart by `key`."""

    def __init__(self, cluster: str, lines: list[str], most: int, pick: str, tell_apart=key):
        self.rehearsal, told, self.key = model.Rehearsal(cluster, pick), [], tell_apart
        self.events, self.asks = [], []
        self.down, self.steps, self.most = len(self.rehearsal.cluster.nodes), MOST_STEPS, most
        self.base = None
        for line in lines:
            words = line.split()
            if words == ["may", "wait"]:
                self.events.append(["wait"])
            elif words[0] == "may":
                self.events += events_of(self.rehearsal, " ".join(words[1:]))
            elif words[0] == "down":
                self.down = int(words[1])
            elif words[0] == "steps":
                self.steps = int(words[1])
            elif words[0] == "ask":
                self.asks.append(Question(words))
            else:
                told += self.rehearsal.answer(words)
        self.start = self.rehearsal.state
        self.look()
        self.text = model.joined([*told, *self.told()])
        self.status = 9 if self.failed else 10 if self.unfinished else 0

    def behind(self, state, words) -> Optional[object]:
        """The state behind an event, unless that is refused, or too many nodes are not up then."""
        step = model.Rehearsal.__new__(model.Rehearsal)
        step.cluster, step.pick, step.states, step.cursor = self.rehearsal.cluster, self.rehearsal.pick, [copy.deepcopy(state)], 0
        step.accepted = step.failovers = step.takeovers = 0
        why = step.refused(words)
        if why is not None and why.split()[0] in ("S4", "S7"):
            raise LimitMet
        if why is not None:
            return None
        step.step(words)
        return None if sum(mode != "up" for mode in step.state.mode) > self.down else step.state

    def waiting(self, state, within: Optional[int]) -> Iterator[object]:
        """A state, and those that it goes on to within so many milliseconds in which nothing happens but that timers fire: from each
        timer to the next one, and to just before that."""
        yield state
        left = within
        while left and state.timers:
            words = wait_in(state)
            ms = min(int(words[1]), left)
            for part in (ms - 1, 1):
                if part:
                    try:
                        state = self.ticked(state, part)
                    except LimitMet:
                        return
                    yield state
            left -= ms

    def ticked(self, state, ms: int):
        """The state behind so many milliseconds."""
        down, self.down = self.down, len(self.rehearsal.cluster.nodes)
        try:
            return self.behind(state, ["tick", str(ms)])
        finally:
            self.down = down

    def look(self) -> None:
        """Goes through all states, those by fewer events first."""
        self.found, self.keys, self.whole = [([], self.start)], {self.key(self.start)}, None
        for path, state in self.found:
            if len(path) >= self.steps:
                self.whole = self.steps
            elif not self.expand(path, state):
                self.whole = len(path)
            if self.whole is not None:
                break
        found = self.found
        self.unfinished = self.whole is not None and self.whole < self.steps
        self.verdicts = [next(((path, state) for path, state in found if not ask.holds(self, state)), None) for ask in self.asks]
        self.failed = any(verdict is not None for verdict in self.verdicts)

    def expand(self, path, state) -> bool:
        """Makes each event in a state. It is false if there was one state too many, or a limit was met."""
        try:
            for move in self.events:
                words = wait_in(state) if move == ["wait"] else move
                after = None if words is None else self.behind(state, words)
                if after is None or self.key(after) in self.keys:
                    continue
                if len(self.found) >= self.most:
                    return False
                self.keys.add(self.key(after))
                self.found.append((path + [words], after))
        except LimitMet:
            return False
        return True

    def told(self) -> Iterator[str]:
        head = f"explored {len(self.found)} states deepest {len(self.found[-1][0])}"
        if self.whole is not None:
            head += f" up to {self.whole} steps"
        if self.down < len(self.rehearsal.cluster.nodes):
            head += f" up to {self.down} down"
        yield head
        for verdict in self.verdicts:
            if verdict is None:
                yield "holds"
            else:
                path, state = verdict
                yield f"fails in {len(path)}"
                yield from map(" ".join, path)
                yield from report(state)
        if self.unfinished:
            yield "unfinished"


def losses(part, chance) -> list[str]:
    """One node of a running cluster is lost, and what it ran has to run again soon."""
    lines = [*(f"boot {node}" for node in part.nodes), "tick 6000", *(f"start_all {app} permanent" for app in part.apps),
             "may crash *", "may wait", "down 1"]
    for app in part.apps:
        lines.append(f"ask app {app} running within {chance.choice([500, 1500, 6000])}")
    return lines


def search(number: int) -> tuple[str, list[str], int, str]:
    """The cluster file of a random search, its lines, how many states it may keep, and the choice at a tie."""
    chance = random.Random(f"explore {number}")
    part = Part(chance, chance.choice([0, 1, 2]))
    while len(part.nodes) > 3 or len(part.apps) > 3:
        part = Part(chance, chance.choice([0, 1, 2]))
    lines = [f"boot {node}" for node in part.nodes if chance.random() < 0.7]
    if chance.random() < 0.3:
        lines.append(chance.choice(["tick 500", "undo", "show"]))
    for pattern in chance.sample(PATTERNS, chance.randint(1, 5)):
        lines.append("may " + pattern.format(node=chance.choice(part.nodes), app=chance.choice(part.apps)))
    closes = chance.random() < 0.4
    if not closes:
        lines.append(f"steps {chance.randint(1, 4)}")
    if chance.random() < 0.3:
        lines.append(f"down {chance.randint(0, len(part.nodes))}")
    for _ in range(chance.randint(0, 3)):
        line = "ask always" if chance.random() < 0.4 else "ask"
        line += f" app {chance.choice(part.apps)} {chance.choice(['running', 'running', 'running', 'once'])}"
        if chance.random() < 0.6:
            line += " or down " + " ".join(chance.sample(part.nodes, chance.randint(1, len(part.nodes))))
        if chance.random() < 0.3:
            line += f" within {chance.choice([0, 499, 500, 1000, 2500, 6000])}"
        lines.append(line)
    if chance.random() < 0.15:
        lines.append(chance.choice(["ask nothing hangs", "ask always nothing hangs", "ask nothing hangs within 500"]))
    if chance.random() < 0.3:
        lines = losses(part, chance)
        closes = True
    most = 300 if closes else chance.choice([1_000_000, 1_000_000, 1_000_000, 20, 1])
    return part.text, lines, most, chance.choice(["first", "last"])


def explored(program, numbers):
    """Each search of these numbers is answered as by the model, by however many workers. Returns what they reach."""
    reached = collections.Counter()
    for number in numbers:
        workers = str((1, 2, 3, 16)[number % 4])
        cluster, lines, most, pick = search(number)
        owed = Search(cluster, lines, most, pick)
        text = cluster + "===\n" + model.joined(lines)
        done = run(program, ["explore", "--workers", workers, "--pick", pick, "--states", str(most)], input=text.encode())
        yield f"random search {number}", fault_of(done, owed.status, owed.text.encode())
        reached["states"] += len(owed.found)
        reached["holds"] += sum(verdict is None for verdict in owed.verdicts)
        reached["fails"] += sum(verdict is not None and bool(verdict[0]) for verdict in owed.verdicts)
        reached["closed"] += owed.whole is None
        reached["soon"] += sum(verdict is None and any(not ask.is_met(owed.rehearsal, state) for _, state in owed.found)
                               for ask, verdict in zip(owed.asks, owed.verdicts) if ask.within)
        for ask, verdict in zip(owed.asks, owed.verdicts):
            reached["once"] += ask.state == "once" and verdict is None and len(owed.found) > 3
            reached["twice"] += ask.state == "once" and verdict is not None
            reached["nothing hangs"] += ask.hangs and len(owed.found) > 3
        reached["waited"] += any(["wait"] == move for move in owed.events) and len(owed.found) > 3
        reached["unfinished"] += owed.unfinished
        if owed.steps < MOST_STEPS and not owed.unfinished:
            yield f"random search {number}: merging hides nothing", same_verdicts(owed, Search(cluster, lines, 10_000_000, pick, whole_key))
            reached["compared"] += 1
            reached["merged"] += owed.whole is None
    return reached


def same_verdicts(merged, whole) -> Optional[str]:
    """A search that merges less finds the same of each question, and lists that are as long."""
    lengths = [[None if verdict is None else len(verdict[0]) for verdict in search.verdicts] for search in (merged, whole)]
    if lengths[0] != lengths[1]:
        return f"verdicts {lengths[0]}, and without merging {lengths[1]}"
    alike = {key(state) for _, state in whole.found}
    return None if alike == merged.keys else f"{len(merged.keys)} states, and without merging {len(alike)}"


def reaches_all(counters):
    """Together the searches reach all that they are made for."""
    reached = sum(counters, collections.Counter())
    for what, least in (("states", 1_000), ("holds", 20), ("fails", 20), ("closed", 20), ("unfinished", 5), ("soon", 3), ("waited", 10),
                        ("compared", 40), ("merged", 5), ("once", 8), ("twice", 3), ("nothing hangs", 5)):
        yield f"random searches: {what}", None if reached[what] >= least else f"{reached[what]} of {least}"


# Clusters all of whose nodes are up, crash and boot, while time passes in steps of a second: how many nodes may be down, if not all,
# how many states there are, as another program and for the first two a model checker count them, and how many events lead to the last.
CLOSED = (("examples/any-failures.txt", None, 1_755, 15), ("examples/five-nodes-sweep.txt", None, 752, 14),
          ("tests/clusters/ten-nodes.txt", 2, 5_787, 34), ("tests/clusters/six-nodes.txt", None, 250_130, 29))


def whole_search(name) -> str:
    """The cluster file of this name, and behind it a search that tries all crashes and boots from where all nodes are up."""
    cluster = Path(TOP, name).read_text(encoding="utf-8").split("===\n")[0]
    nodes = [part.name for part in model.Rehearsal(cluster, "first").cluster.nodes]
    return cluster + "===\n" + model.joined([*(f"boot {node}" for node in nodes), "may crash *", "may boot *", "may tick 1000"])


def closed(program, space):
    """A search without a bound of steps comes to an end, with as many states as are known, by one worker and by four."""
    name, down, states, deepest = space
    text, owed = whole_search(name), f"explored {states} states deepest {deepest}"
    if down is not None:
        text += f"down {down}\n"
        owed += f" up to {down} down"
    for workers in ("1", "4"):
        done = run(program, ["explore", "--workers", workers], input=text.encode())
        is_so = done.returncode == 0 and done.stdout.endswith(f"{owed}\n".encode())
        yield f"all states by {workers} workers: {name}", None if is_so else f"{done.stdout[-200:]!r}"


def bounded(program):
    """Where keys may take a mebibyte a search ends unfinished, with as many states as have so much: no more are kept once the keys
    have as many bytes, so those of all but the last have fewer. Workers make no difference to where that is.

    By rh_keys a number of a key takes a byte at least (Codes, `number_code`). There are of each node its mode, the ends of two lists
    and one of each application (Packed, `packed_node`), and of each application two (Keys, `standing_numbers`): 42 with six nodes
    and three applications. At most each application stands in a list of each node, and each node and each application has a timer:
    18 more, and 9 times two and one of nine bytes."""
    least, most = 6 * (1 + 2 + 3) + 3 * 2, 6 * (1 + 2 + 3) + 3 * 2 + 6 * 3 + 9 * (9 + 2)
    name, _, whole, _ = CLOSED[-1]
    done, others = (run(program, ["explore", "--memory", "1", *more], input=whole_search(name).encode()) for more in ([], ["--workers", "3"]))
    told = re.search(rb"\nexplored ([0-9]+) states deepest [0-9]+ up to [0-9]+ steps\nunfinished\n$", done.stdout)
    states = int(told[1]) if told else 0
    is_so = done.returncode == 10 and (states - 1) * least < 1_048_576 <= states * most and states < whole
    yield f"keys of a mebibyte: {name}", None if is_so else f"status {done.returncode}, {done.stdout[-200:]!r}"
    yield f"keys of a mebibyte by three workers: {name}", fault_of(others, 10, done.stdout)


def watched(program):
    """On a terminal a line tells each second how far a search is: no fewer states than before, and no more than there are. It is taken
    off in the end, and the answer is the same. Where standard error is no terminal nothing is told there."""
    name, _, states, deepest = CLOSED[-1]
    text = whole_search(name).encode()
    owed = run(program, ["explore"], input=text)
    yield "a search tells a pipe nothing", None if owed.stderr == b"" else f"{owed.stderr[:200]!r}"
    leader, follower = os.openpty()
    with open(leader, "rb", buffering=0) as terminal:
        with open(follower, "wb", buffering=0) as errors:
            done = subprocess.run([program, "explore"], input=text, stdout=subprocess.PIPE, stderr=errors)
            told = terminal.read(65_536)
    yield "a search that is watched", fault_of(done, owed.returncode, owed.stdout)
    seen = [tuple(map(int, numbers)) for numbers in re.findall(rb"\r([0-9]+) states, ([0-9]+) events deep, ([0-9]+) states a second ", told)]
    is_so = seen == sorted(seen, key=lambda line: line[:2]) and all(1 <= line[0] <= states and line[1] <= deepest for line in seen)
    line = rb"\r[0-9]+ states, [0-9]+ events deep, [0-9]+ states a second "
    is_so = is_so and re.fullmatch(rb"(%b)+\r\x1b\[K" % line, told)
    yield "what a terminal is told of a search", None if is_so else f"{told[-300:]!r}"


TESTS = (Group(closed, CLOSED), bounded, watched, Group(explored, [range(begin, begin + AT_ONCE) for begin in range(0, SEARCHES, AT_ONCE)], end=reaches_all),)
