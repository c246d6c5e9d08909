"""Random rehearsals for real nodes: rehearsal(seed) is one, of the kind `sane` where the seed is even, and `wild` where it is
odd.

It follows from the seed alone. `sane` is a cluster as docs/LIVE_OTP.md advises: profile 2, complete sync lists, one boot order
with dependencies first, booted at each listed node, tuples in the order of names; a few permissions are false in the file, and
a few nodes have one more platform name. `wild` is anything that `check` accepts. Which commands come next is chosen by the
tests' model (model.py), so that most are accepted; what the program or real nodes answer to them is asked of these alone. Times
leave real nodes room: between a command and the end of a timer lies a second or more, also where the commands before took their
time.
"""
import copy
import random
from dataclasses import dataclass, field
from typing import Callable, Iterator, Optional, Union

import model
from support import ARGUMENTS

KINDS = ("sane", "wild")
# The kind that keeps to the conditions of live_conditions.py.
CAREFUL = "careful"
TYPES = ["permanent"] * 6 + ["transient"] * 2 + ["temporary"] * 2
FAILOVER_TIMES = [0, 0, 4_000, 4_000, 6_000, 8_000]
SYNC_TIMES = [11_000, 13_000, 15_000]
FORBIDDEN, MORE_PLATFORM = 0.06, 0.05
WORDS = (["crash"] * 6 + ["boot"] * 6 + ["tick"] * 6 + ["start"] * 8 + ["stop"] * 4 + ["permit"] * 5 + ["takeover"] * 6
         + ["exit"] * 3 + ["start_all"] * 3 + ["stop_all", "show"])
MORE_CALLS = ["takeover"] * 20 + ["start_all"] * 40 + ["permit"] * 5
FEWEST, MOST = 5, 13
# Ticks take as long together, in milliseconds; one that can't be left out may go above it.
MOST_TICKS = 26_000
# A command stays so far from the end of a timer, behind it and before it, and real nodes take about so long for a command.
BEHIND, BEFORE = 1_000, 1_500
COSTS = {"boot": 1_300}
COST = 500


@dataclass(frozen=True)
class Spread:
    """Where a distributed application may run."""
    timeout: int
    groups: list[list[str]]

    @property
    def nodes(self) -> list[str]:
        return [node for group in self.groups for node in group]


@dataclass
class Cluster:
    """A cluster file. What a node or an application isn't named in, it hasn't."""
    profile: Optional[int]
    nodes: list[str]
    apps: list[str]
    spreads: dict[str, Spread]
    # Nodes that have `distributed`.
    spreading: list[str]
    # None: it isn't written.
    wait: Union[int, str, None] = None
    mandatory: dict[str, list[str]] = field(default_factory=dict)
    optional: dict[str, list[str]] = field(default_factory=dict)
    permissions: dict[str, dict[str, bool]] = field(default_factory=dict)
    boot: dict[str, list[tuple[str, str]]] = field(default_factory=dict)
    platform: dict[str, list[str]] = field(default_factory=dict)
    needs: dict[str, list[str]] = field(default_factory=dict)
    phases: list[str] = field(default_factory=list)

    @property
    def text(self) -> str:
        """The file."""
        front = "" if self.profile is None else f"{{profile, {self.profile}}}.\n"
        return front + "".join(map(self.node_text, self.nodes)) + "".join(map(self.app_text, self.apps))

    def node_text(self, name: str) -> str:
        """The term of a node."""
        kernel = []
        if name in self.spreading:
            kernel.append(f"{{distributed, [{', '.join(map(self.entry_text, self.spreads))}]}}")
        kernel += [f"{{{key}, [{', '.join(lists[name])}]}}" for key, lists in
                   (("sync_nodes_mandatory", self.mandatory), ("sync_nodes_optional", self.optional)) if name in lists]
        if self.wait is not None:
            kernel.append(f"{{sync_nodes_timeout, {self.wait}}}")
        if name in self.permissions:
            kernel.append("{permissions, [%s]}" % ", ".join(
                f"{{{app}, {str(allow).lower()}}}" for app, allow in self.permissions[name].items()))
        own = [f"{{boot, [{', '.join(f'{{{app}, {restart}}}' for app, restart in self.boot.get(name, []))}]}}"]
        if name in self.platform:
            own.append(f"{{platform, [{', '.join(self.platform[name])}]}}")
        return f"{{node, {name}, [{{kernel, [{', '.join(kernel)}]}},\n  {{rehearse, [{', '.join(own)}]}}]}}.\n"

    def entry_text(self, app: str) -> str:
        """The entry of an application in `distributed`."""
        spread = self.spreads[app]
        groups = [group[0] if len(group) == 1 else "{%s}" % ", ".join(group) for group in spread.groups]
        return f"{{{app}, {spread.timeout}, [{', '.join(groups)}]}}"

    def app_text(self, name: str) -> str:
        """The term of an application."""
        keys = [f"{{applications, [{', '.join(self.needs[name])}]}}"] if name in self.needs else []
        keys += ["{start_phases, [{go, []}]}"] if name in self.phases else []
        return f"{{application, {name}, [{', '.join(keys)}]}}.\n"


# ---- Clusters


def names_of(chance: random.Random) -> tuple[list[str], list[str], list[str]]:
    """The names of the nodes, of the distributed applications and of the local ones: one to five, and one that is
    distributed."""
    nodes = [f"n{number}@lab" for number in range(1, chance.choice([2, 3, 3, 4, 4, 5, 6]) + 1)]
    count = chance.choice([1, 2, 2, 3, 3, 4, 5])
    spread = 1 + sum(chance.random() < 0.65 for _ in range(count - 1))
    return nodes, [f"d{number}" for number in range(1, spread + 1)], [f"l{number}" for number in range(1, count - spread + 1)]


def spread_of(chance: random.Random, nodes: list[str], least: int) -> Spread:
    """A list of some nodes in any order, some of them in tuples."""
    names, groups = chance.sample(nodes, chance.randint(least, len(nodes))), []
    while names:
        count = chance.choice([1, 1, 1, 1, 2, 2, 3])
        groups.append(names[:count])
        names = names[count:]
    return Spread(chance.choice(FAILOVER_TIMES), groups)


def sane(chance: random.Random) -> Cluster:
    """A cluster as the page advises."""
    nodes, spread, local = names_of(chance)
    spreads = {app: spread_of(chance, nodes, 2) for app in spread}
    spreads = {app: Spread(one.timeout, [sorted(group) for group in one.groups]) for app, one in spreads.items()}
    apps = [*spread, *local]
    cluster = Cluster(2, nodes, apps, spreads, nodes, chance.choice(SYNC_TIMES),
                      phases=[app for app in apps if chance.random() < 0.5])
    complete_lists(chance, cluster)
    order = chance.sample(apps, len(apps))
    booted = {app: set(spreads[app].nodes if app in spreads else chance.sample(nodes, chance.randint(1, len(nodes))))
              for app in apps}
    for place in range(len(order) - 1, 0, -1):
        add_needs(chance, cluster, order[place], order[:place], booted)
    restart = {app: chance.choice(TYPES) for app in apps}
    cluster.boot = {node: [(app, restart[app]) for app in order if node in booted[app]] for node in nodes}
    has_sasl = chance.random() < 0.3
    for node in nodes:
        allowed = {app: chance.random() >= FORBIDDEN for app, _ in cluster.boot[node]}
        if not all(allowed.values()):
            cluster.permissions[node] = allowed
        platform = ["sasl"] * has_sasl + ["crypto"] * (chance.random() < MORE_PLATFORM)
        if platform:
            cluster.platform[node] = platform
    return cluster


def complete_lists(chance: random.Random, cluster: Cluster) -> None:
    """Each node waits for all others, and where a cluster does so for itself too."""
    mandatory = chance.choice([0.0, 0.0, 0.0, 0.3, 1.0])
    has_itself = chance.random() < 0.2
    for node in cluster.nodes:
        others = [other for other in cluster.nodes if has_itself or other != node]
        must = [other for other in others if chance.random() < mandatory]
        if must:
            cluster.mandatory[node] = must
        if len(must) < len(others):
            cluster.optional[node] = [other for other in others if other not in must]


def add_needs(chance: random.Random, cluster: Cluster, app: str, before: list[str], booted: dict[str, set[str]]) -> None:
    """May give an application one or two dependencies of those that are booted before it, at each node where it is."""
    if chance.random() < 0.3:
        able = [other for other in before if other not in cluster.spreads or booted[app] <= booted[other]]
        cluster.needs[app] = chance.sample(able, min(len(able), chance.choice([1, 1, 2])))
        for need in cluster.needs[app]:
            booted[need] |= booted[app]


def wild(chance: random.Random) -> Cluster:
    """Any cluster that `check` accepts."""
    nodes, spread, local = names_of(chance)
    spreads = {app: spread_of(chance, nodes, 1) for app in spread}
    apps = [*spread, *local]
    taking_part = [node for node in nodes if any(node in one.nodes for one in spreads.values())]
    wait: Union[int, str, None] = chance.choice(SYNC_TIMES)
    if chance.random() < 0.25:
        wait = chance.choice([None, None, None, "undefined", "infinity", "infinity", 0])
    cluster = Cluster(chance.choice([None, 1, 2, 2, 2]), nodes, apps, spreads,
                      [node for node in nodes if node in taking_part or chance.random() < 0.5], wait,
                      phases=[app for app in apps if chance.random() < 0.5])
    if chance.random() < 0.5:
        complete_lists(chance, cluster)
    else:
        incomplete_lists(chance, cluster)
    is_forbidding, has_platform = chance.choice([0.0, 0.05, 0.25]), chance.choice([0.0, 0.0, 0.4])
    for node in nodes:
        able = [app for app in apps if app not in spreads or node in spreads[app].nodes]
        booted = chance.sample(able, len(able) if chance.random() < 0.7 else chance.randint(0, len(able)))
        if chance.random() < 0.6:
            booted.sort(key=apps.index)
        cluster.boot[node] = [(app, chance.choice(TYPES)) for app in booted]
        allowed = {app: chance.random() >= is_forbidding for app in apps}
        if not all(allowed.values()):
            cluster.permissions[node] = allowed
        if chance.random() < has_platform:
            cluster.platform[node] = chance.choice([["crypto"], ["crypto", "sasl"]])
    for app in apps:
        others = [other for other in apps if other != app]
        count = min(len(others), chance.choice([0, 0, 0, 0, 1, 2]))
        if count:
            cluster.needs[app] = chance.sample(others, count)
    return cluster


def incomplete_lists(chance: random.Random, cluster: Cluster) -> None:
    """Each node waits for some nodes, for itself perhaps, or has no lists."""
    share = chance.choice([0.3, 0.6, 0.9])
    for node in cluster.nodes:
        listed = [other for other in cluster.nodes if chance.random() < share]
        must = [other for other in listed if chance.random() < 0.3]
        if must:
            cluster.mandatory[node] = must
        if len(must) < len(listed):
            cluster.optional[node] = [other for other in listed if other not in must]


# ---- Scripts


# Whether a command is allowed behind the ones of a rehearsal of the model.
Allows = Callable[[model.Rehearsal, str], bool]


class Script:
    """A script as it grows, with the state behind it by the model, and with the end of each timer that was ever set, behind
    which stands how long the commands since then take at real nodes."""

    def __init__(self, chance: random.Random, cluster: Cluster, allows: Allows = lambda _, __: True):
        self.chance, self.cluster, self.allows = chance, cluster, allows
        self.words = WORDS
        self.rehearsal = model.Rehearsal(cluster.text)
        self.lines: list[str] = []
        self.ends: dict[tuple[int, object], int] = {}
        self.ticks = 0

    @property
    def now(self) -> int:
        return self.rehearsal.state.now

    def add(self, line: str) -> None:
        """A command more."""
        words = line.split()
        self.rehearsal.answer(words)
        self.lines.append(line)
        if words[0] == "tick":
            self.ticks += int(words[1])
        else:
            self.ends = {timer: taken + COSTS.get(words[0], COST) for timer, taken in self.ends.items()}
        for timer in self.rehearsal.state.timers:
            self.ends.setdefault(timer, 0)

    def is_apart(self, ends: dict[tuple[int, object], int], now: int) -> bool:
        """Whether a moment is far enough from the end of each timer."""
        return all(due <= now - BEHIND or due - taken >= now + BEFORE for (due, _), taken in ends.items())

    def is_late(self) -> bool:
        """Whether a timer is over at real nodes before another command is made."""
        return any(due - self.ends[due, what] < self.now + BEFORE for due, what in self.rehearsal.state.timers)

    def ticks_apart(self) -> list[int]:
        """The first ticks that end far enough from the end of each timer, of those too that begin within them: some that end
        before a timer does, and some behind it."""
        found: list[int] = []
        next_end = min((due for due, _ in self.rehearsal.state.timers), default=None)
        for time in range(1_000, 20_001, 500):
            is_past = next_end is not None and self.now + time > next_end
            if sum(next_end is not None and self.now + one > next_end for one in found) == 2 or not is_past and len(found) == 3:
                continue
            end = self.now + time
            if self.is_apart(self.ends, end) and (not is_past or self.is_apart(self.begun_within(time), end)):
                found.append(time)
        return found

    def begun_within(self, time: int) -> dict[tuple[int, object], int]:
        """The timers that a tick leaves behind."""
        later = copy.copy(self.rehearsal)
        later.states = [self.rehearsal.state]
        later.cursor = 0
        later.answer(["tick", str(time)])
        return {timer: 0 for timer in later.state.timers if timer not in self.ends}

    def tick(self) -> Optional[str]:
        """A tick: past the timer that ends next, or a short one; None where there is no time left for one."""
        able = self.ticks_apart()
        next_end = min((due for due, _ in self.rehearsal.state.timers), default=None)
        past = [time for time in able if next_end is not None and self.now + time > next_end]
        if self.is_late():
            return f"tick {past[0]}" if past else None
        able = [time for time in able if self.ticks + time <= MOST_TICKS]
        past = [time for time in past if time in able]
        if past and self.chance.random() < 0.7:
            return f"tick {self.chance.choice(past[:2])}"
        return f"tick {self.chance.choice(able[:3])}" if able else None

    def event(self, word: str) -> Optional[str]:
        """A command, which may be refused."""
        chance = self.chance
        node, app, restart = chance.choice(self.cluster.nodes), chance.choice(self.cluster.apps), chance.choice(TYPES)
        number = self.cluster.nodes.index(node)
        is_forbidden = self.cluster.apps.index(app) in self.rehearsal.state.forbidden[number]
        allow = str(is_forbidden if chance.random() < 0.95 else not is_forbidden).lower()
        if word == "tick":
            return self.tick()
        kinds = ARGUMENTS[word]
        given = {"node": node, "app": app, "restart": restart, "truth": allow,
                 "ending": chance.choice(["normal", "abnormal"]) if "ending" in kinds else ""}
        return " ".join([word, *(given[kind] for kind in kinds)])

    def next(self) -> Optional[str]:
        """The next command: one that isn't refused, but for a few."""
        if self.is_late():
            line = self.tick()
            return line if line is not None and self.allows(self.rehearsal, line) else None
        may_be_refused = self.chance.random() < 0.05
        words = self.words + ["tick"] * (12 if self.rehearsal.state.timers else 0)
        for _ in range(60):
            line = self.event(self.chance.choice(words))
            if line is not None and line != self.lines[-1] and self.allows(self.rehearsal, line) and (
                    may_be_refused or line == "show" or self.rehearsal.refused(line.split()) is None):
                return line
        return None


def script_of(chance: random.Random, cluster: Cluster, allows: Optional[Allows] = None) -> list[str]:
    """The commands: nodes boot, all but one perhaps, and more follows. Where something says which commands are allowed, all
    nodes boot, and calls are likelier, since few of them are allowed."""
    nodes, story = chance.sample(cluster.nodes, len(cluster.nodes)), Script(chance, cluster, *([allows] if allows else []))
    story.words = WORDS + MORE_CALLS if allows else WORDS
    if len(nodes) > 2 and cluster.wait != "infinity" and allows is None and chance.random() < 0.25:
        nodes.pop()
    for node in nodes:
        story.add(f"boot {node}")
    count = chance.randint(max(FEWEST, len(nodes) + 2), MOST)
    while len(story.lines) < count:
        line = story.next()
        if line is None:
            break
        story.add(line)
    return story.lines


# ---- Rehearsals


@dataclass(frozen=True)
class Rehearsal:
    """A rehearsal: its text is what replay reads."""
    seed: int
    kind: str
    text: str


def rehearsal(seed: int) -> Rehearsal:
    """The rehearsal of a seed."""
    chance = random.Random(seed)
    kind = KINDS[seed % 2]
    cluster = {"sane": sane, "wild": wild}[kind](chance)
    script = script_of(chance, cluster)
    return Rehearsal(seed, kind, f"{cluster.text}===\n" + "".join(f"{line}\n" for line in script))


def rehearsals(first: int, count: int) -> Iterator[Rehearsal]:
    """So many rehearsals, from a seed on."""
    return map(rehearsal, range(first, first + count))
