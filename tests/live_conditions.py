#!/usr/bin/env python3
"""Conditions under which random rehearsals on real nodes agreed with the rules: live_conditions.py [--json] FOLDER PROGRAM

The conditions are on the cluster file and on each command of the script, and are decided from the file and from what PROGRAM
reports. Up to the first command at which one is broken a rehearsal is within them. Counted are the rehearsals of a folder of
records (run_live.py --random) and their commands within the conditions, and those of them that came out otherwise than by the
rules; and of each condition, how many rehearsals it is the first to be broken in, and how many it alone keeps from differing
within the conditions. Exit status: 0 none differs within the conditions, 1 some do, 2 the folder has no records.
"""
import copy
import graphlib
import json
import os
import random
import sys
from dataclasses import dataclass, field
from typing import Any, Callable, Iterator, Optional

# No file is left behind.
sys.dont_write_bytecode = True
import model  # noqa: E402
from live_figures import Case, asked  # noqa: E402
from random_live import CAREFUL, Cluster, Rehearsal, sane, script_of  # noqa: E402
from support import TOP  # noqa: E402

sys.path.append(os.path.join(TOP, "companions"))
from rehearse_tools.inputs import words_of  # noqa: E402
from rehearse_tools.program import Program  # noqa: E402
from rehearse_tools.live_sides import rules_of  # noqa: E402
from rehearse_tools.otp25.cluster import ClusterFile, Entry, cluster_of  # noqa: E402


# ---- What a condition looks at


@dataclass
class State:
    """A report: the mode of each node and how often it has booted, what runs, waits and is forbidden there, where each distributed
    application stands, and the applications whose failover timer runs."""
    mode: dict[str, str] = field(default_factory=dict)
    boots: dict[str, int] = field(default_factory=dict)
    running: dict[str, list[str]] = field(default_factory=dict)
    waiting: dict[str, list[str]] = field(default_factory=dict)
    forbidden: dict[str, list[str]] = field(default_factory=dict)
    standing: dict[str, tuple[str, ...]] = field(default_factory=dict)
    lost: list[str] = field(default_factory=list)
    types: dict[tuple[str, str], str] = field(default_factory=dict)

    def is_up(self, node: str) -> bool:
        return self.mode[node] == "up"

    def is_started(self, node: str, app: str) -> bool:
        return app in self.running[node] + self.waiting[node]

    def can_run(self, node: str, app: str) -> bool:
        """Whether a node is up and the application is permitted there."""
        return self.is_up(node) and app not in self.forbidden[node]


def state_of(report: list[str]) -> State:
    """The state that a report tells."""
    state, node = State(), ""
    for word, *rest in map(words_of, report):
        if word == "node":
            node = rest[0]
            state.mode[node], state.boots[node] = rest[1], int(rest[2])
            state.running[node], state.waiting[node], state.forbidden[node] = [], [], []
        elif word in ("running", "waiting", "forbidden"):
            {"running": state.running, "waiting": state.waiting, "forbidden": state.forbidden}[word][node].append(rest[0])
            if word != "forbidden":
                state.types[node, rest[0]] = rest[1]
        elif word == "app":
            state.standing[rest[0]] = tuple(rest[1:])
        elif word == "timer" and rest[0] == "failover":
            state.lost.append(rest[1])
    return state


@dataclass(frozen=True)
class Step:
    """A command of a script: its words, what the rules answer, and the states before and behind it."""
    cluster: ClusterFile
    words: list[str]
    answer: list[str]
    before: State
    after: State

    @property
    def word(self) -> str:
        return self.words[0]

    @property
    def is_refused(self) -> bool:
        return self.answer[0].startswith("refused ")

    @property
    def app(self) -> str:
        """The application that it names, or nothing."""
        place = 1 if self.word.endswith("_all") else 2
        return self.words[place] if len(self.words) > place else ""

    @property
    def is_spread(self) -> bool:
        """Whether it names a distributed application."""
        return self.app in self.cluster.entries


@dataclass(frozen=True)
class Condition:
    """A condition: its name, what an operator is told, and when a cluster or a command breaks it."""
    name: str
    text: str
    file: Callable[[ClusterFile], bool] = lambda _: False
    step: Callable[[Step], bool] = lambda _: False


# ---- Of the cluster file


def groups_of(entry: Entry) -> list[tuple[str, ...]]:
    """The groups of an entry, a node alone being one too."""
    return [group if isinstance(group, tuple) else (group,) for group in entry.groups]


def lacks_lists(cluster: ClusterFile) -> bool:
    """A node doesn't wait for all others, or has no timeout."""
    return any(node.wait in (None, "undefined", 0) or not set(cluster.nodes) - {node.name} <= {*node.mandatory, *node.optional}
               for node in cluster.nodes.values())


def first_nodes(cluster: ClusterFile, forbidden: dict[str, list[str]]) -> dict[str, Optional[str]]:
    """Of each distributed application that is booted, the first node of its list at which it isn't forbidden."""
    booted = {app for node in cluster.nodes.values() for app, _ in node.boot}
    return {app: next((node for node in entry.nodes if app not in forbidden[node]), None)
            for app, entry in cluster.entries.items() if app in booted}


def boot_in_order_but_for_one(cluster: ClusterFile, first: dict[str, Optional[str]]) -> bool:
    """Nodes boot what is distributed in one order, and all of it that one of them doesn't boot is to run first at one and the same node."""
    lists = [[app for app, _ in node.boot if app in cluster.entries] for node in cluster.nodes.values()]
    behind: dict[str, set[str]] = {}
    for apps in lists:
        for one, other in zip(apps, apps[1:]):
            behind.setdefault(other, set()).add(one)
    try:
        graphlib.TopologicalSorter(behind).prepare()
    except graphlib.CycleError:
        return False
    return all(len({node for app, node in first.items() if app not in apps}) <= 1 for apps in lists)


def has_other_profile(cluster: ClusterFile) -> bool:
    """It is rehearsed by the first profile."""
    return cluster.profile != 2


def boots_in_another_order(cluster: ClusterFile) -> bool:
    """Boot lists differ in the order of what they share, or name an application before what it needs, or without it."""
    lists = [[app for app, _ in node.boot] for node in cluster.nodes.values()]
    shared = any([app for app in one if app in two] != [app for app in two if app in one] for one in lists for two in lists)
    early = any(need in cluster.apps and need not in one[:place] for one in lists for place, app in enumerate(one)
                for need in cluster.apps[app].needs)
    return shared or early


def is_not_booted(cluster: ClusterFile) -> bool:
    """A listed node doesn't boot an application."""
    return any(app not in [booted for booted, _ in cluster.nodes[node].boot]
               for app, entry in cluster.entries.items() for node in entry.nodes)


def has_tuple_in_another_order(cluster: ClusterFile) -> bool:
    """A tuple isn't written in the order of names."""
    return any(list(group) != sorted(group) for entry in cluster.entries.values() for group in groups_of(entry))


def is_tuple_behind_tuple(cluster: ClusterFile) -> bool:
    """A list has two tuples."""
    return any(sum(len(group) > 1 for group in groups_of(entry)) > 1 for entry in cluster.entries.values())


def may_be_lost_together(cluster: ClusterFile) -> bool:
    """Two applications with one timeout share two nodes that a tuple has, or that stand in another order."""
    entries = list(cluster.entries.values())
    return any(one.timeout == two.timeout and rank_otherwise(one, two)
               for place, one in enumerate(entries) for two in entries[:place])


def rank_otherwise(one: Entry, two: Entry) -> bool:
    """Whether two nodes that both lists have rank alike in one of them, or in another order."""
    ranks = [{node: rank for rank, group in enumerate(groups_of(entry)) for node in group} for entry in (one, two)]
    shared = [node for node in ranks[0] if node in ranks[1]]
    return any(a != b and (ranks[0][a] == ranks[0][b] or ranks[1][a] == ranks[1][b]
                           or (ranks[0][a] < ranks[0][b]) != (ranks[1][a] < ranks[1][b])) for a in shared for b in shared)


def has_other_platforms(cluster: ClusterFile) -> bool:
    """Nodes have different platform names."""
    return len({node.platform for node in cluster.nodes.values()}) > 1


def is_weighed_in_another_order(cluster: ClusterFile) -> bool:
    """A list has a tuple, and a boot list doesn't name the local applications first, and then the others in the order of the
    file."""
    if all(len(group) == 1 for entry in cluster.entries.values() for group in groups_of(entry)):
        return False
    order = sorted(cluster.apps, key=lambda app: app in cluster.entries)
    places = [[order.index(app) for app, _ in node.boot if app in cluster.entries] for node in cluster.nodes.values()]
    is_local_first = all(sorted(node.boot, key=lambda row: row[0] in cluster.entries) == list(node.boot)
                         for node in cluster.nodes.values())
    return not is_local_first or any(one != sorted(one) for one in places)


def is_forbidden_in_file(cluster: ClusterFile) -> bool:
    """A permission is false in the file."""
    return any(not allowed for node in cluster.nodes.values() for _, allowed in node.permissions or ())


def needs_a_distributed_one(cluster: ClusterFile) -> bool:
    """An application needs a distributed one."""
    return any(need in cluster.entries for app in cluster.apps.values() for need in app.needs)


# ---- Of a command


def starts_at_one_node(step: Step) -> bool:
    """A start or a stop at one node, also one that the rules refuse."""
    return step.word in ("start", "stop")


def takes_over_to_a_worse_node(step: Step) -> bool:
    """A takeover by a node that isn't of the best group that can run it, or isn't started there."""
    if step.word != "takeover" or not step.is_spread:
        return step.word == "takeover"
    node, entry = step.words[1], step.cluster.entries[step.app]
    best: tuple[str, ...] = next((group for group in groups_of(entry)
                                  if any(step.before.can_run(one, step.app) for one in group)), ())
    return node not in best or not step.before.can_run(node, step.app) or not step.before.is_started(node, step.app)


def ends_a_node_by_exit(step: Step) -> bool:
    """An exit that ends its node, or any other one."""
    return step.word == "exit" and not step.is_refused


def acts_while_a_node_waits(step: Step) -> bool:
    """Another command than a boot or a tick while a node still waits for others; or a node comes up while another one waits; or
    several do with one command, but for the boot by which the first ones come up."""
    waits = [node for node, mode in step.before.mode.items() if mode == "waiting"]
    comes = [node for node, mode in step.after.mode.items() if mode == "up" and not step.before.is_up(node)]
    left = [node for node, mode in step.after.mode.items() if mode == "waiting"]
    is_begun = any(map(step.before.is_up, step.before.mode))
    is_first = step.word == "boot" and not is_begun
    return bool(waits and step.word not in ("boot", "tick", "show") or comes and (left or len(comes) > 1 and not is_first))


def acts_within_a_failover_time(step: Step) -> bool:
    """Anything but a tick while an application is lost."""
    return bool(step.before.lost) and step.word not in ("tick", "show")


def permits_beside_a_standby(step: Step) -> bool:
    """A permission is taken where the application runs, given where it runs nowhere, or any of a local one."""
    if step.word != "permit" or step.is_refused:
        return False
    if not step.is_spread:
        return True
    runs_here, standing = step.app in step.before.running[step.words[1]], step.before.standing[step.app]
    return runs_here if step.words[3] == "false" else standing[0] in ("lost", "wanted")


def boots_where_it_is_stopped(step: Step) -> bool:
    """A node comes up and starts an application that another node could run and hasn't started."""
    comes = [node for node, mode in step.after.mode.items() if mode == "up" and not step.before.is_up(node)]
    return any(step.before.can_run(other, app) and not step.before.is_started(other, app)
               for node in comes for app, _ in step.cluster.nodes[node].boot if app in step.cluster.entries
               for other in step.cluster.entries[app].nodes)


CONDITIONS = (
    Condition("profile-2", "Write {profile, 2}.", has_other_profile),
    Condition("sync-lists", "Each node waits for all others (sync_nodes_mandatory or sync_nodes_optional), with a "
              "sync_nodes_timeout of 1 or more", lacks_lists),
    Condition("boot-order", "All boot lists have one order, each application behind all that it needs", boots_in_another_order),
    Condition("booted-everywhere", "Each node of an application's list boots it", is_not_booted),
    Condition("tuples-by-name", "Tuples are written in the order of names", has_tuple_in_another_order),
    Condition("one-tuple", "A list has one tuple at most", is_tuple_behind_tuple),
    Condition("own-timeouts", "Applications whose lists share nodes have different timeouts, or plain lists of one order",
              may_be_lost_together),
    Condition("local-ones-first", "With a tuple in a list, boot lists name the local applications first, and then the "
              "distributed ones in the order in which the cluster file has their terms", is_weighed_in_another_order),
    Condition("same-platform", "All nodes have the same platform names", has_other_platforms),
    Condition("permitted-in-the-file", "No permission is false in the file", is_forbidden_in_file),
    Condition("needs-local-ones", "No application needs a distributed one", needs_a_distributed_one),
    Condition("all-nodes", "Start and stop at all nodes (start_all, stop_all), not at one", step=starts_at_one_node),
    Condition("takeover-to-the-best", "Move an application by a call only to the best node that is up",
              step=takes_over_to_a_worse_node),
    Condition("no-exit", "No application ends by itself", step=ends_a_node_by_exit),
    Condition("boots-alone", "Boot one node after the other, and do nothing else until it is up; at first all",
              step=acts_while_a_node_waits),
    Condition("started-before-a-boot", "Boot no node while an application is stopped that it starts",
              step=boots_where_it_is_stopped),
    Condition("after-the-failover", "Do nothing within a failover time", step=acts_within_a_failover_time),
    Condition("permit-standbys", "Take permissions at standbys only, and give them while the application runs",
              step=permits_beside_a_standby),
)


# ---- Deciding


@dataclass(frozen=True)
class Verdict:
    """A rehearsal: so many of its commands are within the conditions, those that are broken at the next one, and the place of
    the first command that differs from the rules."""
    seed: int
    kind: str
    commands: int
    within: int
    broken: tuple[str, ...]
    differs: Optional[int]

    @property
    def is_wrong(self) -> bool:
        """Whether it differs within the conditions."""
        return self.differs is not None and self.differs < self.within


def steps_of(program: str, text: str) -> tuple[ClusterFile, list[Step]]:
    """The commands of a rehearsal, with what the rules answer and report."""
    front, script = text.split("\n===\n", 1)
    commands = [line for line in script.splitlines() if words_of(line) and not line.startswith("#")]
    cluster = cluster_of(front + "\n")
    _, told = rules_of(Program(program, "first"), front + "\n", ["show", *commands])
    states = [state_of(ruled.report) for ruled in told]
    return cluster, [Step(cluster, words_of(line), ruled.answer, before, after)
                     for line, ruled, before, after in zip(commands, told[1:], states, states[1:])]


def breaks_of(program: str, text: str) -> list[list[str]]:
    """The conditions that each command breaks; those of the file are broken by the first one."""
    cluster, steps = steps_of(program, text)
    file = [condition.name for condition in CONDITIONS if condition.file(cluster)]
    return [(file if place == 0 else []) + [condition.name for condition in CONDITIONS if condition.step(step)]
            for place, step in enumerate(steps)]


def verdict_of(breaks: list[list[str]], case: Case, without: Optional[str] = None) -> Verdict:
    """How far a rehearsal is within the conditions, or within all but one."""
    left = [[name for name in names if name != without] for names in breaks]
    within = next((place for place, names in enumerate(left) if names), len(left))
    return Verdict(case.record.seed, case.record.kind, len(left), within, tuple(left[within]) if within < len(left) else (),
                   case.last.first)


# ---- Rehearsals within the conditions


def local_first(cluster: Cluster) -> Cluster:
    """A cluster with the local applications in front in each boot list, and the terms of all in the order of these lists."""
    cluster.boot = {node: sorted(boot, key=lambda row: row[0] in cluster.spreads) for node, boot in cluster.boot.items()}
    cluster.apps = order_of([[app for app, _ in boot] for boot in cluster.boot.values()],
                            sorted(cluster.apps, key=lambda app: app in cluster.spreads))
    return cluster


def order_of(boots: list[list[str]], apps: list[str]) -> list[str]:
    """The applications in an order that all boot lists have."""
    before = {app: {one for boot in boots if app in boot for one in boot[:boot.index(app)]} for app in apps}
    order: list[str] = []
    while len(order) < len(apps):
        order.append(next(app for app in apps if app not in order and before[app] <= set(order)))
    return order


def careful(seed: int) -> Rehearsal:
    """A random rehearsal that breaks no condition: a `sane` cluster, and commands that are chosen so."""
    chance = random.Random(f"careful {seed}")
    cluster = local_first(sane(chance))
    while any(condition.file(cluster_of(cluster.text)) for condition in CONDITIONS):
        cluster = local_first(sane(chance))
    read = cluster_of(cluster.text)

    def allows(rehearsal: model.Rehearsal, line: str) -> bool:
        """Whether a command breaks no condition there."""
        later = copy.copy(rehearsal)
        later.states, later.cursor = [rehearsal.state], 0
        answer = later.answer(words_of(line))
        step = Step(read, words_of(line), answer, state_of(model.report(rehearsal.state)), state_of(model.report(later.state)))
        return not any(condition.step(step) for condition in CONDITIONS)

    script = script_of(chance, cluster, allows)
    return Rehearsal(seed, CAREFUL, f"{cluster.text}===\n" + "".join(f"{line}\n" for line in script))


# ---- What is told


def counts_of(verdicts: list[Verdict]) -> dict[str, int]:
    """What is counted of some rehearsals."""
    return {"rehearsals": len(verdicts), "within_throughout": sum(one.within == one.commands for one in verdicts),
            "begun_within": sum(one.within > 0 for one in verdicts),
            "commands": sum(one.commands for one in verdicts), "commands_within": sum(one.within for one in verdicts),
            "differ_within": sum(one.is_wrong for one in verdicts)}


def told(breaks: list[list[list[str]]], cases: list[Case]) -> dict[str, Any]:
    """All that is counted."""
    verdicts = [verdict_of(one, case) for one, case in zip(breaks, cases)]
    found: dict[str, Any] = {kind: counts_of([one for one in verdicts if kind in (one.kind, "all")])
                             for kind in sorted({one.kind for one in verdicts}) + ["all"]}
    found["differing"] = [{"seed": one.seed, "command": one.differs + 1} for one in verdicts
                          if one.is_wrong and one.differs is not None]
    wrong = found["all"]["differ_within"]
    found["conditions"] = [
        {"name": condition.name, "text": condition.text, "first_broken": sum(condition.name in one.broken for one in verdicts),
         "without_it_differ": sum(verdict_of(one, case, condition.name).is_wrong for one, case in zip(breaks, cases)) - wrong,
         "without_it_commands": sum(verdict_of(one, case, condition.name).within for one, case in zip(breaks, cases))}
        for condition in CONDITIONS]
    return found


def lines_of(found: dict[str, Any]) -> Iterator[str]:
    """The same as a text."""
    for kind, one in found.items():
        if kind in ("differing", "conditions"):
            continue
        yield (f"{kind}: {one['rehearsals']} rehearsals, {one['within_throughout']} of them within the conditions throughout; "
               f"of {one['commands']} commands {one['commands_within']} within, where {one['differ_within']} rehearsals differ "
               "from the rules")
    yield from (f"differs within the conditions: {one['seed']}, command {one['command']}" for one in found["differing"])
    yield f"{'condition':24}{'first broken in':>17}{'without it differ':>19}{'and commands within':>21}"
    for one in found["conditions"]:
        yield f"{one['name']:24}{one['first_broken']:>17}{one['without_it_differ']:>19}{one['without_it_commands']:>21}"


def main() -> None:
    given, cases = asked("live_conditions", __doc__)
    found = told([breaks_of(given.program, case.record.text) for case in cases], cases)
    print(json.dumps(found, indent=1) if given.json else "\n".join(lines_of(found)))
    sys.exit(1 if found["all"]["differ_within"] else 0)


if __name__ == "__main__":
    main()
