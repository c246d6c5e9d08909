"""Kinds of commands of which laws prove, under more conditions than are asked here, that both sets of rules answer by the same text
(rh_agreement_calls, rh_agreement_takeovers, rh_agreement_permits, rh_agreement_grants, rh_agreement_failovers, rh_agreement_ticks,
rh_agreement_boots), or by the same lines in some order (rh_agreement_colds). Asked is what two reports before them tell. The laws are of
where both are at rest and no node is on its way to its end, which no report tells; here it is asked that nothing hangs, and of a
distributed application that each node waits for all others, so that those that are up see one another.

Of an application that isn't distributed: where it runs by both reports a stop, a forbid, and an end that keeps its node by both restart
types; and a start, where it is started by neither, forbidden by neither, all that it needs runs there by both, and nothing that waits there
needs it. Of a distributed one: a takeover where it waits by both, and runs by both at the same other node, if it isn't forbidden and what
it needs runs there by both, and nothing that waits there needs it; a permission where no node waits and it isn't lost: a forbid where it
doesn't run, and a permit where it runs; and a permit where it waits and is forbidden, by which it starts or, in the second profile, is
called back to the first node that can run it. A tick before which one distributed application is lost by both reports, and in which it
alone starts; and one in which nodes end with their waits, each of which must have one that is down and has never booted. A boot by which
nodes wait on, where each other one that isn't alive has never booted: so none has seen one that is gone. And the last boot of a cold start,
where each node waits for all others, all others wait and have booted once, and boot lists are in order, with all that is distributed but
what is left to one node.
"""
from collections.abc import Callable
from typing import Optional

from live_conditions import State, Step, boot_in_order_but_for_one, first_nodes, lacks_lists

from rehearse_tools.inputs import words_of
from rehearse_tools.otp25.cluster import ClusterFile

# Lines of a report that tell that something hangs, or hasn't ended.
HANGS = ("starting", "blocked", "open")
# The kind of which both answers have the same lines, in some order.
LAST_BOOT = "last boot of a cold start"
States = tuple[State, State]


def keeps_node(restart: str, how: str) -> bool:
    """An application of this restart type that ends so doesn't end its node."""
    return restart == "temporary" or restart == "transient" and how == "normal"


def needs_run(step: Step, states: States) -> bool:
    """What the application needs runs at the node in both states, and nothing that waits there in the first needs it."""
    node, apps = step.words[1], step.cluster.apps
    needs = [need for need in apps[step.app].needs if need in apps] if step.app in apps else []
    if any(step.app in apps[other].needs for other in step.before.waiting[node]):
        return False
    return all(need in state.running[node] for state in states for need in needs)


# ---- Of an application that isn't distributed


def runs_alone(step: Step, states: States) -> bool:
    """It isn't distributed, and runs at the node in both states."""
    return not step.is_spread and all(step.app in state.running.get(step.words[1], []) for state in states)


def is_stop(step: Step, states: States) -> bool:
    """It is stopped where it runs."""
    return step.word == "stop" and runs_alone(step, states)


def is_forbid(step: Step, states: States) -> bool:
    """It is forbidden where it runs."""
    is_such = step.word == "permit" and step.words[3] == "false" and runs_alone(step, states)
    return is_such and step.app not in step.before.forbidden[step.words[1]]


def is_exit(step: Step, states: States) -> bool:
    """It ends where it runs, and that keeps its node."""
    is_such = step.word == "exit" and runs_alone(step, states)
    return is_such and all(keeps_node(state.types[step.words[1], step.app], step.words[3]) for state in states)


def is_start(step: Step, states: States) -> bool:
    """It is started where it can start."""
    if step.word != "start" or step.is_spread or step.before.mode.get(step.words[1]) != "up":
        return False
    node = step.words[1]
    can = all(not state.is_started(node, step.app) and state.can_run(node, step.app) for state in states)
    return can and needs_run(step, states)


# ---- Of a distributed one


def runners(state: State, app: str) -> list[str]:
    """The nodes at which an application runs."""
    return [node for node, apps in state.running.items() if app in apps]


def is_spread_call(step: Step, word: str) -> bool:
    """An operator calls so of a distributed application, at a node that is up, where each node waits for all others."""
    is_such = step.word == word and step.is_spread and not lacks_lists(step.cluster)
    return is_such and step.before.mode.get(step.words[1]) == "up"


def is_takeover(step: Step, states: States) -> bool:
    """It waits at the node, runs at one other, and moves."""
    if not is_spread_call(step, "takeover"):
        return False
    node, one, other = step.words[1], *(runners(state, step.app) for state in states)
    is_such = len(one) == 1 and one == other and node not in one
    return is_such and all(step.app in state.waiting[node] and state.can_run(node, step.app) for state in states) and needs_run(step, states)


def is_permission(step: Step, states: States) -> bool:
    """Only the permission changes: it is forbidden where it doesn't run, or permitted where it runs. No node waits, and it isn't lost."""
    if not is_spread_call(step, "permit") or "waiting" in step.before.mode.values() or step.app in step.before.lost:
        return False
    return all((step.app in state.running[step.words[1]]) == (step.words[3] == "true") for state in states)


def is_grant(step: Step, states: States) -> bool:
    """It waits at the node, is forbidden there, and runs nowhere; it is wanted by the first rules, and starts there as any other one. No node
    waits."""
    if not is_spread_call(step, "permit") or step.words[3] != "true" or "waiting" in step.before.mode.values():
        return False
    node = step.words[1]
    is_such = step.before.standing[step.app][0] == "wanted" and step.answer == ["ok", f"started {step.app} {node} normal"]
    waits = all(step.app in state.waiting[node] and step.app in state.forbidden[node] for state in states)
    return is_such and waits and not any(runners(state, step.app) for state in states) and needs_run(step, states)


def is_call_back(step: Step, states: States) -> bool:
    """It waits at the node, is forbidden there, and runs at one other node by both, which its list has later, and no node before that
    of the call can run it: in the second profile it is called back. No node waits."""
    if not is_spread_call(step, "permit") or step.words[3] != "true" or "waiting" in step.before.mode.values() or step.cluster.profile != 2:
        return False
    node, one, other = step.words[1], *(runners(state, step.app) for state in states)
    waits = all(step.app in state.waiting[node] and step.app in state.forbidden[node] for state in states)
    groups = step.cluster.entries[step.app].groups
    if not waits or len(one) != 1 or one != other or any(isinstance(group, tuple) for group in groups):
        return False
    is_first = not any(step.before.can_run(group, step.app) for group in groups[:groups.index(node)])
    return is_first and groups.index(node) < groups.index(one[0]) and needs_run(step, states)


# ---- Time, and boots


def is_failover(step: Step, states: States) -> bool:
    """Time passes where each node waits for all others and none waits now; one application is lost by both, whose list has no tuple, and it
    starts by the first rules, and nothing else."""
    if step.word != "tick" or lacks_lists(step.cluster) or "waiting" in step.before.mode.values():
        return False
    lost = [set(state.lost) for state in states]
    if len(lost[0]) != 1 or lost[0] != lost[1] or len(step.answer) != 2 or not step.answer[1].startswith("started "):
        return False
    return not any(isinstance(group, tuple) for app in lost[0] for group in step.cluster.entries[app].groups)


def is_end_of_wait(step: Step, states: States) -> bool:
    """Time passes where no application is lost, and nodes end by the first rules, and nothing else. By both reports each node is down,
    waits or is up alike, and none is down that has ever booted: so none has seen one that is gone. Each that ends must have one that was
    down before. (The law asks that no other timer is due at that moment on live nodes.)"""
    if step.word != "tick" or len(step.answer) < 2 or not all(line.startswith("ended ") for line in step.answer[1:]):
        return False
    is_same = states[0].mode == states[1].mode and not any(state.lost for state in states)
    down = {node for node, mode in step.before.mode.items() if mode == "down"}
    ended = [step.cluster.nodes[words_of(line)[1]] for line in step.answer[1:]]
    return is_same and not any(step.before.boots[node] for node in down) and all(down & set(node.mandatory) for node in ended)


def is_waiting_boot(step: Step, _: States) -> bool:
    """A node boots where each node waits for all others, and no wait is over behind it; the others that aren't alive have never booted."""
    if step.word != "boot" or lacks_lists(step.cluster) or step.answer != ["ok"]:
        return False
    return not any(mode == "down" and step.before.boots[node] for node, mode in step.before.mode.items() if node != step.words[1])


def boots_in_order(cluster: ClusterFile, forbidden: dict[str, list[str]]) -> bool:
    """Nodes boot what is distributed in one order, and what one of them doesn't boot is left to one node (`boot_in_order_but_for_one`). The
    first node at which such an application isn't forbidden boots it, and no list has a tuple. What an application needs of the cluster's
    stands before it and isn't distributed (names of the platform aren't asked for). What isn't distributed isn't forbidden where it is
    booted."""
    lists = {name: [app for app, _ in node.boot] for name, node in cluster.nodes.items()}
    first = first_nodes(cluster, forbidden)
    needs = [(apps[:place], need) for apps in lists.values() for place, app in enumerate(apps) for need in cluster.apps[app].needs]
    is_late = any(need in cluster.apps and (need in cluster.entries or need not in before) for before, need in needs)
    is_barred = any(app not in cluster.entries and app in forbidden[node] for node, apps in lists.items() for app in apps)
    is_nowhere = any(node is None or app not in lists[node] for app, node in first.items())
    has_tuple = any(isinstance(group, tuple) for entry in cluster.entries.values() for group in entry.groups)
    return boot_in_order_but_for_one(cluster, first) and not (is_late or is_barred or is_nowhere or has_tuple)


def is_last_boot(step: Step, _: States) -> bool:
    """Each node waits for all others. The last of two or more boots for the first time; all others have booted once, and wait. All have the
    same `distributed`, and boot in order."""
    if step.word != "boot" or lacks_lists(step.cluster):
        return False
    begun = {node: ("down", 0) if node == step.words[1] else ("waiting", 1) for node in step.cluster.nodes}
    is_such = len(begun) > 1 and all((step.before.mode[node], step.before.boots[node]) == stands for node, stands in begun.items())
    files = [node.entries for node in step.cluster.nodes.values()]
    is_one = files[0] is not None and all(entries == files[0] for entries in files)
    return is_such and is_one and boots_in_order(step.cluster, step.before.forbidden)


# ---- The kinds

# Each kind, and how many of it have to be among the random rehearsals.
KINDS: dict[str, tuple[Callable[[Step, States], bool], int]] = {
    "stop": (is_stop, 40), "exit": (is_exit, 10), "forbid": (is_forbid, 60), "start": (is_start, 20), "takeover": (is_takeover, 100),
    "permission": (is_permission, 150), "permit that starts": (is_grant, 3), "permit that calls back": (is_call_back, 1),
    "failover": (is_failover, 15), "wait that ends its node": (is_end_of_wait, 30), "boot that waits": (is_waiting_boot, 3_000),
    LAST_BOOT: (is_last_boot, 40)}


def kind_of(step: Step, live: list[str], state: State) -> Optional[str]:
    """Of which kind a command is, or None: `live` is the report of live nodes before it, and `state` what that tells."""
    if any(words_of(line)[0] in HANGS for line in live):
        return None
    return next((kind for kind, (is_such, _) in KINDS.items() if is_such(step, (step.before, state))), None)


def are_same(kind: str, manual: list[str], live: list[str]) -> bool:
    """Whether two answers to a command of a kind are what the laws say: the same text, or the same lines in some order behind the first."""
    if kind == LAST_BOOT:
        return (manual[0], sorted(manual[1:])) == (live[0], sorted(live[1:]))
    return manual == live
