"""Random rehearsals in which distributed applications do one thing: they start, move, are lost, or come back. The lists have no tuples, and
each node waits for all others. tests/confluence.py has them in several orders of messages, and tests/agreement.py some of them by both
sets of rules.
"""
import random
from collections.abc import Iterable

from random_live import KINDS, TYPES, Cluster, Rehearsal, Spread, complete_lists


def lone(chance: random.Random, least: int, most: int) -> tuple[list[str], list[str]]:
    """So many nodes at least and at most, and those of them that are in the list of their one application, in its order."""
    nodes = [f"n{number}@lab" for number in range(1, chance.randint(least, most) + 1)]
    return nodes, chance.sample(nodes, chance.randint(least, len(nodes)))


def lone_cluster(chance: random.Random, nodes: list[str], listed: list[str], timeout: int) -> Cluster:
    """A cluster of these nodes, which wait for one another, with one distributed application, in a list without tuples."""
    cluster = Cluster(2, nodes, ["d1"], {"d1": Spread(timeout, [[node] for node in listed])}, nodes, 5_000)
    complete_lists(chance, cluster)
    return cluster


def booted(seed: int, cluster: Cluster, nodes: list[str], lines: Iterable[str]) -> Rehearsal:
    """All nodes boot, and then these commands come."""
    commands = "".join(f"{line}\n" for line in (*(f"boot {node}" for node in nodes), *lines))
    return Rehearsal(seed, KINDS[0], f"{cluster.text}===\n{commands}")


def loss(seed: int) -> Rehearsal:
    """A random cluster with one distributed application: all nodes boot, that where it runs is lost, and its failover time passes."""
    chance = random.Random(seed)
    nodes, listed = lone(chance, 3, 6)
    timeout = chance.choice([1_000, 4_000, 8_000])
    cluster = lone_cluster(chance, nodes, listed, timeout)
    cluster.boot = {node: [("d1", chance.choice(TYPES))] for node in listed}
    cluster.permissions = {node: {"d1": False} for node in listed[1:] if chance.random() < 0.2}
    return booted(seed, cluster, nodes, [f"crash {listed[0]}", f"tick {timeout}"])


def beginning(seed: int) -> Rehearsal:
    """A random cluster with one distributed application, which some nodes may not run: all nodes boot, and it is started at two nodes of the
    list, or twice at one."""
    chance = random.Random(seed)
    nodes, listed = lone(chance, 2, 6)
    forbidden = chance.choice([0.0, 0.4, 1.0])
    cluster = lone_cluster(chance, nodes, listed, 5_000)
    cluster.permissions = {node: {"d1": False} for node in listed if chance.random() < forbidden}
    return booted(seed, cluster, nodes, [f"start {chance.choice(listed)} d1 {chance.choice(TYPES)}" for _ in range(2)])


def moving(seed: int) -> Rehearsal:
    """A random cluster with one distributed application: all nodes boot, and it is permitted, forbidden and taken over at nodes of the list."""
    chance = random.Random(seed)
    nodes, listed = lone(chance, 2, 5)
    cluster = lone_cluster(chance, nodes, listed, 5_000)
    cluster.boot = {node: [("d1", chance.choice(TYPES))] for node in listed}
    cluster.permissions = {node: {"d1": False} for node in listed if chance.random() < 0.5}
    calls = ("permit {} d1 true", "permit {} d1 false", f"takeover {{}} d1 {chance.choice(TYPES)}")
    return booted(seed, cluster, nodes, [chance.choice(calls).format(chance.choice(listed)) for _ in range(6)])


def returning(seed: int) -> Rehearsal:
    """A random cluster with two distributed applications and one that isn't: all nodes boot, and twice a node crashes and boots again, once
    what is lost may have failed over."""
    chance = random.Random(seed)
    nodes, listed = lone(chance, 2, 5)
    cluster = lone_cluster(chance, nodes, listed, 1_000)
    cluster.apps, cluster.spreads["d2"] = ["d1", "d2", "l1"], Spread(2_000, [[node] for node in chance.sample(nodes, len(nodes))])
    cluster.boot = {node: [("l1", chance.choice(TYPES)), *((app, chance.choice(TYPES)) for app in ("d1", "d2") if node in
                                                           cluster.spreads[app].nodes)] for node in nodes}
    cluster.permissions = {node: {"d1": False} for node in listed[1:] if chance.random() < 0.3}
    gone = [chance.choice(nodes) for _ in range(2)]
    return booted(seed, cluster, nodes, [line for node in gone for line in (f"crash {node}", "tick 3000", f"boot {node}")])


def several(chance: random.Random, least: int, timeouts: list[int]) -> Cluster:
    """A random cluster of so many nodes at least, which wait for one another, with a distributed application for each of these timeouts in
    a list of all nodes without tuples, and two that aren't distributed, of which the others may need some. All nodes boot all of them, the
    distributed ones in one order, each behind what it needs."""
    nodes = [f"n{number}@lab" for number in range(1, chance.randint(least, 5) + 1)]
    spreads = {f"d{number}": Spread(timeout, [[node] for node in chance.sample(nodes, len(nodes))])
               for number, timeout in enumerate(timeouts, 1)}
    cluster = Cluster(2, nodes, [*spreads, "l1", "l2"], spreads, nodes, 5_000)
    complete_lists(chance, cluster)
    cluster.needs = {app: chance.sample(["l1", "l2"], chance.randint(0, 2)) for app in spreads}
    order = chance.sample([*spreads], len(spreads))
    for node in nodes:
        early, late = (["l1", "l2"], []) if any(cluster.needs.values()) else (["l2"], ["l1"])
        cluster.boot[node] = [(app, chance.choice(TYPES)) for app in (*chance.sample(early, len(early)), *order, *late)]
    cluster.permissions = {node: {app: chance.random() < 0.8 for app in spreads} for node in nodes if chance.random() < 0.4}
    return cluster


def gathering(seed: int) -> Rehearsal:
    """A random cluster with several applications: all nodes boot, in any order."""
    chance = random.Random(seed)
    cluster = several(chance, 2, [1_000] * chance.randint(1, 4))
    return booted(seed, cluster, chance.sample(cluster.nodes, len(cluster.nodes)), ["show"])


def gathering_apart(seed: int) -> Rehearsal:
    """A random cluster with several applications, some of which leave out some nodes: a node is left out of lists, and doesn't boot what
    they are of, that all begin with one and the same other node. All nodes boot, in any order."""
    chance = random.Random(seed)
    cluster = several(chance, 2, [1_000] * chance.randint(2, 4))
    for node in cluster.nodes:
        first = chance.choice(cluster.nodes)
        apps = [app for app, spread in cluster.spreads.items() if spread.groups[0] == [first] != [node]]
        for app in chance.sample(apps, chance.randint(0, len(apps))):
            cluster.spreads[app].groups.remove([node])
            cluster.boot[node] = [row for row in cluster.boot[node] if row[0] != app]
    return booted(seed, cluster, chance.sample(cluster.nodes, len(cluster.nodes)), ["show"])


def loss_of_several(seed: int) -> Rehearsal:
    """A random cluster with two or three distributed applications of different timeouts, most of which run at one node: all nodes boot,
    that one is lost, and all their failover times pass in one tick; in some, an operator stops one at a node before, and starts it again.
    """
    chance = random.Random(seed)
    timeouts = chance.sample([1_000, 2_000, 4_000, 8_000], chance.choice([2, 2, 3]))
    cluster = several(chance, 3, timeouts)
    gone = cluster.nodes[0]
    for spread in cluster.spreads.values():
        if chance.random() < 0.8:
            spread.groups.sort(key=lambda group: group != [gone])
    cluster.permissions.pop(gone, None)
    node = cluster.spreads["d1"].groups[-1][0]
    by_hand = [f"stop {node} d1", f"start {node} d1 permanent"] if chance.random() < 0.3 else []
    return booted(seed, cluster, cluster.nodes, [f"crash {gone}", *by_hand, f"tick {max(timeouts)}"])
