"""A cluster file as the model has it: cluster_of(text) gives the Cluster of a text that is known to be right.

It is written from docs/CLUSTER_FILES.md and finds no faults: what the program refuses is told by rows. The terms are read as the
companion `live` reads them.
"""
import os
import sys
from typing import NamedTuple

from support import TOP

sys.path.append(os.path.join(TOP, "companions"))
from rehearse_tools.terms import section, terms_of  # noqa: E402

KERNEL = ("kernel", "stdlib")


class Spread(NamedTuple):
    """Where a distributed application may run: groups of node numbers, each in its written order."""
    timeout: int
    groups: list


class Node(NamedTuple):
    name: str
    mandatory: list
    optional: list
    # Milliseconds, "infinity", or None where it is undefined.
    wait: object
    boot: list
    platform: set
    forbidden: set


class App(NamedTuple):
    name: str
    needs: list
    has_phases: bool
    # None where it is local.
    spread: object


class Cluster(NamedTuple):
    profile: int
    nodes: list
    apps: list


def cluster_of(text):
    """The cluster of a text."""
    terms = terms_of(text)
    profile = terms.pop(0)[1] if terms[0][0] == "profile" else 1
    nodes = [term for term in terms if term[0] == "node"]
    apps = [term for term in terms if term[0] == "application"]
    numbers = {name: number for number, (_, name, _) in enumerate(nodes)}
    places = {name: number for number, (_, name, _) in enumerate(apps)}
    spreads = spreads_of(nodes, numbers)
    return Cluster(profile, [node_of(term, numbers, places) for term in nodes],
                   [app_of(term, places, spreads.get(term[1])) for term in apps])


def spreads_of(nodes, numbers):
    """The spread of each distributed application, as the first node in the file that has one wrote it."""
    entries = next((values for values in (section(node, "kernel").get("distributed") for node in nodes) if values), [])
    spreads = {}
    for name, *timeout, groups in entries:
        written = [group if isinstance(group, tuple) else (group,) for group in groups]
        spreads[name] = Spread(timeout[0] if timeout else 0, [[numbers[node] for node in group] for group in written])
    return spreads


def node_of(term, numbers, places):
    kernel, own = section(term, "kernel"), section(term, "rehearse")
    wait = kernel.get("sync_nodes_timeout", "undefined")
    return Node(
        term[1], [numbers[name] for name in kernel.get("sync_nodes_mandatory", [])],
        [numbers[name] for name in kernel.get("sync_nodes_optional", [])], None if wait == "undefined" else wait,
        [(places[name], restart) for name, restart in own.get("boot", [])], {*KERNEL, *own.get("platform", [])},
        {places[name] for name, allowed in kernel.get("permissions", []) if allowed == "false"})


def app_of(term, places, spread):
    keys = dict(term[2])
    # A dependency is an application's number, or a platform name.
    needs = [places.get(name, name) for name in keys.get("applications", [])]
    return App(term[1], needs, isinstance(keys.get("start_phases", "undefined"), list), spread)
