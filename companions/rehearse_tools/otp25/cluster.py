"""A cluster file, as the processes of a live node read it: the kernel parameters and the boot list of each node."""
from dataclasses import dataclass
from typing import Any, Optional, Union

from rehearse_tools.terms import section, terms_of

KERNEL = ("kernel", "stdlib")
# A place of an application's list: a node, or a tuple of nodes that rank alike. A live node tells {n} from n.
Group = Union[str, tuple[str, ...]]


@dataclass(frozen=True)
class Entry:
    """An application's entry in `distributed`."""
    app: str
    timeout: int
    groups: tuple[Group, ...]

    @property
    def nodes(self) -> tuple[str, ...]:
        """All nodes of the list, in the order in which they are written."""
        return tuple(node for group in self.groups for node in (group if isinstance(group, tuple) else (group,)))

    @property
    def backwards(self) -> tuple[str, ...]:
        """All nodes in the order of dist_ac:flat_nodes/1: the groups from the last one, each tuple as it is written."""
        return tuple(node for group in reversed(self.groups) for node in (group if isinstance(group, tuple) else (group,)))


@dataclass(frozen=True)
class NodeFile:
    """What a node's sys.config and boot script tell it."""
    name: str
    # None where there is no `distributed`: such a node has no dist_ac.
    entries: Optional[tuple[Entry, ...]]
    mandatory: tuple[str, ...]
    optional: tuple[str, ...]
    # Milliseconds, "infinity", "undefined" where that is written, or None.
    wait: Union[int, str, None]
    permissions: Optional[tuple[tuple[str, bool], ...]]
    boot: tuple[tuple[str, str], ...]
    platform: frozenset[str]

    def entry(self, app: str) -> Optional[Entry]:
        """An application's entry in this node's own `distributed`."""
        return next((entry for entry in self.entries or () if entry.app == app), None)


@dataclass(frozen=True)
class AppFile:
    """What the .app file of an application tells."""
    name: str
    needs: tuple[str, ...]
    has_phases: bool


@dataclass(frozen=True)
class ClusterFile:
    """A cluster file that the program accepts."""
    profile: int
    nodes: dict[str, NodeFile]
    apps: dict[str, AppFile]
    # The entry of each distributed application, as the first node that has one wrote it.
    entries: dict[str, Entry]


def cluster_of(text: str) -> ClusterFile:
    """The cluster of a text that the program accepts."""
    terms = terms_of(text)
    profile = terms.pop(0)[1] if terms[0][0] == "profile" else 1
    nodes = {term[1]: node_of(term) for term in terms if term[0] == "node"}
    apps = {term[1]: app_of(term) for term in terms if term[0] == "application"}
    first = next((node.entries for node in nodes.values() if node.entries), ())
    return ClusterFile(profile, nodes, apps, {entry.app: entry for entry in first})


def entry_of(term: tuple[Any, ...]) -> Entry:
    """An entry of `distributed`, with its timeout or without one."""
    app, *timeout, groups = term
    return Entry(app, timeout[0] if timeout else 0, tuple(groups))


def node_of(term: tuple[str, str, list[Any]]) -> NodeFile:
    """A node of its term."""
    kernel, own = section(term, "kernel"), section(term, "rehearse")
    entries = tuple(map(entry_of, kernel["distributed"])) if "distributed" in kernel else None
    permissions = tuple((app, allowed == "true") for app, allowed in kernel["permissions"]) if "permissions" in kernel else None
    return NodeFile(term[1], entries, tuple(kernel.get("sync_nodes_mandatory", ())), tuple(kernel.get("sync_nodes_optional", ())),
                    kernel.get("sync_nodes_timeout"), permissions, tuple(own.get("boot", ())),
                    frozenset(KERNEL).union(own.get("platform", ())))


def app_of(term: tuple[str, str, list[Any]]) -> AppFile:
    """An application of its term."""
    keys = dict(term[2])
    return AppFile(term[1], tuple(keys.get("applications", ())), isinstance(keys.get("start_phases"), list))
