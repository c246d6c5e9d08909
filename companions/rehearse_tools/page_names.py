"""Short names of nodes for a page: what tells a node from the others, without what all of them share."""
from collections.abc import Sequence
from dataclasses import dataclass


@dataclass(frozen=True)
class Name:
    """The name of a node; its label, which has nothing that all nodes share but a front; and the shortest text that still tells
    it from the others."""
    full: str
    label: str
    short: str


@dataclass(frozen=True)
class Names:
    """The names of all nodes, by their full names; the end that their labels lack; and whether they all have the same front."""
    all: dict[str, Name]
    lacks: str
    has_one_front: bool = False

    def shown(self, full: str) -> str:
        """A node's name in a table: its label, without the front that all nodes have. Another text stays as it is."""
        name = self.all.get(full, Name(full, full, full))
        return name.short if self.has_one_front else name.label


def shared_parts(hosts: Sequence[str]) -> int:
    """How many parts between dots all hosts share at their ends, where each keeps one."""
    parts = [host.split(".")[::-1] for host in hosts]
    most = min(map(len, parts)) - 1
    return next((place for place in range(most) if len({part[place] for part in parts}) > 1), most)


def all_differ(texts: Sequence[str]) -> bool:
    """Whether each of some texts is another one, and none is empty."""
    return all(texts) and len(set(texts)) == len(texts)


def names_of(full: Sequence[str]) -> Names:
    """The names of some nodes, of which no two have the same one."""
    fronts, _, hosts = zip(*(name.partition("@") for name in full))
    if len(full) < 2 or not all(hosts):
        return Names({name: Name(name, name, name) for name in full}, "")
    if len(set(hosts)) == 1 and all(fronts):
        return Names({name: Name(name, front, front) for name, front in zip(full, fronts)}, f"@{hosts[0]}")
    parts = hosts[0].split(".")
    kept = len(parts) - shared_parts(hosts)
    lacks = "".join(f".{part}" for part in parts[kept:])
    ends = [host.removesuffix(lacks) for host in hosts]
    labels = [f"{front}@{end}" for front, end in zip(fronts, ends)]
    shorts = next((texts for texts in (list(fronts), ends) if all_differ(texts)), labels)
    return Names({each[0]: Name(*each) for each in zip(full, labels, shorts)}, lacks, len(set(fronts)) == 1)
