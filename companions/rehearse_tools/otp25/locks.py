"""global's locks of the one resource `dist_ac`: global:set_lock/3 and global:del_lock/2."""
from dataclasses import dataclass, field

from rehearse_tools.otp25.messages import Address


@dataclass(slots=True)
class Lock:
    """Who has the lock at a node: the name in the lock's id, and the processes that hold it by that name."""
    requester: str
    owners: list[Address]


@dataclass(slots=True)
class Locks:
    """The lock at each node where it is held. A node that isn't alive has none."""
    held: dict[str, Lock] = field(default_factory=dict)

    def copy(self) -> "Locks":
        return Locks({node: Lock(lock.requester, list(lock.owners)) for node, lock in self.held.items()})

    def is_free(self, requester: str, nodes: tuple[str, ...]) -> bool:
        """Whether nobody has it at these nodes by another name."""
        return all(node not in self.held or self.held[node].requester == requester for node in nodes)

    def take(self, requester: str, owner: Address, nodes: tuple[str, ...]) -> bool:
        """set_lock/3: at all of these nodes, or at none."""
        if not self.is_free(requester, nodes):
            return False
        for node in nodes:
            self.held.setdefault(node, Lock(requester, [])).owners.append(owner)
        return True

    def free(self, requester: str, owner: Address) -> None:
        """del_lock/2"""
        for node, lock in list(self.held.items()):
            if lock.requester == requester and owner in lock.owners:
                lock.owners.remove(owner)
                if not lock.owners:
                    del self.held[node]

    def node_ends(self, name: str) -> None:
        """A node ends, with its own locks and with those that its processes hold at others."""
        self.held.pop(name, None)
        for node, lock in list(self.held.items()):
            lock.owners = [owner for owner in lock.owners if owner.node != name]
            if not lock.owners:
                del self.held[node]
