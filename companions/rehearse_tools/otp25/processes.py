"""The smaller processes: kernel's wait for other nodes, the boot script, and the calls that an operator makes."""
from dataclasses import dataclass, replace
from typing import TYPE_CHECKING, Any, Optional

from rehearse_tools.otp25.messages import (Address, Answer, Event, GetNodes, NodeUp, Permit, PermitDistributed, Start, Stop,
                                           TakeOver, Timeout, TopEnds)

if TYPE_CHECKING:
    from rehearse_tools.otp25.system import Node, System


@dataclass(slots=True)
class KernelConfig:
    """kernel_config: the nodes that it has not seen yet."""
    node: "Node"
    mandatory: tuple[str, ...]
    optional: tuple[str, ...]

    def copy(self, node: "Node") -> "KernelConfig":
        return KernelConfig(node, self.mandatory, self.optional)

    def begin(self) -> None:
        """sync_nodes/0, wait_nodes/2"""
        system, file = self.node.system, self.node.file
        if file.wait is None:
            system.joins(self.node)
        elif file.wait in (0, "undefined"):
            # {badopt, {sync_nodes_timeout, ..}}
            system.note("bad-timeout", self.node.name, detail=str(file.wait))
            system.ends(self.node.name)
        else:
            for other in self.mandatory + self.optional:
                if other in system.nodes:
                    if other != self.node.name:
                        system.connect(self.node.name, other)
                    system.send(self.node.address("net_kernel"), self.node.address("kernel_config"), NodeUp(other))
            if isinstance(file.wait, int):
                system.after(file.wait, self.node.address("kernel_config"), Timeout())
            self.goes_on()

    def receive(self, message: Any) -> None:
        """rec_nodes/2, check_up/3. Each node counts once it was seen."""
        if self.node.is_up:
            return
        if isinstance(message, Timeout):
            if self.mandatory:
                self.node.system.ends(self.node.name)
            else:
                self.node.system.joins(self.node)
            return
        if message.node in self.mandatory:
            self.mandatory = without(self.mandatory, message.node)
        else:
            self.optional = without(self.optional, message.node)
        self.goes_on()

    def goes_on(self) -> None:
        """rec_nodes([], [])"""
        if not self.mandatory and not self.optional:
            self.node.system.joins(self.node)


@dataclass(slots=True)
class BootScript:
    """The part of a boot script that starts applications: `place` is the number of the one that is being started."""
    node: "Node"
    place: int = -1

    def copy(self, node: "Node") -> "BootScript":
        return BootScript(node, self.place)

    @property
    def is_at(self) -> Optional[str]:
        """The application that is being started."""
        boot = self.node.file.boot
        return boot[self.place][0] if 0 <= self.place < len(boot) else None

    @property
    def behind(self) -> tuple[str, ...]:
        """The applications that stand behind it."""
        return tuple(app for app, _ in self.node.file.boot[self.place + 1:])

    def receive(self, message: Any) -> None:
        """A start has its answer, which may be an error: the script goes on."""
        app = self.is_at
        if isinstance(message, Answer) and message.result is not None and app is not None:
            self.node.tell(Event("failed", app=app, detail=message.result))
        self.place += 1
        boot = self.node.file.boot
        if self.place == len(boot):
            self.node.tell(Event("booted"))
        elif self.place < len(boot):
            name, restart = boot[self.place]
            self.node.system.send(self.node.address("boot"), self.node.address("controller"),
                                  Start(name, restart, self.node.address("boot")))


@dataclass(slots=True)
class Call:
    """A call at a node, made by a process of its own. `stage` is what it waits for: controller, synchronised, nodes, lock,
    dist_ac; or done."""
    number: int
    words: tuple[str, ...]
    # The life of its node.
    life: int
    stage: str = "controller"
    nodes: tuple[str, ...] = ()
    only_loaded: bool = False
    result: Any = None

    def copy(self) -> "Call":
        return replace(self)

    @property
    def node(self) -> str:
        return self.words[1]

    @property
    def app(self) -> str:
        return self.words[2]

    @property
    def address(self) -> Address:
        return Address("call", self.node, self.number)

    @property
    def is_open(self) -> bool:
        return self.stage != "done"

    @property
    def requester(self) -> str:
        """Who asks for the lock {dist_ac, self()}."""
        return f"call {self.number}"

    def begin(self, system: "System") -> None:
        """application:start/2, stop/1, permit/2, takeover/2, or the end of a top process"""
        word, _, app, *rest = self.words
        if word == "takeover":
            self.stage = "synchronised"
            self.poll(system)
            return
        system.send(self.address, self.at("controller"), self.message(word, app, rest))

    def message(self, word: str, app: str, rest: list[str]) -> Any:
        """What a call sends to the controller."""
        if word == "start":
            return Start(app, rest[0], self.address)
        if word == "stop":
            return Stop(app, self.address)
        if word == "permit":
            return Permit(app, rest[0] == "true", self.address)
        return TopEnds(app, rest[0] == "normal", self.address)

    def at(self, kind: str) -> Address:
        """A process of its node."""
        return Address(kind, self.node, self.life)

    def receive(self, system: "System", message: Answer) -> None:
        """An answer has come."""
        result = message.result
        if self.stage == "controller" and self.words[0] == "permit" and result in (("started",), ("only_loaded",)):
            self.only_loaded = result == ("only_loaded",)
            self.stage = "synchronised"
            self.poll(system)
        elif self.stage == "nodes":
            self.nodes = result[1]
            self.stage = "lock"
            self.poll(system)
        else:
            system.locks.free(self.requester, self.address)
            self.stage, self.result = "done", result
            system.events.append(Event("answer", detail=self.number))

    def poll(self, system: "System") -> bool:
        """dist_ac:wait_for_sync_dacs/0 and global:trans/3, which ask again and again. Tells whether it has gone on."""
        node = system.nodes.get(self.node)
        if node is None or node.life != self.life:
            return False
        if self.stage == "synchronised" and node.dist_ac is not None and node.dist_ac.is_synchronised:
            if self.words[0] == "takeover":
                self.stage = "nodes"
                system.send(self.address, self.at("dist_ac"), GetNodes(self.app, self.address))
                return True
            self.nodes = (self.node, *system.connected_to(self.node))
            self.stage = "lock"
            self.poll(system)
            return True
        if self.stage == "lock" and system.locks.take(self.requester, self.address,
                                                      tuple(one for one in self.nodes if one in system.nodes)):
            self.stage = "dist_ac"
            asked: Any = (TakeOver(self.app, self.words[3], self.address) if self.words[0] == "takeover" else
                          PermitDistributed(self.app, self.words[3] == "true", self.only_loaded, self.address))
            system.send(self.address, self.at("dist_ac"), asked)
            return True
        return False


def without(nodes: tuple[str, ...], name: str) -> tuple[str, ...]:
    """lists:delete/2"""
    return tuple(node for node in nodes if node != name)
