"""What a dist_ac knows, where it can stand in the middle of something, and how it speaks to others."""
from dataclasses import dataclass, field
from typing import TYPE_CHECKING, Any, NamedTuple, Optional, TypeVar

from rehearse_tools.otp25.cluster import Entry
from rehearse_tools.otp25.messages import Address, AppStarted, Go, NewNode, NodeDown, Weight

if TYPE_CHECKING:
    from rehearse_tools.otp25.system import Node

Own = TypeVar("Own", bound="DistAcState")
# How an application stands, as `id` in OTP: undefined, local, run_waiting, takeover, and with a node distributed and failover.
Standing = tuple[str, Optional[str]]
UNDEFINED: Standing = ("undefined", None)
LOCAL: Standing = ("local", None)
RUN_WAITING: Standing = ("run_waiting", None)
TAKEOVER: Standing = ("takeover", None)
# In place of an application: two nodes introduce themselves to one another.
INTRODUCTIONS = ""


@dataclass(slots=True)
class Application:
    """The record `appl`: how it stands, and which nodes may run it (None: undefined)."""
    entry: Entry
    standing: Standing
    run: dict[str, Optional[bool]]
    # How often it was lost, as the timers of a loss know it.
    losses: int = 0


class PermitCall(NamedTuple):
    """A call of permit for which an application is started; if nothing is started the state stays as it was before."""
    caller: Address
    standing: Standing
    remote_started: tuple[tuple[str, str], ...]
    started: tuple[str, ...]
    tmp_locals: tuple[Weight, ...]
    tmp_weights: tuple[tuple[str, int], ...]


class Attempt(NamedTuple):
    """A start of an application, start_appl/3: `type` is reply, for the controller's request, or req, for a change."""
    app: str
    type: str
    permitted: frozenset[str]
    permit: Optional[PermitCall] = None


# ---- Where it stands


class ForGo(NamedTuple):
    """handle_cast(init_sync, ..): it waits until the kernel has seen the other nodes."""

    def takes(self, message: Any) -> bool:
        return isinstance(message, Go)


class ForLock(NamedTuple):
    """sync_dacs/1: it waits for the lock at these nodes."""
    nodes: tuple[str, ...]

    def takes(self, _: Any) -> bool:
        return False


class ForIntroduction(NamedTuple):
    """wait_dacs/4: it waits for what the first of these nodes knows."""
    nodes: tuple[str, ...]
    known: tuple[str, ...]
    remote_started: tuple[tuple[str, str], ...]

    def takes(self, message: Any) -> bool:
        return isinstance(message, (NewNode, NodeDown)) and message.node == self.nodes[0]


class ForWeight(NamedTuple):
    """collect_answers/4: it waits for the weight of the first of these nodes, to choose a node of the tuple at this place."""
    attempt: Attempt
    place: int
    candidates: tuple[str, ...]
    answers: tuple[tuple[int, str], ...]
    nodes: tuple[str, ...]

    def takes(self, message: Any) -> bool:
        if isinstance(message, Weight):
            return message.app == self.attempt.app and message.node == self.nodes[0]
        return isinstance(message, NodeDown) and message.node == self.nodes[0]


class ForStart(NamedTuple):
    """wait_dist_start/7: it waits for a node to start the application."""
    attempt: Attempt
    node: str

    def takes(self, message: Any) -> bool:
        if isinstance(message, (AppStarted, Weight)):
            return message.app == self.attempt.app and message.node == self.node
        return isinstance(message, NodeDown) and message.node == self.node


class ForAnyStart(NamedTuple):
    """wait_dist_start2/6: it waits for any node to start the application."""
    attempt: Attempt

    def takes(self, message: Any) -> bool:
        return isinstance(message, AppStarted) and message.app == self.attempt.app or isinstance(message, NodeDown)


@dataclass(slots=True)
class DistAcState:
    """The state of a dist_ac, its mailbox, and where it stands (None: it waits for any message)."""
    node: "Node"
    apps: dict[str, Application]
    stand: Any = ForGo()
    box: list[Any] = field(default_factory=list)
    is_synchronised: bool = False
    known: list[str] = field(default_factory=list)
    remote_started: list[tuple[str, str]] = field(default_factory=list)
    started: list[str] = field(default_factory=list)
    tmp_locals: list[Weight] = field(default_factory=list)
    tmp_weights: dict[str, int] = field(default_factory=dict)
    t_reqs: list[tuple[str, Address]] = field(default_factory=list)
    s_reqs: list[tuple[str, Address]] = field(default_factory=list)
    p_reqs: list[tuple[str, Address, tuple[str, ...]]] = field(default_factory=list)
    # Nodes whose end it is told of beside all those that are connected, once for each monitor.
    monitored: list[str] = field(default_factory=list)
    # Start requests that found the lock of this node held: they are sent again.
    parked: list[str] = field(default_factory=list)

    def copy(self: Own, node: "Node") -> Own:
        """The same state at another node's value."""
        apps = {name: Application(app.entry, app.standing, dict(app.run), app.losses) for name, app in self.apps.items()}
        return type(self)(node, apps, self.stand, list(self.box), self.is_synchronised, list(self.known), list(self.remote_started),
                      list(self.started), list(self.tmp_locals), dict(self.tmp_weights), list(self.t_reqs), list(self.s_reqs),
                      list(self.p_reqs), list(self.monitored), list(self.parked))

    @property
    def address(self) -> Address:
        return Address("dist_ac", self.node.name, self.node.life)

    # ---- What its parts share

    def waits(self, stand: Any) -> None:
        """Stands in a wait from now on."""
        self.stand = stand

    def remote(self, app: str) -> Optional[str]:
        """The node of which it knows that the application runs there, though it isn't started here."""
        return next((node for node, name in self.remote_started if name == app), None)

    def forget_remote(self, app: str) -> None:
        """keydelete/3 of remote_started"""
        row = next((row for row in self.remote_started if row[1] == app), None)
        if row is not None:
            self.remote_started.remove(row)

    def cached_weight(self, app: str) -> int:
        """get_cached_weight/2"""
        return self.tmp_weights[app] if app in self.tmp_weights else self.node.controller.weight()

    def del_t_reqs(self, app: str, result: Any) -> None:
        """del_t_reqs/3"""
        for asked, caller in self.t_reqs:
            if asked == app:
                self.answer(caller, result)
        self.t_reqs = [(asked, caller) for asked, caller in self.t_reqs if asked != app]

    def send(self, node: str, message: Any) -> None:
        """{dist_ac, Node} ! Message"""
        self.node.system.send_to_dist_ac(self.address, node, message)

    def send_all(self, nodes: Any, message: Any) -> None:
        """send_msg/2"""
        for node in nodes:
            if node != self.node.name:
                self.send(node, message)

    def to_controller(self, message: Any) -> None:
        self.node.system.send(self.address, self.node.address("controller"), message)

    def answer(self, caller: Address, error: Any) -> None:
        self.node.system.answer(self.address, caller, error)

    def monitor(self, node: str) -> None:
        """monitor_node(Node, true)"""
        if self.node.system.is_reached(self.node.name, node):
            self.monitored.append(node)
        else:
            self.node.system.send(self.node.system.last_address(node), self.address, NodeDown(node))

    def demonitor(self, node: str) -> None:
        """monitor_node(Node, false)"""
        if node in self.monitored:
            self.monitored.remove(node)
