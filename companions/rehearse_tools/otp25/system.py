"""The live nodes of a cluster with their processes, the messages on their way, and time. The whole is a value: `copy` gives another
one that goes on by itself, so that a step can be taken back and tried otherwise.
"""
import random
from collections import Counter
from dataclasses import dataclass, field
from typing import Any, NamedTuple, Optional

from rehearse_tools.otp25.application_controller import ApplicationController
from rehearse_tools.otp25.cluster import ClusterFile, NodeFile
from rehearse_tools.otp25.dist_ac import DistAc
from rehearse_tools.otp25.dist_ac_state import UNDEFINED, Application, ForLock
from rehearse_tools.otp25.locks import Locks
from rehearse_tools.otp25.messages import Address, Answer, Event, Go, Next, NodeDown, NodeUp
from rehearse_tools.otp25.processes import BootScript, Call, KernelConfig

# So long a node lives on when its controller has ended.
ENDING_TIME = 1_500
# Above this `receive after` ends its process: the timer never fires.
LONGEST_TIMER = 4_294_967_295
# So often two nodes answer each other's weight for an application where it is no choice of a node any more: they never stop.
MOST_REPLIES = 20


class Note(NamedTuple):
    """Something that happened and that the rules of `run` don't have: what, and of whom."""
    what: str
    node: str = ""
    app: str = ""
    detail: str = ""


class Timer(NamedTuple):
    """A message that is sent when it is due. Timers aren't cancelled. `step` is the number of the command with which it was set."""
    due: int
    step: int
    number: int
    to: Address
    message: Any


@dataclass(slots=True)
class Node:
    """A node that is alive: an OS process with the processes that matter here."""
    system: "System"
    file: NodeFile
    life: int
    controller: ApplicationController = None  # type: ignore[assignment]
    dist_ac: Optional[DistAc] = None
    sync: KernelConfig = None  # type: ignore[assignment]
    script: BootScript = None  # type: ignore[assignment]
    is_up: bool = False
    # Its controller has ended; the node follows.
    is_ending: bool = False
    is_stopped: bool = False
    ended_by_itself: set[str] = field(default_factory=set)

    @property
    def name(self) -> str:
        return self.file.name

    def address(self, kind: str) -> Address:
        """One of its processes."""
        return Address(kind, self.file.name, self.life)

    def process(self, kind: str) -> Any:
        """The process of a kind."""
        if kind == "dist_ac":
            return self.dist_ac
        if kind == "controller":
            return self.controller
        return self.sync if kind == "kernel_config" else self.script

    def tell(self, event: Event) -> None:
        """Tells an observer what happens here."""
        self.system.events.append(event._replace(node=self.file.name))

    def stop(self) -> None:
        """application_controller:terminate/2: all that runs here stops."""
        self.is_stopped = True
        for app, _ in self.controller.running:
            self.controller.stop_here(app)

    def copy(self, system: "System") -> "Node":
        """The same in another system."""
        node = Node(system, self.file, self.life, is_up=self.is_up, is_ending=self.is_ending, is_stopped=self.is_stopped,
                    ended_by_itself=set(self.ended_by_itself))
        node.controller = self.controller.copy(node)
        node.dist_ac = self.dist_ac.copy(node) if self.dist_ac is not None else None
        node.sync = self.sync.copy(node)
        node.script = self.script.copy(node)
        return node


@dataclass(slots=True)
class System:
    """All nodes. Where `order` is None messages arrive in the order in which they were sent; else chance decides, but between two
    processes they keep their order."""
    file: ClusterFile
    order: Optional[random.Random] = None
    clock: int = 0
    nodes: dict[str, Node] = field(default_factory=dict)
    boots: dict[str, int] = field(default_factory=dict)
    messages: list[tuple[Address, Address, Any]] = field(default_factory=list)
    # What takes longer than messages do: nodes that global connects, and boot scripts that begin.
    slow: list[Any] = field(default_factory=list)
    timers: list[Timer] = field(default_factory=list)
    # Nodes that are connected, in the order in which they were.
    links: dict[frozenset[str], None] = field(default_factory=dict)
    locks: Locks = field(default_factory=Locks)
    calls: list[Call] = field(default_factory=list)
    # Pairs of nodes whose dist_ac send one another messages for ever, with the application whose weights these are, or INTRODUCTIONS.
    burning: set[tuple[str, str, str]] = field(default_factory=set)
    # How often they have answered one another since all was quiet.
    replies: Counter[tuple[str, ...]] = field(default_factory=Counter)
    # Who asked for a lock in vain until the last command was over: global:random_sleep/1 lets them sleep up to 8 seconds.
    asleep: frozenset[Address] = frozenset()
    is_ticking: bool = False
    # Whether the command that is made waits for the end of a node that ends by itself.
    ends_soon: bool = False
    events: list[Event] = field(default_factory=list)
    notes: list[Note] = field(default_factory=list)
    count: int = 0
    step: int = 0

    def copy(self) -> "System":
        """Another value of the same state."""
        new = System(self.file, self.order, self.clock, {}, dict(self.boots), list(self.messages), list(self.slow),
                     list(self.timers), dict(self.links), self.locks.copy(), [call.copy() for call in self.calls],
                     set(self.burning), Counter(), self.asleep, False, False, list(self.events), list(self.notes),
                     self.count, self.step)
        new.nodes = {name: node.copy(new) for name, node in self.nodes.items()}
        return new

    def note(self, what: str, node: str = "", app: str = "", detail: str = "") -> None:
        """Notes something for the reasons that are told."""
        self.notes.append(Note(what, node, app, detail))

    # ---- Connections

    def connected_to(self, name: str) -> list[str]:
        """nodes(): the other nodes that a node sees, that with which it was connected first in front."""
        return [other for link in self.links if name in link for other in link if other != name]

    def connect(self, one: str, two: str) -> None:
        """Two nodes see one another; what either of them sees already global connects with the other, a little later."""
        if frozenset((one, two)) in self.links:
            return
        more = [(a, b) for a in (one, *self.connected_to(one)) for b in (two, *self.connected_to(two))
                if a != b and frozenset((a, b)) not in self.links]
        self.link(one, two)
        self.slow += [("connect", a, b) for a, b in more if {a, b} != {one, two}]

    def link(self, one: str, two: str) -> None:
        """A connection is there, and both nodes are told."""
        self.links[frozenset((one, two))] = None
        for name, other in ((one, two), (two, one)):
            node = self.nodes[name]
            if not node.is_up:
                self.send(node.address("net_kernel"), node.address("kernel_config"), NodeUp(other))

    def is_reached(self, name: str, other: str) -> bool:
        """Whether a node sees another one; where it doesn't it tries to connect."""
        if other not in self.nodes:
            return False
        if name != other:
            self.connect(name, other)
        return True

    # ---- Messages and time

    def send(self, sender: Address, to: Address, message: Any) -> None:
        """Sends a message within a node, or to one that is connected."""
        self.messages.append((sender, to, message))

    def send_to_dist_ac(self, sender: Address, name: str, message: Any) -> None:
        """{dist_ac, Node} ! Message, which is lost where there is none."""
        if self.is_reached(sender.node, name) and self.nodes[name].dist_ac is not None:
            self.send(sender, self.nodes[name].address("dist_ac"), message)

    def answer(self, sender: Address, caller: Address, result: Any) -> None:
        """gen_server:reply/2; None is ok."""
        self.send(sender, caller, Answer(result))

    def after(self, time: int, to: Address, message: Any) -> None:
        """Sends a message after so many milliseconds."""
        if time == 0:
            self.send(Address("timer", to.node, to.life), to, message)
        elif time <= LONGEST_TIMER:
            self.count += 1
            self.timers.append(Timer(self.clock + time, self.step, self.count, to, message))

    def last_address(self, name: str) -> Address:
        """The dist_ac of a node's last life."""
        return Address("dist_ac", name, self.boots.get(name, 0))

    def settle(self) -> None:
        """Delivers messages until nothing moves."""
        self.replies.clear()
        while True:
            if self.messages:
                self.deliver()
            elif self.slow:
                self.do_slowly(self.slow.pop(self.chosen(len(self.slow))))
            elif not self.poll() and not self.end_one():
                return

    def chosen(self, count: int) -> int:
        """Which of several things comes next."""
        return self.order.randrange(count) if self.order is not None else 0

    def deliver(self) -> None:
        """Delivers a message."""
        place = 0
        if self.order is not None and len(self.messages) > 1:
            place = self.order.randrange(len(self.messages))
            sender, to, _ = self.messages[place]
            for number, row in enumerate(self.messages):
                if row[1] == to and row[0] == sender:
                    place = number
                    break
        _, to, message = self.messages.pop(place)
        if to.kind == "call":
            call = self.calls[to.life - 1]
            if to.node in self.nodes and self.nodes[to.node].life == call.life:
                call.receive(self, message)
        elif to.node in self.nodes and self.nodes[to.node].life == to.life:
            node = self.nodes[to.node]
            if to.kind == "node":
                self.ends(to.node)
                return
            node.process(to.kind).receive(message)

    def burns(self, name: str, other: str, app: str) -> bool:
        """Counts that a node answers another one's weight of an application, or introduction. Where that has no end it is noted, and the
        answer isn't sent, so that the rest goes on."""
        one, two = sorted((name, other))
        self.replies[one, two, app] += 1
        if self.replies[one, two, app] <= MOST_REPLIES:
            return False
        self.burning.add((one, two, app))
        self.note("burns", one, app, two)
        return True

    def do_slowly(self, what: tuple[str, ...]) -> None:
        """global connects two nodes, or a boot script begins."""
        if what[0] == "connect":
            _, one, two = what
            if one in self.nodes and two in self.nodes:
                self.connect(one, two)
        elif what[1] in self.nodes:
            self.nodes[what[1]].script.receive(Next())

    def poll(self) -> bool:
        """Lets one of those go on that ask for a lock again and again, if one can."""
        ways: list[Any] = []
        for node in self.nodes.values():
            if node.dist_ac is not None:
                ways += node.dist_ac.polls(self.is_ticking or node.dist_ac.address not in self.asleep)
        ways += [lambda call=call: call.poll(self) for call in self.calls
                 if call.stage in ("synchronised", "lock") and (self.is_ticking or call.address not in self.asleep)]
        if self.order is not None:
            self.order.shuffle(ways)
        return any(way() for way in ways)

    def goes_on(self, name: str, app: str) -> bool:
        """Whether a node answers a weight of an application that it doesn't wait for, or introductions."""
        dist_ac = self.nodes[name].dist_ac
        return dist_ac is not None and dist_ac.goes_on(app)

    def rest(self) -> None:
        """A command is over: who waits for a lock that isn't free sleeps on when it becomes free, up to the next command. How long is
        random (global:random_sleep/1), so by another order of messages it may be shorter or longer. And two nodes send one another
        messages no longer where one of them doesn't answer any more."""
        self.burning = {(one, two, app) for one, two, app in self.burning
                        if self.goes_on(one, app) and self.goes_on(two, app)}
        waiting = [(node.dist_ac.address, "sync_dacs", node.dist_ac.stand.nodes) for node in self.nodes.values()
                   if node.dist_ac is not None and isinstance(node.dist_ac.stand, ForLock)]
        waiting += [(call.address, call.requester, call.nodes) for call in self.calls if call.stage == "lock"]
        asleep = [address for address, requester, nodes in waiting if not self.locks.is_free(requester, nodes)]
        if self.order is not None:
            asleep = [address for address in asleep if self.order.random() < 0.5]
            asleep += [address for address, _, _ in waiting if address in self.asleep and self.order.random() < 0.5]
        self.asleep = frozenset(asleep)

    # ---- Nodes

    def boot(self, name: str) -> None:
        """A node begins."""
        file = self.file.nodes[name]
        self.boots[name] = self.boots.get(name, 0) + 1
        node = self.nodes[name] = Node(self, file, self.boots[name])
        permissions = None if file.permissions is None else dict(file.permissions)
        node.controller = ApplicationController(node, permissions)
        node.script = BootScript(node)
        node.sync = KernelConfig(node, file.mandatory, file.optional)
        if file.entries is not None:
            node.dist_ac = DistAc(node, {entry.app: Application(entry, UNDEFINED, {name: (permissions or {}).get(entry.app, True)})
                                         for entry in file.entries})
        node.sync.begin()

    def joins(self, node: Node) -> None:
        """kernel_config:init/1, dist_ac:dist_take_control/1: the node's wait is over, and its boot script goes on."""
        node.is_up = True
        node.tell(Event("up"))
        if node.dist_ac is not None:
            node.controller.controlled = frozenset(node.dist_ac.apps)
            self.send(node.address("kernel_config"), node.address("dist_ac"), Go())
        self.slow.append(("boot", node.name))

    def end_one(self) -> bool:
        """Goes on with a node whose controller has ended: what it runs stops, and the node ends a little later. Where a command
        waits for that, it ends within it."""
        ending = [node for node in self.nodes.values() if node.is_ending and (self.ends_soon or not node.is_stopped)]
        if not ending:
            return False
        node = ending[self.chosen(len(ending))]
        if self.ends_soon:
            self.ends(node.name)
        else:
            node.stop()
            self.after(ENDING_TIME, node.address("node"), None)
        return True

    def ends(self, name: str) -> None:
        """A node ends, and all that were connected with it are told, behind all that it has sent."""
        node = self.nodes.pop(name)
        node.tell(Event("ended"))
        self.locks.node_ends(name)
        self.burning = {row for row in self.burning if name not in row[:2]}
        for other in self.nodes.values():
            if frozenset((name, other.name)) in self.links:
                del self.links[frozenset((name, other.name))]
                if other.dist_ac is not None and (other.is_up or other.dist_ac.monitored):
                    told = other.is_up + other.dist_ac.monitored.count(name)
                    other.dist_ac.monitored = [one for one in other.dist_ac.monitored if one != name]
                    for _ in range(told):
                        self.send(node.address("dist_ac"), other.address("dist_ac"), NodeDown(name))

    # ---- What is done

    def call(self, words: tuple[str, ...]) -> Call:
        """A call at a node."""
        call = Call(len(self.calls) + 1, words, self.nodes[words[1]].life)
        self.calls.append(call)
        call.begin(self)
        return call

    def tick(self, time: int) -> None:
        """Lets time pass. Of timers that are due at once, those of an earlier command fire first, since commands take time, too;
        those of one command may fire in any order."""
        end = self.clock + time
        self.is_ticking = True
        self.settle()
        while self.timers and (first := min(self.timers)).due <= end:
            self.clock = first.due
            firing = sorted(timer for timer in self.timers if timer[:2] == first[:2])
            self.timers = [timer for timer in self.timers if timer[:2] != first[:2]]
            if self.order is not None:
                self.order.shuffle(firing)
            for timer in firing:
                self.send(Address("timer", timer.to.node, timer.to.life), timer.to, timer.message)
                if self.order is not None and self.order.random() < 0.5:
                    self.settle()
            self.settle()
        self.clock, self.is_ticking = end, False
