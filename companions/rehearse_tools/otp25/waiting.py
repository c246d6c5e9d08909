"""Who waits for whom behind a command: what hangs, why, what else that blocks, and whether time alone ends it."""
from dataclasses import dataclass
from typing import Any, Optional

from rehearse_tools.otp25.dist_ac import DistAc
from rehearse_tools.otp25.dist_ac_state import ForAnyStart, ForGo, ForIntroduction, ForLock, ForStart, ForWeight
from rehearse_tools.otp25.processes import Call
from rehearse_tools.otp25.system import Node, System

# So many timers are let pass to see whether a wait ends by them.
MOST_TIMERS = 100


@dataclass(frozen=True)
class Wait:
    """A process that waits. `key` tells it from others, also behind a later command."""
    key: tuple[Any, ...]
    node: str
    process: str
    text: str
    blocks: tuple[str, ...]
    # The clock at which it ends by itself; None: it doesn't.
    ends: Optional[int]

    @property
    def line(self) -> str:
        """The wait as it is told."""
        return f"{self.node}: {self.process} {self.text}" if self.node else f"{self.process} {self.text}"


def is_open(system: System) -> bool:
    """Whether some process waits for another one at all."""
    return (any(node.dist_ac is not None and stands(node.dist_ac) for node in system.nodes.values())
            or any(call.is_open and lives(system, call) for call in system.calls))


def waits_in(system: System) -> list[Wait]:
    """All that waits: each dist_ac that stands in the middle of something, and each call that nothing of this explains."""
    if not is_open(system):
        return []
    found: list[tuple[tuple[Any, ...], str, str, str, tuple[str, ...]]] = [
        (("dist_ac", node.name, node.life, node.dist_ac.stand), node.name, "dist_ac", text_of(system, node.dist_ac),
         blocked_by(system, node.dist_ac))
        for node in system.nodes.values() if node.dist_ac is not None and stands(node.dist_ac)]
    found += [(("call", call.number), "", " ".join(call.words), call_text(system, call), ())
              for call in system.calls if call.is_open and lives(system, call) and cause_of(system, call) is None]
    return [Wait(*row, ends_at(system, row[0])) for row in found]


def stands(dist_ac: DistAc) -> bool:
    """Whether a dist_ac waits for another process. That it waits for its own node's start isn't told, nor that it sleeps before it
    asks again for a lock that is free now."""
    if isinstance(dist_ac.stand, ForLock):
        return not dist_ac.node.system.locks.is_free("sync_dacs", dist_ac.stand.nodes)
    return dist_ac.stand is not None and not isinstance(dist_ac.stand, ForGo)


def lives(system: System, call: Call) -> bool:
    """Whether the node of a call is still alive, and it doesn't only sleep before it asks again for a lock that is free now."""
    node = system.nodes.get(call.node)
    is_alive = node is not None and node.life == call.life and not node.is_stopped
    return is_alive and not (call.stage == "lock" and system.locks.is_free(call.requester, call.nodes))


# ---- For whom


def text_of(system: System, dist_ac: DistAc) -> str:
    """For what a dist_ac waits, and why that doesn't come."""
    stand = dist_ac.stand
    if isinstance(stand, ForLock):
        return f"waits for the lock of dist_ac, which {holder_of(system, 'sync_dacs', stand.nodes)} has"
    if isinstance(stand, ForIntroduction):
        return f"waits for {stand.nodes[0]} to introduce itself ({why_silent(system, stand.nodes[0])})"
    app = stand.attempt.app
    if isinstance(stand, ForAnyStart):
        return f"waits until another node starts {app}, which is forbidden here"
    if isinstance(stand, ForStart):
        return f"waits for {stand.node} to start {app} ({why_unstarted(system, stand.node, app)})"
    return f"waits for {stand.nodes[0]} to tell its weight for {app} ({why_unstarted(system, stand.nodes[0], app)})"


def runners(system: System, app: str) -> list[str]:
    """The nodes at which an application runs."""
    return [node.name for node in system.nodes.values() if node.controller.runs_here(app)]


def holds(node: Node, app: str) -> bool:
    """Whether an application is started at a node, or is being started there."""
    controller = node.controller
    return any(app == row[0] for row in controller.started + controller.starting)


def why_silent(system: System, name: str) -> str:
    """Why a node doesn't introduce itself."""
    node = system.nodes[name]
    return "it waits for its own nodes still" if not node.is_up else "its dist_ac waits, too"


def why_unstarted(system: System, name: str, app: str) -> str:
    """Why a node doesn't start an application, or doesn't tell its weight."""
    node = system.nodes.get(name)
    if node is None:
        return "it isn't alive"
    if not node.is_up:
        return "it waits for its own nodes still"
    timer = next((timer.due for timer in sorted(system.timers)
                  if timer.to == node.address("dist_ac") and getattr(timer.message, "app", None) == app), None)
    if node.dist_ac is not None and stands(node.dist_ac):
        return "its dist_ac waits, too"
    if runs := runners(system, app):
        return f"it never will: {app} runs at {', '.join(runs)}"
    if timer is not None:
        return f"its failover timer is over at {timer}"
    return "it is stopped there, and nothing starts it" if holds(node, app) else "it isn't started there"


def holder_of(system: System, requester: str, nodes: tuple[str, ...]) -> str:
    """Who has the lock that somebody asks for at these nodes."""
    for name in nodes:
        lock = system.locks.held.get(name)
        if lock is not None and lock.requester != requester:
            owner = lock.owners[0]
            return " ".join(system.calls[owner.life - 1].words) if owner.kind == "call" else f"the dist_ac of {owner.node}"
    return "nobody"


def cause_of(system: System, call: Call) -> Optional[str]:
    """The node whose dist_ac makes a call wait, where one does."""
    if call.stage == "lock":
        for name in call.nodes:
            lock = system.locks.held.get(name)
            if lock is not None and lock.requester != call.requester and lock.owners[0].kind == "dist_ac":
                return lock.owners[0].node
            if lock is not None and lock.owners[0].kind == "call" and lock.owners[0] != call.address:
                return cause_of(system, system.calls[lock.owners[0].life - 1])
        return None
    dist_ac = system.nodes[call.node].dist_ac
    return call.node if dist_ac is not None and stands(dist_ac) else None


def call_text(system: System, call: Call) -> str:
    """For what a call waits that no dist_ac keeps waiting."""
    dist_ac = system.nodes[call.node].dist_ac
    if call.stage == "synchronised" and dist_ac is None:
        return f"waits for the dist_ac of {call.node}, which has none without `distributed`"
    if call.stage == "lock":
        return f"waits for the lock of dist_ac, which {holder_of(system, call.requester, call.nodes)} has"
    if dist_ac is not None and (row := next((row for row in dist_ac.p_reqs if row[1] == call.address), None)):
        return f"waits until one of {', '.join(sorted(row[2]))} starts {call.app}"
    return f"waits for the start of {call.app} at {call.node}"


# ---- What else waits


def blocked_by(system: System, dist_ac: DistAc) -> tuple[str, ...]:
    """What a dist_ac that waits keeps from going on."""
    name, node = dist_ac.node.name, dist_ac.node
    found = []
    at = node.script.is_at
    if node.is_up and at in dist_ac.apps:
        behind = f", behind it {', '.join(node.script.behind)}" if node.script.behind else ""
        found.append(f"the boot script of {name}, which stands at {at}{behind}")
    found += [f"{' '.join(call.words)} (no answer)" for call in system.calls
              if call.is_open and lives(system, call) and cause_of(system, call) == name]
    held = [other for other, lock in system.locks.held.items() if lock.owners[0].node == name or is_asked_by(system, lock, name)]
    if held:
        seen = [other for other in system.nodes if other in held or any(frozenset((other, one)) in system.links for one in held)]
        found.append(f"permit at {', '.join(seen)}, and the distributed applications of a node that boots: they ask for the lock "
                     f"that is held at {', '.join(held)}")
    standby = [app for app, appl in dist_ac.apps.items() if app != stands_for(dist_ac) and name in appl.entry.nodes
               and appl.run.get(name) and runs_apart(system, app, name)]
    if standby:
        found.append(f"failovers to {name}: {', '.join(standby)}")
    return tuple(found)


def is_asked_by(system: System, lock: Any, name: str) -> bool:
    """Whether a lock is held by a call that this node's dist_ac works at."""
    owner = lock.owners[0]
    return owner.kind == "call" and cause_of(system, system.calls[owner.life - 1]) == name


def stands_for(dist_ac: DistAc) -> Optional[str]:
    """The application for which a dist_ac waits."""
    return dist_ac.stand.attempt.app if isinstance(dist_ac.stand, (ForAnyStart, ForStart, ForWeight)) else None


def runs_apart(system: System, app: str, name: str) -> bool:
    """Whether an application runs at another node than this one, or nowhere."""
    return runners(system, app) != [name]


# ---- Does time end it?


def ends_at(system: System, key: tuple[Any, ...]) -> Optional[int]:
    """The clock at which a wait ends where nothing is done and only timers fire; None: it doesn't end."""
    later = system.copy()
    later.order, later.ends_soon = None, False
    for _ in range(MOST_TIMERS):
        if not later.timers:
            return None
        later.tick(min(timer.due for timer in later.timers) - later.clock)
        if not is_there(later, key):
            return later.clock
    return None


def is_there(system: System, key: tuple[Any, ...]) -> bool:
    """Whether a wait is still there."""
    if key[0] == "call":
        return bool(system.calls[key[1] - 1].is_open)
    node = system.nodes.get(key[1])
    return node is not None and node.life == key[2] and node.dist_ac is not None and node.dist_ac.stand == key[3]
