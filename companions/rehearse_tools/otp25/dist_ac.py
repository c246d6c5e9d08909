"""dist_ac: where the distributed applications run, as one node sees it. Each rule names the function that it restates.

A dist_ac handles one message at a time. Within one it may have to wait for another one: then it stands in one of the waits of
dist_ac_state.py, and all else stays in its mailbox. That is why one start that waits for good blocks all that comes behind it.
"""
from functools import partial
from typing import Any, Callable, Optional

from rehearse_tools.otp25.dist_ac_state import (INTRODUCTIONS, LOCAL, RUN_WAITING, TAKEOVER, UNDEFINED, ForAnyStart, ForGo,
                                                ForIntroduction, ForLock, ForStart, ForWeight, PermitCall)
from rehearse_tools.otp25.messages import (Address, AppStarted, AppStopped, Change, GetNodes, Go, NewNode, NewPermission,
                                           NodeDown, NotRun, PermitDistributed, Restart, Run, StartRequest, TakeOver, Weight)
from rehearse_tools.otp25.placing import Placing


class DistAc(Placing):
    """The state of a dist_ac, its mailbox, and where it stands (None: it waits for any message)."""

    __slots__ = ()

    # ---- The mailbox

    def receive(self, message: Any) -> None:
        """Puts a message into the mailbox, and goes on as far as it can."""
        self.box.append(message)
        self.work()

    def work(self) -> None:
        """Handles what can be handled of the mailbox."""
        while self.box:
            stand = self.stand
            if stand is None:
                message = self.box.pop(0)
                HANDLERS[type(message)](self, message)
                continue
            place = next((place for place, message in enumerate(self.box) if stand.takes(message)), None)
            if place is None:
                return
            message = self.box.pop(place)
            self.stand = None
            RESUMED[type(stand)](self, stand, message)

    def polls(self, is_awake: bool) -> list[Callable[[], bool]]:
        """What it tries again and again: to get a lock."""
        if isinstance(self.stand, ForLock):
            return [self.take_lock] if is_awake else []
        if self.stand is None and self.parked and self.node.system.locks.is_free(self.requester, (self.node.name,)):
            return [partial(self.unpark, app) for app in self.parked]
        return []

    def unpark(self, app: str) -> bool:
        """A start request that found the lock held is sent again."""
        self.parked.remove(app)
        self.receive(StartRequest(app))
        return True

    # ---- sync_dacs/1

    def go(self, _stand: ForGo, _message: Go) -> None:
        """handle_cast(init_sync, ..): it asks for the lock of all nodes that it sees now."""
        name = self.node.name
        self.waits(ForLock((name, *self.node.system.connected_to(name))))
        self.take_lock()

    def take_lock(self) -> bool:
        """Takes the lock {dist_ac, sync_dacs} where it is free: all that synchronise have it together."""
        stand = self.stand
        alive = tuple(node for node in stand.nodes if node in self.node.system.nodes)
        if not self.node.system.locks.take("sync_dacs", self.address, alive):
            return False
        self.introduce_me()
        return True

    def introduce_me(self) -> None:
        """introduce_me/2: to all nodes that it sees and that have a dist_ac."""
        system, name = self.node.system, self.node.name
        nodes = tuple(other for other in system.connected_to(name) if system.nodes[other].dist_ac is not None)
        for other in nodes:
            self.send(other, NewNode(name, self.permissions(), ()))
        self.wait_dacs(ForIntroduction(nodes, (name,), ()))
        self.work()

    def wait_dacs(self, stand: ForIntroduction) -> None:
        """wait_dacs/4"""
        if stand.nodes:
            self.monitor(stand.nodes[0])
            self.waits(stand)
            return
        self.node.system.locks.free("sync_dacs", self.address)
        self.known, self.remote_started = list(stand.known), list(stand.remote_started)
        self.is_synchronised = True
        self.stand = None

    def introduced(self, stand: ForIntroduction, message: Any) -> None:
        """A node has told what it knows, or is down."""
        node, *rest = stand.nodes
        self.demonitor(node)
        if isinstance(message, NewNode):
            self.merge(message)
            self.wait_dacs(ForIntroduction(tuple(rest), (node, *stand.known), stand.remote_started + message.started))
        else:
            self.wait_dacs(ForIntroduction(tuple(rest), stand.known, stand.remote_started))

    def permissions(self) -> dict[str, Optional[bool]]:
        """What it tells others of its applications: whether it may run them."""
        return {name: app.run.get(self.node.name) for name, app in self.apps.items()}

    def merge(self, told: NewNode) -> None:
        """dist_merge/3"""
        for name, app in self.apps.items():
            if name in told.permissions:
                app.run[told.node] = told.permissions[name]

    def new_node(self, told: NewNode) -> None:
        """handle_info({dist_ac_new_node, ..}); an answer to what nobody waits for any more is dropped. But one of a node that runs nothing
        is taken for an introduction, and answered again: so two nodes of which neither runs anything never end."""
        if told.started:
            return
        mine = tuple((self.node.name, name) for name, app in self.apps.items() if app.standing == LOCAL)
        if mine or not self.node.system.burns(self.node.name, told.node, INTRODUCTIONS):
            self.send(told.node, NewNode(self.node.name, self.permissions(), mine))
        self.merge(told)
        self.known.insert(0, told.node)

    # ---- What the controller tells

    def run(self, told: Run) -> None:
        """handle_info({ac_application_run, ..})"""
        self.send_all(self.known, AppStarted(self.node.name, told.app, told.error))
        self.del_t_reqs(told.app, told.error)
        self.apps[told.app].standing = LOCAL if told.error is None else UNDEFINED

    def not_run(self, told: NotRun) -> None:
        """handle_info({ac_application_not_run, ..}) and handle_info({ac_application_stopped, ..})"""
        app = told.app
        self.del_t_reqs(app, ("stopped",))
        for asked, caller in self.s_reqs:
            if asked == app:
                self.answer(caller, None)
        self.s_reqs = [(asked, caller) for asked, caller in self.s_reqs if asked != app]
        standing = self.apps[app].standing
        if standing == LOCAL:
            self.send_all(self.known, AppStopped(app))
        elif standing[0] == "distributed":
            self.remote_started.insert(0, (standing[1] or "", app))
        self.apps[app].standing = UNDEFINED
        if told.is_stopped and app in self.started:
            self.started.remove(app)

    # ---- What other nodes tell

    def app_started(self, told: AppStarted) -> None:
        """handle_info({dist_ac_app_started, ..})"""
        if told.app not in self.apps or told.app not in self.started:
            self.remote_started.insert(0, (told.node, told.app))
            return
        self.to_controller(Change(told.app, "started", told.node))
        self.apps[told.app].standing = ("distributed", told.node) if told.error is None else UNDEFINED
        self.tmp_weights.pop(told.app, None)
        for app, caller, _ in self.p_reqs:
            if app == told.app:
                self.answer(caller, None)
        self.p_reqs = [row for row in self.p_reqs if row[0] != told.app]

    def app_stopped(self, told: AppStopped) -> None:
        """handle_info({dist_ac_app_stopped, ..})"""
        if told.app in self.apps:
            self.apps[told.app].standing = UNDEFINED
        self.forget_remote(told.app)

    def goes_on(self, app: str) -> bool:
        """Whether it answers a weight of an application that it doesn't wait for; or introductions without end."""
        if app == INTRODUCTIONS:
            return all(one.standing != LOCAL for one in self.apps.values())
        standing = self.apps[app].standing if app in self.apps else UNDEFINED
        return standing != UNDEFINED and standing[0] != "failover"

    def weight(self, told: Weight) -> None:
        """handle_info({dist_ac_weight, ..}): one that is left over is answered again, and so is the answer."""
        standing = self.apps[told.app].standing if told.app in self.apps else UNDEFINED
        if not self.goes_on(told.app):
            self.tmp_locals.insert(0, told)
        elif self.node.system.burns(self.node.name, told.node, told.app):
            return
        elif standing == RUN_WAITING:
            self.send(told.node, Weight(told.app, 0, self.node.name))
        else:
            mine = self.cached_weight(told.app)
            self.send(told.node, Weight(told.app, mine, self.node.name))
            self.tmp_weights[told.app] = mine

    def node_down(self, told: NodeDown) -> None:
        """handle_info({nodedown, ..})"""
        lost = []
        for name, app in self.apps.items():
            if app.standing == ("distributed", told.node):
                if app.run.get(self.node.name):
                    app.standing = ("failover", told.node)
                    lost.append(app)
                else:
                    self.to_controller(Change(name, "not_running"))
                    app.standing = UNDEFINED
            app.run.pop(told.node, None)
        self.remote_started = [row for row in self.remote_started if row[0] != told.node]
        self.check_waiting(told.node)
        if told.node in self.known:
            self.known.remove(told.node)
        for app in reversed(lost):
            app.losses += 1
            self.node.system.after(app.entry.timeout, self.address, Restart(app.entry.app, app.losses))

    def check_waiting(self, node: str) -> None:
        """check_waiting/6. It swaps two arguments behind each request that waits for others, so every second one keeps the node."""
        kept: list[tuple[str, Address, tuple[str, ...]]] = []
        for number, (app, caller, nodes) in enumerate(self.p_reqs):
            left = tuple(other for other in nodes if other != node) if number % 2 == 0 else nodes
            if left:
                kept.insert(0, (app, caller, left))
            else:
                self.to_controller(Change(app, "stop_it"))
                self.s_reqs.insert(0, (app, caller))
        self.p_reqs = kept

    def restart(self, told: Restart) -> None:
        """handle_info({internal_restart_appl, ..}), restart_appl/2. A timer isn't cancelled when the application runs again."""
        app = self.apps[told.app]
        if app.standing[0] == "failover":
            if told.loss != app.losses:
                self.node.system.note("old-timer", self.node.name, told.app)
            self.start_appl(told.app, "req")

    def new_permission(self, told: NewPermission) -> None:
        """handle_info({dist_ac_new_permission, ..})"""
        if told.app not in self.apps:
            return
        run = self.apps[told.app].run
        run[told.node] = told.allow
        if not told.allow and told.is_his and run.get(self.node.name):
            self.start_appl(told.app, "req")

    # ---- Calls

    def take_over(self, asked: TakeOver) -> None:
        """handle_call({takeover_application, ..})"""
        standing = self.apps[asked.app].standing if asked.app in self.apps else UNDEFINED
        if standing[0] == "distributed":
            self.to_controller(Change(asked.app, "takeover", standing[1], asked.restart))
            self.apps[asked.app].standing = TAKEOVER
            self.t_reqs.insert(0, (asked.app, asked.caller))
        elif standing == LOCAL:
            self.answer(asked.caller, ("already_running_locally", asked.app))
        else:
            self.answer(asked.caller, ("not_running_distributed", asked.app))

    def get_nodes(self, asked: GetNodes) -> None:
        """handle_call({get_nodes, ..})"""
        nodes = self.apps[asked.app].entry.backwards if asked.app in self.apps else ()
        self.answer(asked.caller, ("nodes", tuple(node for node in nodes if node in self.known)))

    def permit(self, asked: PermitDistributed) -> None:
        """handle_call({permit_application, ..}), permit/6"""
        app = self.apps[asked.app]
        app.run[self.node.name] = asked.allow
        self.send_all(app.entry.backwards, NewPermission(self.node.name, asked.app, asked.allow, app.standing == LOCAL))
        runnable = tuple(node for node, allowed in app.run.items() if allowed)
        if asked.only_loaded or asked.allow and app.standing == LOCAL:
            self.answer(asked.caller, None)
        elif asked.allow:
            before = PermitCall(asked.caller, app.standing, tuple(self.remote_started), tuple(self.started),
                                tuple(self.tmp_locals), tuple(self.tmp_weights.items()))
            self.start_appl(asked.app, "req", before)
        elif app.standing == UNDEFINED or app.standing[0] == "distributed":
            self.answer(asked.caller, None)
        elif runnable:
            self.p_reqs.insert(0, (asked.app, asked.caller, runnable))
        else:
            self.to_controller(Change(asked.app, "stop_it"))
            self.s_reqs.insert(0, (asked.app, asked.caller))


HANDLERS: dict[type, Callable[[DistAc, Any], None]] = {
    StartRequest: DistAc.start_request, Run: DistAc.run, NotRun: DistAc.not_run, NewNode: DistAc.new_node,
    AppStarted: DistAc.app_started, AppStopped: DistAc.app_stopped, Weight: DistAc.weight, NodeDown: DistAc.node_down,
    Restart: DistAc.restart, NewPermission: DistAc.new_permission, TakeOver: DistAc.take_over, GetNodes: DistAc.get_nodes,
    PermitDistributed: DistAc.permit}
RESUMED: dict[type, Callable[[DistAc, Any, Any], None]] = {
    ForGo: DistAc.go, ForIntroduction: DistAc.introduced, ForWeight: DistAc.weighed, ForStart: DistAc.started_there,
    ForAnyStart: DistAc.started_anywhere}
