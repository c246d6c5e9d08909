"""dist_ac:start_appl/3: at which node an application is to run, and the waits until it does."""
from typing import Any, Optional

from rehearse_tools.otp25.dist_ac_state import (LOCAL, RUN_WAITING, UNDEFINED, Attempt, DistAcState, ForAnyStart, ForStart,
                                                ForWeight, PermitCall, Standing)
from rehearse_tools.otp25.messages import Change, NodeDown, Reply, StartRequest, Weight


class Placing(DistAcState):
    """The part of a dist_ac that starts applications."""

    __slots__ = ()

    def start_request(self, asked: StartRequest) -> None:
        """handle_info({ac_start_application_req, ..}): with the lock of its own node, which it asks for once."""
        if not self.node.system.locks.take(self.requester, self.address, (self.node.name,)):
            self.parked.append(asked.app)
            return
        self.start_appl(asked.app, "reply")

    @property
    def requester(self) -> str:
        """Who asks for the lock {dist_ac, self()}."""
        return f"dist_ac {self.node.name} {self.node.life}"

    def start_appl(self, app: str, kind: str, permit: Optional[PermitCall] = None) -> None:
        """start_appl/3"""
        appl = self.apps[app]
        permitted = frozenset(node for node, allowed in appl.run.items() if allowed)
        attempt = Attempt(app, kind, permitted, permit)
        if appl.standing == LOCAL:
            self.after(attempt, False)
        else:
            self.start_distributed(attempt)

    def start_distributed(self, attempt: Attempt) -> None:
        """start_distributed/6 with find_start_node/4: which node is to run it?"""
        entry = self.apps[attempt.app].entry
        candidates = tuple(node for node in entry.backwards if node in attempt.permitted)
        if self.node.name in candidates:
            self.find_start_node(attempt, 0, candidates)
        elif runner := self.remote(attempt.app):
            self.runs_elsewhere(attempt, runner)
        elif candidates:
            self.node.system.note("forbidden-waits", self.node.name, attempt.app)
            self.waits(ForAnyStart(attempt))
        else:
            self.tell_controller(attempt, "not_started", None)
            self.finish(attempt, UNDEFINED, False)

    def find_start_node(self, attempt: Attempt, place: int, candidates: tuple[str, ...]) -> None:
        """find_start_node/5, from a place of the list on"""
        app = self.apps[attempt.app]
        for number in range(place, len(app.entry.groups)):
            group = app.entry.groups[number]
            if isinstance(group, tuple):
                runner = self.check_running(attempt.app, [node for node in group if node in candidates])
                if runner:
                    self.runs_elsewhere(attempt, runner)
                else:
                    self.ask_weights(attempt, number, candidates)
                return
            if group in candidates:
                if app.standing == ("distributed", group) or self.remote(attempt.app) == group:
                    self.runs_elsewhere(attempt, group)
                else:
                    self.is_to_start(attempt, group)
                return
        self.waits(ForAnyStart(attempt))

    def check_running(self, app: str, group: list[str]) -> Optional[str]:
        """check_running/3: the node of a tuple at which it runs"""
        runner = self.remote(app)
        standing = self.apps[app].standing
        if runner is None and standing[0] == "distributed":
            runner = standing[1]
        return runner if runner in group else None

    def ask_weights(self, attempt: Attempt, place: int, candidates: tuple[str, ...]) -> None:
        """find_any_node/5: all candidates of the whole list are told its weight, and theirs is waited for."""
        weight, name = self.cached_weight(attempt.app), self.node.name
        for node in reversed(candidates):
            if node != name:
                self.send(node, Weight(attempt.app, weight, name))
        self.collect_answers(ForWeight(attempt, place, candidates, ((weight, name),), candidates))

    def collect_answers(self, stand: ForWeight) -> None:
        """collect_answers/4. An answer that came before stays in tmp_locals, and counts for the next tuple, too."""
        answers = stand.answers
        for number, node in enumerate(stand.nodes):
            if node == self.node.name:
                continue
            kept = next((told for told in self.tmp_locals if told.node == node), None)
            if kept is None or kept.app != stand.attempt.app:
                self.monitor(node)
                self.waits(stand._replace(answers=answers, nodes=stand.nodes[number:]))
                return
            answers += ((kept.weight, node),)
        group = self.apps[stand.attempt.app].entry.groups[stand.place]
        chosen = next((node for _, node in sorted(answers) if node in group and node in self.known), None)
        if chosen is None:
            self.find_start_node(stand.attempt, stand.place + 1, stand.candidates)
        else:
            weights = {node: weight for weight, node in answers}
            told = " ".join(f"{node} {weights.get(node, 0)}" for node in group)
            self.node.system.note("chosen", chosen, stand.attempt.app, told)
            self.is_to_start(stand.attempt, chosen)

    def weighed(self, stand: ForWeight, message: Any) -> None:
        """A node has told its weight, or is down."""
        node, *rest = stand.nodes
        self.demonitor(node)
        answers = stand.answers + (((message.weight, node),) if isinstance(message, Weight) else ())
        self.collect_answers(stand._replace(answers=answers, nodes=tuple(rest)))

    def is_to_start(self, attempt: Attempt, node: str) -> None:
        """start_distributed/6: this node is to run it."""
        standing = self.apps[attempt.app].standing
        if node != self.node.name:
            if standing == ("distributed", node):
                self.runs_elsewhere(attempt, node)
            else:
                self.monitor(node)
                self.waits(ForStart(attempt, node))
            return
        if standing[0] == "failover" and attempt.type == "req":
            self.tell_controller(attempt, "failover", standing[1])
        elif standing[0] == "distributed" and attempt.type == "req":
            self.tell_controller(attempt, "takeover", standing[1])
        elif attempt.type == "reply" and (runner := self.remote(attempt.app)):
            self.tell_controller(attempt, "takeover", runner)
        else:
            self.tell_controller(attempt, "start_it", None)
        self.finish(attempt, RUN_WAITING, True)

    def runs_elsewhere(self, attempt: Attempt, node: str) -> None:
        """start_distributed/6: it runs at another node."""
        self.tell_controller(attempt, "started", node)
        self.finish(attempt, ("distributed", node), False)

    def started_there(self, stand: ForStart, message: Any) -> None:
        """wait_dist_start/7"""
        attempt = stand.attempt
        self.demonitor(stand.node)
        if isinstance(message, Weight):
            self.send(stand.node, Weight(attempt.app, self.cached_weight(attempt.app), self.node.name))
            self.monitor(stand.node)
            self.waits(stand)
        else:
            self.started_anywhere(ForAnyStart(attempt), message)

    def started_anywhere(self, stand: ForAnyStart, message: Any) -> None:
        """wait_dist_start2/6"""
        attempt = stand.attempt
        if isinstance(message, NodeDown):
            self.tmp_locals = [told for told in self.tmp_locals if (told.app, told.node) != (attempt.app, message.node)]
            self.start_distributed(attempt._replace(permitted=attempt.permitted - {message.node}))
        elif message.error is None:
            self.runs_elsewhere(attempt, message.node)
        else:
            if attempt.type == "reply":
                self.tell_controller(attempt, "error", (message.node, message.error))
            self.finish(attempt, self.apps[attempt.app].standing, False)

    def tell_controller(self, attempt: Attempt, what: str, detail: Any) -> None:
        """ac_start_it/2, ac_started/3, ac_takeover/4, ac_failover/3, ac_not_started/2, ac_error/3"""
        if attempt.type == "reply":
            self.to_controller(Reply(attempt.app, what, detail))
        elif what == "not_started":
            self.to_controller(Change(attempt.app, "stop_it"))
        else:
            self.to_controller(Change(attempt.app, what, detail))

    def finish(self, attempt: Attempt, standing: Standing, is_waiting: bool) -> None:
        """The end of start_appl/3"""
        app = attempt.app
        self.apps[app].standing = standing
        self.tmp_locals = [told for told in self.tmp_locals if told.app != app]
        self.tmp_weights.pop(app, None)
        self.forget_remote(app)
        if app not in self.started:
            self.started.insert(0, app)
        self.after(attempt, is_waiting)

    def after(self, attempt: Attempt, is_waiting: bool) -> None:
        """What the one who asked for the start does behind it."""
        self.stand = None
        if attempt.type == "reply":
            self.node.system.locks.free(self.requester, self.address)
        elif attempt.permit is not None:
            self.permitted(attempt, attempt.permit, is_waiting)

    def permitted(self, attempt: Attempt, before: PermitCall, is_waiting: bool) -> None:
        """permit/6, behind the start: where nothing is started here the state is the one before."""
        if is_waiting:
            self.node.system.locks.free(f"call {before.caller.life}", before.caller)
            self.t_reqs.insert(0, (attempt.app, before.caller))
            return
        self.apps[attempt.app].standing = before.standing
        self.remote_started, self.started = list(before.remote_started), list(before.started)
        self.tmp_locals, self.tmp_weights = list(before.tmp_locals), dict(before.tmp_weights)
        self.answer(before.caller, None)
