"""application_controller: what is started and what runs at one node. Each rule names the function that it restates."""
from dataclasses import dataclass, field, replace
from typing import TYPE_CHECKING, Any, Callable, Optional

from rehearse_tools.otp25.messages import (Address, Change, Event, NotRun, Permit, Reply, Run, Start, Started, StartRequest, Stop,
                                           TopEnds)

if TYPE_CHECKING:
    from rehearse_tools.otp25.system import Node

NORMAL = ("normal",)
# What stands in `running` for an application: it runs here, or {distributed, Node}, or {distributed, []}.
HERE = ("here",)
NOWHERE = ("nowhere",)


@dataclass(slots=True)
class ApplicationController:
    """The lists of its state stand as in OTP: what is new stands in front."""
    node: "Node"
    permissions: Optional[dict[str, bool]]
    controlled: frozenset[str] = frozenset()
    running: list[tuple[str, tuple[str, ...]]] = field(default_factory=list)
    starting: list[tuple[str, str, tuple[str, ...]]] = field(default_factory=list)
    started: list[tuple[str, str]] = field(default_factory=list)
    start_p_false: list[tuple[str, str]] = field(default_factory=list)
    start_req: list[tuple[str, Optional[Address]]] = field(default_factory=list)

    def copy(self, node: "Node") -> "ApplicationController":
        """The same state at another node's value."""
        return replace(self, node=node, permissions=None if self.permissions is None else dict(self.permissions),
                       running=list(self.running), starting=list(self.starting), started=list(self.started),
                       start_p_false=list(self.start_p_false), start_req=list(self.start_req))

    @property
    def address(self) -> Address:
        return Address("controller", self.node.name, self.node.life)

    def receive(self, message: Any) -> None:
        """Handles a message. One that is ending handles none."""
        if not self.node.is_ending:
            HANDLERS[type(message)](self, message)

    def weight(self) -> int:
        """length(application:which_applications()), with kernel, stdlib and the rest of the platform."""
        return len(self.node.file.platform) + sum(place == HERE for _, place in self.running)

    def runs_here(self, app: str) -> bool:
        """Whether an application has its processes here."""
        return (app, HERE) in self.running

    # ---- handle_call

    def start(self, asked: Start) -> None:
        """handle_call({start_application, ..}), check_start_cond/4"""
        app = asked.app
        if find(self.start_req, app):
            self.start_req.insert(0, (app, asked.caller))
        elif find(self.running, app):
            self.reply(asked.caller, ("already_started", app))
        elif missing := next((need for need in self.needs(app) if not find(self.started, need)), None):
            self.node.system.note("needs", self.node.name, app, missing)
            self.reply(asked.caller, ("not_started", missing))
        elif app not in self.controlled and (self.permissions or {}).get(app) is False:
            self.start_p_false.insert(0, (app, asked.restart))
            self.reply(asked.caller, None)
        else:
            if not self.control(app, StartRequest(app)):
                self.spawn_starter(app, NORMAL)
            self.starting.insert(0, (app, asked.restart, NORMAL))
            self.start_req.insert(0, (app, asked.caller))

    def stop(self, asked: Stop) -> None:
        """handle_call({stop_application, ..})"""
        runs, is_started = find(self.running, asked.app), find(self.started, asked.app)
        if not runs and not is_started:
            self.reply(asked.caller, ("not_started", asked.app))
            return
        if runs:
            self.stop_appl(*runs)
            self.running.remove(runs)
        delete(self.started, asked.app)
        self.control(asked.app, NotRun(asked.app, True))
        self.reply(asked.caller, None)

    def permit(self, asked: Permit) -> None:
        """handle_call({permit_application, ..})"""
        app = asked.app
        runs, is_started = find(self.running, app), find(self.started, app)
        if app in self.controlled:
            self.update_permissions(app, asked.allow)
            only_loaded = not is_started and not find(self.starting, app)
            self.reply(asked.caller, ("only_loaded" if only_loaded else "started",))
            return
        if runs:
            if not asked.allow:
                # The permission isn't kept.
                self.stop_appl(*runs)
                self.running.remove(runs)
            self.reply(asked.caller, None)
            return
        self.update_permissions(app, asked.allow)
        waits = find(self.start_p_false, app)
        if is_started:
            waits = is_started
            if asked.allow:
                self.started.remove(is_started)
        elif waits:
            self.start_p_false.remove(waits)
        if asked.allow and waits:
            self.spawn_starter(app, NORMAL)
            self.starting.insert(0, (app, waits[1], NORMAL))
            self.start_req.insert(0, (app, asked.caller))
        else:
            self.reply(asked.caller, None)

    # ---- What the starter and dist_ac answer

    def application_started(self, told: Started) -> None:
        """handle_application_started/3"""
        self.has_started(told.app, HERE, told.error)

    def has_started(self, app: str, place: tuple[str, ...], error: Any) -> None:
        """The same, also for one that runs elsewhere."""
        self.reply_to_requester(app, error)
        starting = find(self.starting, app)
        if starting is None:
            return
        self.starting.remove(starting)
        if error is None:
            if place == HERE:
                self.control(app, Run(app, None))
            replace_or_add(self.running, (app, place))
            replace_or_add(self.started, (app, starting[1]))
        else:
            self.control(app, Run(app, error))
            # {application_start_failure, ..}: the node ends.
            self.node.is_ending = starting[1] != "temporary"

    def start_reply(self, told: Reply) -> None:
        """handle_info({ac_start_application_reply, ..})"""
        starting = find(self.starting, told.app)
        if starting is None:
            return
        app, restart, kind = starting
        if told.what == "start_it":
            self.spawn_starter(app, kind)
        elif told.what == "started":
            self.has_started(app, ("elsewhere", told.detail), None)
        elif told.what == "not_started":
            self.reply_to_requester(app, None)
            self.starting.remove(starting)
            self.started.insert(0, (app, restart))
        elif told.what == "takeover":
            self.starting.remove(starting)
            self.starting.insert(0, (app, restart, ("takeover", told.detail)))
            self.spawn_starter(app, ("takeover", told.detail))
        else:
            self.reply_to_requester(app, told.detail)
            if restart == "permanent":
                self.node.is_ending = True
            else:
                self.starting.remove(starting)

    # ---- handle_info({ac_change_application_req, ..})

    def change(self, told: Change) -> None:
        """dist_ac wants a change of an application that is started and runs somewhere, or else."""
        runs, is_started = find(self.running, told.app), find(self.started, told.app)
        if runs and is_started:
            self.change_running(told, runs)
        elif told.what == "started":
            delete(self.running, told.app)
            self.running.insert(0, (told.app, ("elsewhere", told.node or "")))
        elif told.what == "start_it" and not runs and is_started:
            self.do_start(told.app, None, NORMAL)
            delete(self.started, told.app)
        elif told.what == "start_it" and not runs and find(self.starting, told.app):
            self.do_start(told.app, None, NORMAL)

    def change_running(self, told: Change, runs: tuple[str, tuple[str, ...]]) -> None:
        """The same, where it is in `running` and in `started`."""
        app, place = runs
        if told.what == "started":
            self.stop_appl(app, place)
            self.running.remove(runs)
            self.running.insert(0, (app, ("elsewhere", told.node or "")))
        elif told.what == "stop_it":
            self.stop_appl(app, place)
            self.control(app, NotRun(app, False))
            self.running[self.running.index(runs)] = (app, NOWHERE)
        elif told.what == "not_running":
            self.running.remove(runs)
        elif place == HERE:
            self.control(app, Run(app, None))
        elif told.what == "start_it":
            self.do_start(app, None, NORMAL)
        elif told.what == "failover" and not self.node.system.file.apps[app].has_phases:
            self.do_start(app, told.restart, NORMAL)
        else:
            self.do_start(app, told.restart, (told.what, told.node or ""))

    # ---- handle_info({'EXIT', ..})

    def top_ends(self, told: TopEnds) -> None:
        """The application ends by itself: of a permanent one, or a transient one abnormally, the node ends."""
        if not self.runs_here(told.app):
            self.reply(told.caller, ("not_running",))
            return
        self.reply(told.caller, None)
        self.running.remove((told.app, HERE))
        self.node.tell(Event("stopped", app=told.app))
        self.node.ended_by_itself.add(told.app)
        self.control(told.app, NotRun(told.app, True))
        is_started = find(self.started, told.app)
        restart = is_started[1] if is_started else "permanent"
        if restart == "permanent" or restart == "transient" and not told.is_normal:
            self.node.is_ending = True
            self.node.system.note("own-end", self.node.name, told.app)

    # ---- What these share

    def reply(self, caller: Optional[Address], error: Any) -> None:
        """gen_server:reply/2; None is ok."""
        if caller is not None:
            self.node.system.answer(self.address, caller, error)

    def reply_to_requester(self, app: str, error: Any) -> None:
        """reply_to_requester/3"""
        for asked, caller in self.start_req:
            if asked == app:
                self.reply(caller, error)
        self.start_req = [(asked, caller) for asked, caller in self.start_req if asked != app]

    def needs(self, app: str) -> list[str]:
        """What an application needs beside what is always there."""
        return [need for need in self.node.system.file.apps[app].needs if need not in self.node.file.platform]

    def update_permissions(self, app: str, allow: bool) -> None:
        """update_permissions/2"""
        self.permissions = {**(self.permissions or {}), app: allow}

    def control(self, app: str, message: Any) -> bool:
        """cntrl/3: tells dist_ac of an application that it controls."""
        if app in self.controlled:
            self.node.system.send(self.address, self.node.address("dist_ac"), message)
        return app in self.controlled

    def stop_appl(self, app: str, place: tuple[str, ...]) -> None:
        """stop_appl/3"""
        if place == HERE:
            self.node.tell(Event("stopped", app=app))

    def stop_here(self, app: str) -> None:
        """Stops an application that runs here, since the node ends."""
        if self.runs_here(app):
            self.node.tell(Event("stopped", app=app))

    def spawn_starter(self, app: str, kind: tuple[str, ...]) -> None:
        """spawn_starter/4, start_appl/3: a start takes no time, and fails for what it needs alone."""
        missing = next((need for need in self.needs(app) if not find(self.running, need)), None)
        if missing is None:
            self.node.tell(Event("started", app=app, detail=kind))
            self.node.ended_by_itself.discard(app)
            error = None
        else:
            self.node.system.note("lacks", self.node.name, app, missing)
            error = ("not_running", missing)
        self.node.system.send(self.node.address(f"starter {app}"), self.address, Started(app, error))

    def do_start(self, app: str, restart: Optional[str], kind: tuple[str, ...]) -> None:
        """do_start/5"""
        is_started = find(self.started, app)
        kept = restart or (is_started[1] if is_started else None)
        if not find(self.start_req, app):
            self.spawn_starter(app, kind)
            if not find(self.starting, app):
                self.starting.insert(0, (app, kept or "", kind))
            self.start_req.insert(0, (app, None))


HANDLERS: dict[type, Callable[[ApplicationController, Any], None]] = {
    Start: ApplicationController.start, Stop: ApplicationController.stop, Permit: ApplicationController.permit,
    Started: ApplicationController.application_started, Reply: ApplicationController.start_reply,
    Change: ApplicationController.change, TopEnds: ApplicationController.top_ends}


def find(rows: list[Any], app: str) -> Optional[Any]:
    """lists:keyfind/3 at the first place."""
    for row in rows:
        if row[0] == app:
            return row
    return None


def delete(rows: list[Any], app: str) -> None:
    """lists:keydelete/3 at the first place."""
    row = find(rows, app)
    if row is not None:
        rows.remove(row)


def replace_or_add(rows: list[Any], new: tuple[Any, ...]) -> None:
    """keyreplaceadd/4 at the first place."""
    for place, row in enumerate(rows):
        if row[0] == new[0]:
            rows[place] = new
            return
    rows.insert(0, new)
