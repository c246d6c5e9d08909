"""What the processes of live nodes send one another, and what an observer sees of them."""
from typing import Any, NamedTuple, Optional


class Address(NamedTuple):
    """A process: what it is, at which node, and in which life of that node (or, for a call, its number)."""
    kind: str
    node: str
    life: int


# ---- To the application controller


class Start(NamedTuple):
    """{start_application, App, Type}"""
    app: str
    restart: str
    caller: Address


class Stop(NamedTuple):
    """{stop_application, App}"""
    app: str
    caller: Address


class Permit(NamedTuple):
    """{permit_application, App, Bool}"""
    app: str
    allow: bool
    caller: Address


class TopEnds(NamedTuple):
    """The application's top process is told to end, and its application master ends with it."""
    app: str
    is_normal: bool
    caller: Address


class Started(NamedTuple):
    """{application_started, App, Result} of the process that starts it; None is a success, else the error."""
    app: str
    error: Optional[Any]


class Reply(NamedTuple):
    """{ac_start_application_reply, App, What}: start_it, not_started, started, takeover or error."""
    app: str
    what: str
    detail: Any = None


class Change(NamedTuple):
    """{ac_change_application_req, App, What}: start_it, stop_it, not_running, started, takeover or failover."""
    app: str
    what: str
    node: Optional[str] = None
    restart: Optional[str] = None


# ---- To dist_ac


class Go(NamedTuple):
    """{go, KernelConfig}: the wait for other nodes is over."""


class StartRequest(NamedTuple):
    """{ac_start_application_req, App}"""
    app: str


class Run(NamedTuple):
    """{ac_application_run, App, Result}"""
    app: str
    error: Optional[Any]


class NotRun(NamedTuple):
    """{ac_application_not_run, App}, or, where it was stopped, {ac_application_stopped, App}"""
    app: str
    is_stopped: bool


class NewNode(NamedTuple):
    """{dist_ac_new_node, Version, Node, Applications, Started}"""
    node: str
    permissions: dict[str, Optional[bool]]
    started: tuple[tuple[str, str], ...]


class AppStarted(NamedTuple):
    """{dist_ac_app_started, Node, App, Result}"""
    node: str
    app: str
    error: Optional[Any]


class AppStopped(NamedTuple):
    """{dist_ac_app_stopped, App}"""
    app: str


class Weight(NamedTuple):
    """{dist_ac_weight, App, Weight, Node}"""
    app: str
    weight: int
    node: str


class NodeDown(NamedTuple):
    """{nodedown, Node}"""
    node: str


class Restart(NamedTuple):
    """{internal_restart_appl, App}; `loss` is the number of the loss for which the timer was set."""
    app: str
    loss: int


class NewPermission(NamedTuple):
    """{dist_ac_new_permission, Node, App, Bool, IsHisApp}"""
    node: str
    app: str
    allow: bool
    is_his: bool


class TakeOver(NamedTuple):
    """{takeover_application, App, Type}"""
    app: str
    restart: str
    caller: Address


class PermitDistributed(NamedTuple):
    """{permit_application, App, Bool, LockId, started | only_loaded}"""
    app: str
    allow: bool
    only_loaded: bool
    caller: Address


class GetNodes(NamedTuple):
    """{get_nodes, App}"""
    app: str
    caller: Address


# ---- To others


class NodeUp(NamedTuple):
    """{nodeup, Node}"""
    node: str


class Timeout(NamedTuple):
    """The end of sync_nodes_timeout."""


class Answer(NamedTuple):
    """The answer to a call."""
    result: Any


class Next(NamedTuple):
    """The boot script goes on."""


# ---- What an observer sees


class Event(NamedTuple):
    """What happens: up, booted or ended (a node), started, stopped or failed (an application), answer (to a call)."""
    what: str
    node: str = ""
    app: str = ""
    detail: Any = None
