"""Kinds of commands, as an observer knows them by reports, of which it is proved that they come to the same in every order of messages, of
some under more conditions than are asked here (docs/LIVE_OTP.md, "When the order of messages matters"): each with the page's words, and how
many of them a run of confluence.py has to meet at least.
"""
from collections.abc import Callable
from dataclasses import dataclass
from typing import Optional

from agreement import has_tuple
from live_conditions import boot_in_order_but_for_one, first_nodes, lacks_lists
from live_told import Lines, Told, now_of

from rehearse_tools.inputs import words_of
from rehearse_tools.otp25.cluster import ClusterFile


@dataclass(frozen=True)
class At:
    """A command where it is given: the file, the report before it, and what is told of it."""
    cluster: ClusterFile
    command: str
    before: Lines
    told: Told

    @property
    def words(self) -> list[str]:
        """The command's words."""
        return words_of(self.command)

    @property
    def node(self) -> str:
        """The node at which the command is given."""
        return self.words[1]

    @property
    def app(self) -> str:
        """The application of a call."""
        return self.words[2]

    @property
    def is_distributed(self) -> bool:
        """The application of a call is distributed."""
        return self.app in self.cluster.entries

    @property
    def hangs(self) -> bool:
        """A call is open, or a process stands in the middle of something."""
        return hangs(self.before)

    @property
    def ends_a_node(self) -> bool:
        """A node ends behind the command."""
        return any(line.startswith("ended ") for line, _ in self.told.answer[1])

    @property
    def fails_over_later(self) -> bool:
        """No application that is lost is started elsewhere at once."""
        return all(entry.timeout > 0 for entry in self.cluster.entries.values())

    def is_up(self, node: str) -> bool:
        """The node is up, so that a call is given to it."""
        return any(line.startswith(f"node {node} up ") for line, _ in self.before[1])

    def is_forbidden(self, node: str) -> bool:
        """The application of a call is forbidden at the node."""
        return (f"{node}  forbidden {self.app}", 1) in self.before[1]

    def stands(self, kind: str) -> bool:
        """The application of a call runs at its node (`running`), waits there (`waiting`), or has a timer of its loss there (`timer
        failover`)."""
        return any(line.startswith(f"{self.node}  {kind} {self.app} ") for line, _ in self.before[1])

    @property
    def runs_nowhere(self) -> bool:
        """The distributed application of a call runs nowhere."""
        return (f"app {self.app} nowhere", 1) in self.before[1]

    @property
    def listed(self) -> list[str]:
        """The nodes of the list of a distributed application, those of a tuple, too."""
        groups = self.cluster.entries[self.app].groups
        return [node for group in groups for node in ([group] if isinstance(group, str) else group)]


def hangs(before: Lines) -> bool:
    """A call is open, or a process stands in the middle of something."""
    return any("  blocked " in line or line.startswith("open ") for line, _ in before[1])


def is_call(at: At, word: str) -> bool:
    """It is such a command, where nothing hangs."""
    return at.words[0] == word and not at.hangs


# ---- Boots


def is_waiting_boot(at: At) -> bool:
    """A node boots where nothing hangs and each node waits for all others: it waits on, and so do all that wait."""
    return is_call(at, "boot") and not lacks_lists(at.cluster) and at.told.answer == ("ok", frozenset())


def is_return(at: At) -> bool:
    """A node boots where nothing hangs, each node waits for all others, and all others are up; no list has a tuple, and no failover time is
    0."""
    is_such = is_call(at, "boot") and not lacks_lists(at.cluster) and not has_tuple(at.cluster) and at.fails_over_later
    return is_such and at.told.answer[0] == "ok" and all(at.is_up(node) for node in at.cluster.nodes if node != at.node)


def boots_in_order(at: At) -> bool:
    """Nodes boot what is distributed in one order, and what one of them doesn't boot is left to one node (`boot_in_order_but_for_one`).
    Each application stands behind what it needs; what isn't distributed is permitted where it is booted. No list has a tuple."""
    lists = {node.name: [app for app, _ in node.boot] for node in at.cluster.nodes.values()}
    forbidden = {node: [app for app in at.cluster.apps if (f"{node}  forbidden {app}", 1) in at.before[1]] for node in lists}
    early = any(need in at.cluster.apps and need not in apps[:place]
                for apps in lists.values() for place, app in enumerate(apps) for need in at.cluster.apps[app].needs)
    is_barred = any(app in apps and app not in at.cluster.entries for node, apps in lists.items() for app in forbidden[node])
    is_one = boot_in_order_but_for_one(at.cluster, first_nodes(at.cluster, forbidden))
    return is_one and not early and not is_barred and not has_tuple(at.cluster)


def is_last_boot(at: At) -> bool:
    """The last node boots where nothing hangs, each node waits for all others, all others wait for this one, and all boot what is
    distributed in one order, each but for what is left to one node; no start fails."""
    if not is_call(at, "boot") or lacks_lists(at.cluster) or not boots_in_order(at):
        return False
    others = [node for node in at.cluster.nodes if node != at.node]
    waiting = all(any(line.startswith(f"node {node} waiting ") for line, _ in at.before[1]) for node in others)
    return waiting and at.told.answer[0] == "ok" and not any(line.startswith("failed ") for line, _ in at.told.answer[1])


# ---- Ends


def is_crash(at: At) -> bool:
    """A node ends where nothing hangs, and applications that are lost are started elsewhere after some time."""
    return is_call(at, "crash") and at.fails_over_later


def is_end(at: At, word: str) -> bool:
    """An application is stopped, or ends by itself, where nothing hangs, and no node ends with it."""
    return is_call(at, word) and at.told.answer[0] == "ok" and not at.ends_a_node


def is_fatal_exit(at: At) -> bool:
    """An application ends by itself where nothing hangs, its node ends with it, and no failover time is 0."""
    return is_call(at, "exit") and at.fails_over_later and at.ends_a_node


# ---- Calls of what isn't distributed


def is_local_forbid(at: At) -> bool:
    """An application that isn't distributed is forbidden where nothing hangs."""
    return is_call(at, "permit") and at.words[3] == "false" and not at.is_distributed and at.told.answer[0] == "ok"


def is_local_start(at: At, word: str) -> bool:
    """An application that isn't distributed is started, or permitted, at a node that is up, where nothing hangs, whatever the node
    answers."""
    return is_call(at, word) and not at.is_distributed and at.words[3] != "false" and at.is_up(at.node)


# ---- Calls of what is distributed


def is_spread_call(at: At, word: str) -> bool:
    """An operator calls so of a distributed application, at a node that is up, where nothing hangs."""
    return is_call(at, word) and at.is_distributed and at.is_up(at.node)


def is_start_elsewhere(at: At) -> bool:
    """A distributed application is started at a node that is up, where nothing hangs, and runs at another node, which is the first of its
    list."""
    if not is_spread_call(at, "start"):
        return False
    first = at.cluster.entries[at.app].groups[0]
    return isinstance(first, str) and first != at.node and (f"app {at.app} running {first}", 1) in at.before[1]


def first_of(at: At, permitted: Optional[str] = None) -> Optional[str]:
    """The first node of an application's list that is up and isn't forbidden to run it, with no tuple before it; one node counts as
    permitted."""
    for group in at.cluster.entries[at.app].groups:
        if not isinstance(group, str):
            return None
        if at.is_up(group) and (group == permitted or not at.is_forbidden(group)):
            return group
    return None


def is_start_here(at: At) -> bool:
    """A distributed application is started where nothing hangs, at the first node of its list that may run it, and runs there behind
    that, and didn't before."""
    is_such = is_spread_call(at, "start") and first_of(at) == at.node and not at.stands("running")
    return is_such and any(line.startswith(f"{at.node}  running {at.app} ") for line, _ in at.told.report[1])


def is_start_left(at: At) -> bool:
    """A distributed application is started at a node that is up, where nothing hangs, and another node is the first of its list that may
    run it, where it doesn't run; so the call stays open."""
    is_such = is_spread_call(at, "start") and first_of(at) not in (None, at.node)
    return is_such and at.runs_nowhere and any(line.startswith("open ") for line, _ in at.told.report[1])


def is_start_nowhere(at: At) -> bool:
    """A distributed application is started at a node that is up, where nothing hangs, no node of its list that is up may run it, and it
    runs nowhere."""
    is_such = is_spread_call(at, "start") and at.told.answer[0] == "ok" and at.runs_nowhere
    return is_such and not any(at.is_up(node) and not at.is_forbidden(node) for node in at.listed)


def is_permit_alone(at: At) -> bool:
    """A distributed application is permitted, or forbidden, at a node that is up, where nothing hangs and that changes nothing else: it
    isn't started at the node; or it is permitted, and runs there; or it is forbidden, and neither runs there nor is lost. Whatever the
    node answers."""
    if not is_spread_call(at, "permit"):
        return False
    runs, waits, lost = map(at.stands, ("running", "waiting", "timer failover"))
    return not runs and not lost if at.words[3] == "false" else runs or not waits


def is_takeover(at: At) -> bool:
    """An operator has a distributed application taken over, at a node that is up, where nothing hangs, whatever the node answers."""
    return is_spread_call(at, "takeover")


def others_of(at: At) -> list[str]:
    """The other nodes of an application's list that are up and aren't forbidden to run it."""
    return [node for node in at.listed if node != at.node and at.is_up(node) and not at.is_forbidden(node)]


def is_permit_here(at: At) -> bool:
    """A distributed application is permitted where nothing hangs, waits at the node, and that is then the first of its list that may run
    it."""
    is_such = is_spread_call(at, "permit") and at.words[3] == "true" and at.stands("waiting")
    return is_such and first_of(at, at.node) == at.node


def is_permit_elsewhere(at: At) -> bool:
    """A distributed application is permitted where nothing hangs, waits at the node, and runs at another one, which is the first of its list
    that may run it, also then."""
    if not is_spread_call(at, "permit") or at.words[3] != "true" or not at.stands("waiting"):
        return False
    first = first_of(at, at.node)
    return first not in (None, at.node) and (f"app {at.app} running {first}", 1) in at.before[1]


def is_forbid_where_it_runs(at: At) -> bool:
    """A distributed application is forbidden where nothing hangs, and runs at the node."""
    return is_spread_call(at, "permit") and at.words[3] == "false" and at.stands("running")


def is_forbid_last(at: At) -> bool:
    """A distributed application is forbidden where nothing hangs, at the node at which it runs, and no other that is up may run it."""
    return is_forbid_where_it_runs(at) and not others_of(at)


def is_forbid_moving(at: At) -> bool:
    """A distributed application is forbidden where nothing hangs, at the node at which it runs, and of the other nodes of its list, which
    has no tuple, exactly one is up and may run it."""
    if not is_forbid_where_it_runs(at):
        return False
    is_plain = all(isinstance(group, str) for group in at.cluster.entries[at.app].groups)
    return is_plain and len(others_of(at)) == 1


# ---- Failovers


def due_at(at: At) -> list[list[str]]:
    """The timers that are due where time passes and nothing hangs, each as its words."""
    if not is_call(at, "tick"):
        return []
    end = now_of(at.before) + int(at.words[1])
    timers = [words_of(line.partition("  timer ")[2]) for line, count in at.before[1] for _ in range(count) if "  timer " in line]
    return [timer for timer in timers if int(timer[-1]) <= end]


def is_lone_failover(at: At) -> bool:
    """Time passes where nothing hangs, and one timer is due, a failover's, of one node."""
    return [kind for kind, *_ in due_at(at)] == ["failover"]


def is_joint_failover(at: At) -> bool:
    """Time passes where nothing hangs, and several timers are due, all at one moment, of one application that is lost at several nodes and
    has no tuple in its list."""
    due = due_at(at)
    if len(due) < 2 or any(timer != due[0] for timer in due) or due[0][0] != "failover":
        return False
    return not any(isinstance(group, tuple) for group in at.cluster.entries[due[0][1]].groups)


def is_tick_through_losses(at: At) -> bool:
    """Time passes where nothing hangs, and timers of losses are due at several moments, those of one application at each; their lists have
    no tuples."""
    due = due_at(at)
    if any(kind != "failover" for kind, *_ in due):
        return False
    moments = {timer[-1] for timer in due}
    lost = {(timer[-1], timer[1]) for timer in due}
    has_tuples = any(isinstance(group, tuple) for _, app in lost for group in at.cluster.entries[app].groups)
    return len(moments) == len(lost) > 1 and not has_tuples


# ---- The kinds


@dataclass(frozen=True)
class Kind:
    """A kind of command: the words that the page has for it, and how many there have to be at least."""
    words: str
    is_such: Callable[[At], bool]
    least: int


# Those that are counted in random rehearsals of any kind,
ANYWHERE = (
    Kind("A boot of a node that waits on, where each node waits for all others", is_waiting_boot, 500),
    Kind("A crash of a node at rest, where no application has a timeout of 0", is_crash, 200),
    Kind("A failover at one node", is_lone_failover, 25),
    Kind("A stop at a node at rest", lambda at: is_end(at, "stop"), 150),
    Kind("An exit at a node at rest, which keeps the node", lambda at: is_end(at, "exit"), 15),
    Kind("A forbid of an application that isn't distributed, at a node at rest", is_local_forbid, 40),
    Kind("A start of an application that isn't distributed, at a node at rest", lambda at: is_local_start(at, "start"), 15),
    Kind("A permit of an application that isn't distributed, at a node at rest", lambda at: is_local_start(at, "permit"), 8),
    Kind("An exit at a node at rest, which ends the node, where no application has a timeout of 0", is_fatal_exit, 10),
    Kind("A start of an application that runs at the first node of its list, at another one at rest", is_start_elsewhere, 5),
    Kind("A permit or forbid of a distributed application, at a node at rest, which changes nothing else", is_permit_alone, 150))
# in random clusters that lose the node at which their one application runs,
LOST = (Kind("A failover at several nodes at one moment, of one application without a tuple in its list", is_joint_failover, 100),)
# in those in which one application is started,
BEGUN = (
    Kind("A start of a distributed application at the first node of its list that may run it, which is up", is_start_here, 30),
    Kind("A start of a distributed application at another node, which leaves it to that one", is_start_left, 50),
    Kind("A start of a distributed application that no node of its list that is up may run", is_start_nowhere, 100))
# in those in which one application runs, and is permitted, forbidden and taken over,
MOVED = (
    Kind("A takeover by call", is_takeover, 100),
    Kind("A permit of a distributed application where it waits, at the first node of its list that may run it then", is_permit_here, 30),
    Kind("A permit of a distributed application where it waits, while it runs at the first node of its list that may", is_permit_elsewhere, 30),
    Kind("A forbid of a distributed application where it runs, while no other node that is up may run it", is_forbid_last, 30),
    Kind("A forbid of a distributed application where it runs, while one other node of its list that is up may run it", is_forbid_moving, 20))
# in those in which a node crashes and comes back,
RETURNED = (
    Kind("A boot of a node that comes back to all others, which are up, where no list has a tuple and no application a timeout of 0",
         is_return, 200),)
# in those in which all nodes boot, of several applications,
GATHERED = (
    Kind("A boot of the last node, where each node waits for all others and all boot what is distributed in one order, each but for what "
         "is left to one node", is_last_boot, 350),)
# and in those in which several applications are lost with a node.
LOST_TOGETHER = (
    Kind("A tick through failovers at several moments, one application at each, whose lists have no tuple", is_tick_through_losses, 100),)
ALL = (*ANYWHERE, *LOST, *BEGUN, *MOVED, *RETURNED, *GATHERED, *LOST_TOGETHER)
