"""What lint has to find in a rehearsal, by other means: found_in(text) gives the codes of the file's warnings and those of each step.

It is written from docs/LINT.md on the states of the model (model.py, model_state.py). There a line of a table is a code; here it is a
question to a node and an application, or to a node alone, before an event. Which codes are warnings, and behind which a live cluster has
another past, the page says too, and it is read for that.
"""
import os
import re
from collections.abc import Callable, Iterator
from dataclasses import dataclass
from typing import Optional

import model
from model_cluster import Cluster
from model_state import State
from support import TOP

PAGE = os.path.join(TOP, "docs", "LINT.md")
ROW = re.compile(r"(?m)^\| (.*?) \| (warning|hint) \|")
LONGEST_TIMER = 4_294_967_295
ANOTHER_PAST = "another_past"
REFUSED_STEP = "refused_step"
# They say that their step is refused; of a name that the cluster hasn't the line is told (S1, S2).
SAY_REFUSED = {"start_where_not_listed", "takeover_where_forbidden", "start_of_a_waiting_local"}
OF_A_NAME = ("S1", "S2")


def kinds_told() -> dict[str, tuple[str, bool]]:
    """Of each code that the page has: warning or hint, and whether it has a star, for a kind that hangs."""
    with open(PAGE, encoding="utf-8") as file:
        rows = ROW.findall(file.read())
    return {code: (kind, star == "\\*") for names, kind in rows for code, star in re.findall(r"`(\w+)`(\\\*)?", names)}


# ---- The file


def shares(cluster: Cluster, node: int, other: int) -> bool:
    """Whether one distributed application lists both."""
    return node != other and any(app.spread and {node, other} <= {n for group in app.spread.groups for n in group} for app in cluster.apps)


def booted_before(cluster: Cluster, node: int, one: int, other: int) -> bool:
    """Whether a node boots both applications, the first one before the other."""
    places = {app: place for place, (app, _) in enumerate(cluster.nodes[node].boot)}
    return one in places and other in places and places[one] < places[other]


def depends_on_itself(cluster: Cluster, app: int) -> bool:
    """Whether an application needs itself, by way of others perhaps."""
    reached: set[object] = set()
    ahead = list(cluster.apps[app].needs)
    while ahead:
        need = ahead.pop()
        if isinstance(need, int) and need not in reached:
            reached.add(need)
            ahead += cluster.apps[need].needs
    return app in reached


def listed_by(cluster: Cluster, node: int) -> set[int]:
    """The other nodes that a node lists."""
    return {*cluster.nodes[node].mandatory, *cluster.nodes[node].optional} - {node}


def of_two(cluster: Cluster, node: int, other: int) -> Iterator[str]:
    """The warnings of a node beside another one with which it shares a distributed application."""
    own, theirs = listed_by(cluster, node), listed_by(cluster, other)
    if other in own and theirs and node not in theirs:
        yield "one_sided_lists"
    if own and other not in own and node not in theirs:
        yield "incomplete_lists"


def of_node(cluster: Cluster, node: int) -> Iterator[str]:
    """The warnings of a node."""
    keys = cluster.nodes[node]
    others = listed_by(cluster, node)
    sharing = [other for other in range(len(cluster.nodes)) if shares(cluster, node, other)]
    if not others and sharing:
        yield "no_lists"
    for other in sharing:
        yield from of_two(cluster, node, other)
    if others and keys.wait is None:
        yield "lists_without_timeout"
    if keys.wait == 0:
        yield "sync_timeout_zero"
    if isinstance(keys.wait, int) and keys.wait > LONGEST_TIMER:
        yield "sync_timeout_too_large"
    for app, _ in keys.boot:
        if any(not booted_before(cluster, node, need, app) if isinstance(need, int) else need not in keys.platform
               for need in cluster.apps[app].needs):
            yield "boot_before_dependency"


def of_apps(cluster: Cluster) -> Iterator[str]:
    """The warnings of applications."""
    spread = [number for number, app in enumerate(cluster.apps) if app.spread]
    if not spread:
        yield "no_distributed_application"
    for app in spread:
        if cluster.apps[app].spread.timeout > LONGEST_TIMER:
            yield "failover_timeout_too_large"
        names = [[cluster.nodes[node].name.encode() for node in group] for group in cluster.apps[app].spread.groups]
        if any(group != sorted(group) for group in names):
            yield "tuple_not_in_order"
        for other in spread:
            orders = {booted_before(cluster, node, app, other) for node in range(len(cluster.nodes))
                      if booted_before(cluster, node, app, other) or booted_before(cluster, node, other, app)}
            if app < other and len(orders) == 2:
                yield "crossed_boot_lists"
    yield from ("dependency_circle" for app in range(len(cluster.apps)) if depends_on_itself(cluster, app))


def of_file(cluster: Cluster, text: str) -> list[str]:
    """The warnings of a cluster file, each as often as it is told."""
    found = [code for node in range(len(cluster.nodes)) for code in of_node(cluster, node)] + list(of_apps(cluster))
    return sorted(found + ["undefined_written"] * len(re.findall(r"{sync_nodes_timeout, undefined}", text)))


# ---- A step


@dataclass
class Before:
    """A state, and an event that is made in it: its word, node, application, time and last word."""
    state: State
    word: str
    node: Optional[int]
    app: Optional[int]
    time: Optional[int]
    last: list[str]

    @property
    def nodes(self) -> range:
        return range(len(self.state.cluster.nodes))

    def is_local(self, app: int) -> bool:
        return app not in self.state.standing

    def standing(self, app: int) -> tuple[str, Optional[int]]:
        """Where a distributed application stands; of a local one nothing."""
        return self.state.standing.get(app, ("", None))

    # Of nodes.

    def fires(self, *timer: object) -> bool:
        """Whether a timer that is set fires within the step."""
        return self.word == "tick" and any(what == timer and due <= self.state.now + self.time for due, what in self.state.timers)

    def comes_up(self, node: int) -> bool:
        state, keys = self.state, self.state.cluster.nodes[node]
        if self.word == "tick":
            return state.mode[node] == "waiting" and self.fires("sync", node) and all(map(state.alive, keys.mandatory))
        if self.word != "boot" or node != self.node and state.mode[node] != "waiting":
            return False
        return keys.wait is None or all(other == self.node or state.alive(other) for other in keys.mandatory + keys.optional)

    def ends(self, node: int) -> bool:
        if self.word == "exit" and node == self.node:
            restart = self.state.restart[node, self.app]
            return restart == "permanent" or restart == "transient" and self.last == ["abnormal"]
        return self.word == "crash" and node == self.node

    def is_up(self, node: int) -> bool:
        """Whether it is up behind the step."""
        return self.comes_up(node) or self.state.mode[node] == "up" and not self.ends(node)

    def takes_part(self, node: int) -> bool:
        return any(node in self.listed(app) for app in self.state.standing)

    def lists(self, node: int) -> list[int]:
        """The nodes for which it waits at its start."""
        keys = self.state.cluster.nodes[node]
        return [] if keys.wait is None else keys.mandatory + keys.optional

    def are_linked(self, node: int, other: int) -> bool:
        """Whether one of them waits for the other at its start."""
        return other in self.lists(node) or node in self.lists(other)

    # Of an application at a node.

    def boots(self, node: int, app: int) -> bool:
        return app in [booted for booted, _ in self.state.cluster.nodes[node].boot]

    def is_started_by_hand(self, node: int, app: int) -> bool:
        if self.word == "start_all":
            return app == self.app and node in self.state.targets(app)
        return self.word == "start" and (node, app) == (self.node, self.app)

    def starts(self, node: int, app: int) -> bool:
        """Whether it is started there at this step."""
        return self.is_started_by_hand(node, app) or self.comes_up(node) and self.boots(node, app)

    def is_permitted(self, node: int, app: int) -> bool:
        """Whether it may run there behind the step."""
        if self.word == "permit" and (node, app) == (self.node, self.app):
            return self.last == ["true"]
        return app not in self.state.forbidden[node]

    def is_given_back(self, node: int, app: int) -> bool:
        """Whether it is permitted where it is started and doesn't run."""
        return (self.word == "permit" and (node, app) == (self.node, self.app) and self.last == ["true"]
                and app in self.state.waiting[node])

    def is_taken(self, node: int, app: int) -> bool:
        return self.word == "permit" and (node, app) == (self.node, self.app) and self.last == ["false"]

    # Of its list, which a local one hasn't.

    def groups(self, app: int) -> list[list[int]]:
        return [] if self.is_local(app) else self.state.groups(app)

    def listed(self, app: int) -> list[int]:
        return [node for group in self.groups(app) for node in group]

    def rank(self, app: int, node: int) -> Optional[int]:
        return next((place for place, group in enumerate(self.groups(app)) if node in group), None)

    def is_available(self, app: int, node: int) -> bool:
        return node in self.listed(app) and self.is_up(node) and self.is_permitted(node, app)

    def best(self, app: int) -> list[int]:
        """The available nodes of the first group that has any."""
        groups = [[node for node in group if self.is_available(app, node)] for group in self.groups(app)]
        return next((group for group in groups if group), [])

    def asks_all(self, app: int) -> bool:
        """Whether a tuple stands up to the first group that has an available node: then all available nodes are asked."""
        for group in self.groups(app):
            if len(group) > 1:
                return True
            if any(self.is_available(app, node) for node in group):
                return False
        return False

    def idle(self, app: int, node: int) -> list[int]:
        """The other nodes that it sees that may run it, and haven't started it behind the step."""
        return [other for other in self.nodes if other != node and self.are_linked(node, other) and self.is_available(app, other)
                and not self.starts(other, app) and not self.state.started(other, app)]

    # Where it is looked for.

    def runner(self, app: int) -> Optional[int]:
        """Where it runs, if the node doesn't end."""
        word, node = self.standing(app)
        return node if word == "running" and not self.ends(node) else None

    def fails_over(self, app: int) -> bool:
        word, node = self.standing(app)
        if word == "running":
            return self.ends(node) and self.state.cluster.apps[app].spread.timeout == 0
        return word == "lost" and self.fires("failover", app)

    def is_called(self, node: int, app: int) -> bool:
        """Whether it fails over to a node that holds it ready."""
        return self.fails_over(app) and self.state.started(node, app) and self.is_up(node)

    def tries(self, node: int, app: int) -> bool:
        """Whether a live OTP looks there for the node that is to run it."""
        if self.is_local(app):
            return False
        is_quiet = self.standing(app)[0] == "quiet"
        return self.starts(node, app) or self.is_called(node, app) or self.is_given_back(node, app) and not is_quiet

    def waits_for(self, node: int, app: int) -> list[int]:
        """The nodes for which a start at an available node waits."""
        runner, best = self.runner(app), self.best(app)
        is_open = runner is None or node in best and runner not in best
        if not (self.tries(node, app) and self.is_available(app, node) and is_open):
            return []
        return [other for other in self.idle(app, node) if other in best or self.asks_all(app)]


# ---- What is asked of a node and an application


def ranked(before: Before, node: int, app: int, test: Callable[[int, int], bool]) -> bool:
    """Whether a start there waits for a node whose rank stands so to its own."""
    own = before.rank(app, node)
    return any(test(before.rank(app, other), own) for other in before.waits_for(node, app))


def is_served(before: Before, app: int) -> bool:
    """Whether a node that may run it starts it at this step."""
    return any(before.starts(node, app) and before.is_available(app, node) for node in before.nodes)


def starts_forbidden(before: Before, node: int, app: int) -> bool:
    is_alone = before.runner(app) is None and not is_served(before, app)
    is_forbidden = before.starts(node, app) and not before.is_local(app) and not before.is_permitted(node, app)
    return is_forbidden and is_alone and bool(before.idle(app, node))


def runs_behind(before: Before, app: int) -> bool:
    """Whether it runs, and not at one of its best nodes."""
    return before.runner(app) is not None and before.runner(app) not in before.best(app)


def runs_at_a_worse_node(before: Before, node: int, app: int) -> bool:
    best = before.best(app)
    is_below = before.is_available(app, node) and node not in best
    is_regained = any(before.starts(other, app) for other in best)
    return before.tries(node, app) and is_below and runs_behind(before, app) and not is_regained


def tuple_takeover(before: Before, node: int, app: int) -> bool:
    best = before.best(app)
    has_bystander = any(other != node and not before.starts(other, app) for other in best)
    return before.tries(node, app) and node in best and runs_behind(before, app) and has_bystander


def is_quiet(before: Before, app: int) -> bool:
    return before.standing(app)[0] == "quiet"


def better_node_waits_quiet(before: Before, node: int, app: int) -> bool:
    if not (before.starts(node, app) and is_quiet(before, app)):
        return False
    state, own = before.state, before.rank(app, node)
    return any(other != node and state.mode[other] == "up" and state.started(other, app) and app not in state.forbidden[other]
               and (own is None or before.rank(app, other) <= own) for other in before.listed(app))


def needed(before: Before, app: int) -> list[int]:
    """The applications that it needs."""
    return [need for need in before.state.cluster.apps[app].needs if isinstance(need, int)]


def boots_now(before: Before, node: int, app: int) -> bool:
    return before.comes_up(node) and before.boots(node, app)


def boots_after_forbidden(before: Before, node: int, app: int) -> bool:
    return boots_now(before, node, app) and any(
        before.is_local(need) and booted_before(before.state.cluster, node, need, app) and need in before.state.forbidden[node]
        for need in needed(before, app))


def boots_too_early(before: Before, node: int, app: int) -> bool:
    return boots_now(before, node, app) and not all(
        booted_before(before.state.cluster, node, need, app) for need in needed(before, app))


def is_taken_from_runner(before: Before, node: int, app: int) -> bool:
    return before.is_taken(node, app) and not before.is_local(app) and app in before.state.running[node]


def ready(before: Before, node: int, app: int) -> list[int]:
    """The other nodes that may run it and had it started."""
    return [other for other in before.nodes if other != node and before.is_available(app, other) and before.state.started(other, app)]


def forbid_moves(before: Before, node: int, app: int) -> bool:
    return is_taken_from_runner(before, node, app) and not before.idle(app, node) and bool(ready(before, node, app))


def forbid_with_unlisted_nodes(before: Before, node: int, app: int) -> bool:
    if not is_taken_from_runner(before, node, app) or before.idle(app, node) or ready(before, node, app):
        return False
    return any(other != node and other not in before.listed(app) and before.is_up(other) and before.takes_part(other)
               for other in before.nodes)


def lost_at_another(before: Before, node: int, app: int, *words: str) -> bool:
    """Whether it was lost with another node."""
    word, other = before.standing(app)
    return word in words and other is not None and other != node


def weights_for_ever(before: Before, node: int, app: int) -> bool:
    if not before.tries(node, app) or before.runner(app) is not None or node not in before.best(app):
        return False
    has_tuple_before = any(len(group) > 1 for group in before.groups(app)[:before.rank(app, node)])
    return has_tuple_before and len(before.best(app)) > 1


def kind_after_loss(before: Before, node: int, app: int) -> bool:
    is_helped = before.is_started_by_hand(node, app) or before.is_given_back(node, app)
    return before.state.cluster.apps[app].has_phases and is_helped and lost_at_another(before, node, app, "lost", "wanted")


def nobody_saw_the_loss(before: Before, node: int, app: int) -> bool:
    has_phases = before.state.cluster.apps[app].has_phases
    return has_phases and boots_now(before, node, app) and lost_at_another(before, node, app, "wanted")


def start_within_time(before: Before, node: int, app: int) -> bool:
    _, lost = before.standing(app)
    return before.starts(node, app) and lost_at_another(before, node, app, "lost") and not before.starts(lost, app)


def own_end(before: Before, node: int, app: int) -> bool:
    is_ended = before.word == "exit" and app == before.app and not before.is_local(app) and before.ends(node)
    return is_ended and bool(ready(before, node, app))


def dependency_gone(before: Before, node: int, app: int) -> bool:
    if before.is_local(app) or not before.is_called(node, app) or node not in before.best(app):
        return False
    return any(need not in before.state.running[node] for need in needed(before, app))


def stays(before: Before, app: int) -> bool:
    """Whether it runs at one of its best nodes."""
    return before.runner(app) in before.best(app)


def needs_a_distributed_one(before: Before, node: int, app: int) -> bool:
    is_to_run = before.is_permitted(node, app) if before.is_local(app) else node in before.best(app) and not stays(before, app)
    return boots_now(before, node, app) and is_to_run and any(
        not before.is_local(need) and (node not in before.best(need) or stays(before, need)) for need in needed(before, app))


def is_local_and_forbidden(before: Before, node: int, app: int) -> bool:
    return before.is_local(app) and app in before.state.waiting[node] and app in before.state.forbidden[node]


def named_by(before: Before, word: str, node: int, app: int) -> bool:
    """Whether it is this command, of that node and that application."""
    return (before.word, before.node, before.app) == (word, node, app)


PAIRS: dict[str, Callable[[Before, int, int], bool]] = {
    "better_node_not_started": lambda b, n, a: ranked(b, n, a, lambda other, own: other < own),
    "tuple_member_not_started": lambda b, n, a: ranked(b, n, a, lambda other, own: other == own),
    "worse_node_not_started": lambda b, n, a: ranked(b, n, a, lambda other, own: other > own),
    "forbidden_start_waits": starts_forbidden, "runs_at_a_worse_node": runs_at_a_worse_node, "tuple_takeover": tuple_takeover,
    "better_node_waits_quiet": better_node_waits_quiet,
    "permit_starts_quiet": lambda b, n, a: b.is_given_back(n, a) and is_quiet(b, a),
    "dependency_forbidden_at_start": boots_after_forbidden, "before_dependency": boots_too_early, "forbid_moves": forbid_moves,
    "forbid_other_not_started": lambda b, n, a: is_taken_from_runner(b, n, a) and bool(b.idle(a, n)),
    "start_within_time": start_within_time, "nobody_saw_the_loss": nobody_saw_the_loss, "weights_for_ever": weights_for_ever,
    "own_end": own_end,
    "kind_after_loss": kind_after_loss, "dependency_gone": dependency_gone, "needs_a_distributed_one": needs_a_distributed_one,
    "forbid_with_unlisted_nodes": forbid_with_unlisted_nodes,
    "takeover_not_started": lambda b, n, a: named_by(b, "takeover", n, a) and not b.state.started(n, a),
    "local_forbidden_twice": lambda b, n, a: b.is_taken(n, a) and is_local_and_forbidden(b, n, a),
    "local_stop_while_forbidden": lambda b, n, a: named_by(b, "stop", n, a) and is_local_and_forbidden(b, n, a)}


# ---- What is asked of a node alone


def booted_spread(before: Before, node: int) -> list[int]:
    """The distributed applications that it boots."""
    return [app for app in before.state.standing if before.boots(node, app)]


def gets_one(before: Before, node: int, other: int) -> bool:
    """Whether the other node boots one of them, too, and stands no later in its list."""
    return any(before.boots(other, app) and other in before.listed(app) and before.rank(app, other) <= before.rank(app, node)
               for app in booted_spread(before, node))


def other_node_waits(before: Before, node: int) -> bool:
    if not (before.comes_up(node) and booted_spread(before, node)):
        return False
    waiting = [other for other in before.nodes if before.state.mode[other] == "waiting" or before.word == "boot" and other == before.node]
    if before.word == "tick":
        left = [other for other in waiting if not before.fires("sync", other) or gets_one(before, node, other)]
    else:
        left = [other for other in waiting if not before.comes_up(other)]
    return any(other != node and before.are_linked(node, other) and before.takes_part(other) for other in left)


def not_in_its_lists(before: Before, node: int) -> bool:
    if before.word != "boot" or node != before.node or not before.comes_up(node):
        return False
    beside = {other for app in booted_spread(before, node) for other in before.listed(app)}
    return any(other != node and other not in before.lists(node) and before.state.alive(other) for other in beside)


NODES: dict[str, Callable[[Before, int], bool]] = {"other_node_waits": other_node_waits, "not_in_its_lists": not_in_its_lists}


# ---- All of it


def of_refused(before: Before, why: str) -> list[str]:
    """What is told of an event that the rules refuse."""
    code = why.split()[0]
    if code == "S10":
        return ["start_where_not_listed"]
    if code == "S16":
        return ["takeover_where_forbidden"]
    is_local_start = code == "S11" and before.word == "start" and before.is_local(before.app)
    return ["start_of_a_waiting_local"] if is_local_start and before.app in before.state.waiting[before.node] else []


def of_step(rehearsal: model.Rehearsal, words: list[str]) -> list[str]:
    """The codes of a step, each as often as it is told."""
    if words[0] in ("show", "undo", "redo", "undo_all", "redo_all"):
        return []
    before = Before(rehearsal.state, *rehearsal.event(words))
    why = rehearsal.refused(words)
    if why is not None:
        return of_refused(before, why)
    apps = range(len(rehearsal.cluster.apps))
    pairs = [code for code, holds in PAIRS.items() for node in before.nodes for app in apps if holds(before, node, app)]
    return pairs + [code for code, holds in NODES.items() for node in before.nodes if holds(before, node)]


def is_refusal_untold(answer: str, codes: list[str]) -> bool:
    """Whether it is a refusal that neither a finding of the step nor one of the line tells."""
    return answer.startswith("refused ") and answer.split()[1] not in OF_A_NAME and not SAY_REFUSED & set(codes)


def refusals_in(text: str) -> list[str]:
    """What has to be said of each command, if it is told that it is refused."""
    cluster, lines = model.split(text)
    rehearsal = model.Rehearsal(cluster)
    answers = [(" ".join(rehearsal.entry(words)), rehearsal.answer(words)[0]) for words in lines]
    return [f"run refuses {command}: {answer.removeprefix('refused ')}" for command, answer in answers]


def found_in(text: str) -> tuple[list[str], list[list[str]]]:
    """The codes of a rehearsal: those of the file's warnings, and those of each step, in any order. Behind the first warning of a kind
    that hangs there are none."""
    kinds = kinds_told()
    cluster, lines = model.split(text)
    rehearsal, steps = model.Rehearsal(cluster), []
    is_told = True
    for words in lines:
        codes = of_step(rehearsal, words) if is_told else []
        if is_refusal_untold(rehearsal.answer(words)[0], codes) and is_told:
            codes.append(REFUSED_STEP)
        if any(kinds[code] == ("warning", True) for code in codes):
            is_told = False
            codes.append(ANOTHER_PAST)
        steps.append(sorted(codes))
    return of_file(rehearsal.cluster, cluster), steps
