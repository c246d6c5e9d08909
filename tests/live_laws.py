"""Laws that are proved of the rules of `run` (docs/PROVED.md), asked of the rules of OTP 25: does a live cluster keep them?

A law is a question to a walk (law_walks.py): at which command does it break first? Of the rules of `run` the laws are theorems, so by
these each has to hold in each random rehearsal, which checks the questions. By the rules of OTP 25 those have to hold in each random
rehearsal of which docs/LIVE_OTP.md says that they do; for each of the others a worked row of tests/rows/otp25 shows that it breaks, in
which it has to break by the rules of OTP 25 alone. The page tells in how many of the random rehearsals each law breaks.
"""
import os
from collections.abc import Callable, Iterable, Iterator
from dataclasses import dataclass
from typing import Optional

from agreement import ranges
from groups import Group
from law_walks import Step, is_started_again, starts, walk_of, with_losses, with_quiet
from lint_measure import is_in_page
from random_live import KINDS, rehearsal
from row_files import ROWS, row_at

FIRST, COUNT, AT_ONCE = 60_000, 1_000, 50
NORMAL = ("normal", "failover")

Test = tuple[str, Optional[str]]
# Whether a law breaks at a command; None where it isn't asked there.
Verdict = Optional[bool]
Breaks = Callable[[list[Step]], Iterator[Verdict]]


def some(verdicts: Iterable[bool]) -> Verdict:
    """Whether a law breaks in one case; None where there is none."""
    found = list(verdicts)
    return any(found) if found else None


# ---- Where an application runs


def runs_at_one_node(walk: list[Step]) -> Iterator[Verdict]:
    """A distributed application runs at two nodes behind a command."""
    for step in walk:
        yield some(len(nodes) > 1 for nodes in step.after.places.values() if nodes)


def placed_in_first_group(walk: list[Step]) -> Iterator[Verdict]:
    """It starts and stays at a node though one of an earlier group could run it, before the command and behind it."""
    for step in walk:
        yield some(is_worse(step, app, node) for app, node in placed(step) if step.after.places[app] == [node])


def placed(step: Step) -> list[tuple[str, str]]:
    """The distributed applications that start at a node of their list, but for takeovers, each with its node."""
    return [(words[1], words[2]) for words in step.lines if words[0] == "started" and words[3] in NORMAL
            and words[1] in step.spread and step.group(words[1], words[2]) is not None]


def is_worse(step: Step, app: str, node: str) -> bool:
    """Whether a node of an earlier group than this one could and can run a distributed application."""
    own = step.group(app, node) or 0
    return any((step.group(app, other) or 0) < own and step.can_run(other, app) and step.can_run(other, app, is_before=True)
               for other in step.listed(app))


def placed_at_best_nodes(walk: list[Step]) -> Iterator[Verdict]:
    """It starts at a node of a tuple though at another one, which can run it, fewer applications run at that moment."""
    for step in walk:
        yield some(weighed(step)) if step.word != "tick" else None


def weighed(step: Step) -> Iterator[bool]:
    """For each start at a node of a tuple, in order, whether at another one fewer applications run then."""
    counts = {node: len(apps) for node, apps in step.before.running.items()}
    starts_of = set(placed(step))
    for word, *rest in step.lines:
        if word == "ended":
            counts[rest[0]] = 0
        elif word == "started":
            app, node = rest[:2]
            if (app, node) in starts_of and rest[2] in NORMAL:
                others = [other for other in step.listed(app) if other != node and step.group(app, other) == step.group(app, node)]
                yield from (counts[other] < counts[node] and step.can_run(other, app) for other in others)
            counts[node] += 1
        elif word == "stopped":
            counts[rest[1]] -= 1


def taken_over_by_earlier_groups(walk: list[Step]) -> Iterator[Verdict]:
    """Without a call it is taken over by a node whose group isn't an earlier one."""
    for step in walk:
        taken = [words[1:] for words in step.lines if words[0] == "started" and words[3] == "takeover" and step.word != "takeover"]
        yield some((step.group(app, node) or 0) >= (step.group(app, other) or 0) for app, node, _, other in taken)


# ---- Losses


def fails_over_in_time(walk: list[Step]) -> Iterator[Verdict]:
    """A tick reaches the end of its failover time, and it runs nowhere though a node of its list can run it."""
    for step, lost, _ in with_losses(walk):
        due = [app for app, loss in lost.items() if step.word == "tick" and loss.latest <= step.after.now]
        yield some(not step.after.places[app] for app in due if any(step.can_run(node, app) for node in step.listed(app)))


def lost_until_due(walk: list[Step]) -> Iterator[Verdict]:
    """It starts before its failover time is over, and neither came the node back with which it was lost nor was it stopped."""
    for step, lost, _ in with_losses(walk):
        yield some(bool(step.after.places[app]) for app, loss in lost.items()
                   if step.after.now < loss.earliest and not is_started_again(step, app, loss))


def never_left_wanted(walk: list[Step]) -> Iterator[Verdict]:
    """It runs nowhere, no failover time runs, it wasn't stopped, and a node of its list can run it, or is starting it."""
    for step, _, quiet in with_quiet(walk):
        yield some(not step.after.places[app] for app in step.spread
                   if app not in quiet | step.after.failing_over and is_able(step, app))


def is_able(step: Step, app: str) -> bool:
    """Whether a node of an application's list can run it, or is starting it and may."""
    return any(step.can_run(node, app) or app in step.after.starting[node] and (node, app) not in step.barred for node in step.listed(app))


# ---- By hand


def stop_leaves_quiet(walk: list[Step]) -> Iterator[Verdict]:
    """It is stopped where it runs, and runs somewhere behind that."""
    for step in walk:
        is_asked = step.word == "stop" and step.is_done and step.app in step.spread and step.app in step.before.running[step.words[1]]
        yield bool(step.after.places[step.app]) if is_asked else None


def stop_all_leaves_nothing(walk: list[Step]) -> Iterator[Verdict]:
    """It is stopped at all nodes, and is started at one behind that."""
    for step in walk:
        is_asked = step.word == "stop_all" and step.is_done
        yield any(step.after.is_started(node, step.app) for node in step.after.mode) if is_asked else None


def start_all_starts_everywhere(walk: list[Step]) -> Iterator[Verdict]:
    """It is started at all nodes, and isn't started at one of its list that is up behind that."""
    for step in walk:
        is_asked = step.word == "start_all" and not step.answer[0].startswith("refused S")
        yield not all(step.after.is_started(node, step.app) for node in step.listed(step.app)) if is_asked else None


def permission_pulls_back(walk: list[Step]) -> Iterator[Verdict]:
    """In profile 2 it is permitted again at a node that holds it ready and can run it, and runs at a node of a later group."""
    for step in walk:
        is_given = step.word == "permit" and step.words[3] == "true" and step.is_done and step.app in step.spread
        yield is_left_behind(step, step.words[1], step.app) if is_given and step.cluster.profile == 2 else None


def is_left_behind(step: Step, node: str, app: str) -> Verdict:
    """Whether an application runs at a node of a later group than one that is permitted to run it again and can; None where that one
    can't, or wasn't kept from it."""
    own = step.group(app, node)
    if own is None or not (step.before.is_started(node, app) and (node, app) in step.barred_before and step.can_run(node, app)):
        return None
    return any((step.group(app, other) or 0) > own for other in step.after.places[app])


def quiet_until_started(walk: list[Step]) -> Iterator[Verdict]:
    """It was stopped or has ended, and starts though nobody starts it, and no node comes up that boots it."""
    for step, quiet, _ in with_quiet(walk):
        begun = [words[1] for words in step.lines if words[0] == "started"]
        yield some(app in begun for app in quiet if not starts(step, app))


# ---- Nodes, local applications, time


def up_until_ended(walk: list[Step]) -> Iterator[Verdict]:
    """A node that was up isn't any longer, and its end isn't told."""
    for step in walk:
        ended = [words[1] for words in step.lines if words[0] == "ended"]
        yield some(not step.after.is_up(node) and node not in ended for node in step.after.mode if step.before.is_up(node))


def ends_without_mandatory(walk: list[Step]) -> Iterator[Verdict]:
    """A node's wait ends in a tick while a mandatory node of it is down, and it comes up."""
    for step in walk:
        yield some(ends_of_waits(step)) if step.word == "tick" else None


def ends_of_waits(step: Step) -> Iterator[bool]:
    """For each node whose wait ends while a mandatory one is down, in the order in which that happens, whether it comes up."""
    down = {node for node, mode in step.before.mode.items() if mode == "down"}
    for word, node, *_ in step.lines:
        if word in ("up", "ended") and step.before.mode[node] == "waiting" and down.intersection(step.cluster.nodes[node].mandatory):
            yield word == "up"
        if word == "ended":
            down.add(node)


def comes_up_if_ready(walk: list[Step]) -> Iterator[Verdict]:
    """Behind a boot a node waits though all nodes of its lists are alive, or is up though one isn't."""
    for step in walk:
        waited = [node for node, mode in step.before.mode.items() if mode == "waiting"] + step.words[1:]
        yield some(step.after.is_up(node) != is_ready(step, node) for node in waited) if step.word == "boot" and step.is_done else None


def is_ready(step: Step, node: str) -> bool:
    """Whether a node waits for nobody behind a command."""
    file = step.cluster.nodes[node]
    return file.wait in (None, "undefined") or all(step.after.mode.get(other) != "down" for other in (*file.mandatory, *file.optional))


def waits_for_a_reason(walk: list[Step]) -> Iterator[Verdict]:
    """A local application waits at a node where it may run and all that it needs runs."""
    for step in walk:
        yield some(step.can_run(node, app) for node, apps in step.after.waiting.items() for app in apps if app not in step.spread)


def only_the_clock_moves(walk: list[Step]) -> Iterator[Verdict]:
    """A tick reaches no timer that is set, and something happens."""
    for step in walk:
        is_free = step.word == "tick" and step.is_done and all(due > step.after.now for due in step.before.due)
        yield len(step.answer) > 1 or step.before.lines != step.after.lines if is_free else None


# ---- The laws


@dataclass(frozen=True)
class Law:
    """A law: when it breaks at a command, how an operator is told of it, what a live cluster does, and the rows that show that it breaks by
    the rules of OTP 25: none where it wasn't seen to break. Its name is that of the question."""
    breaks: Breaks
    text: str
    live: str
    rows: tuple[str, ...] = ()

    @property
    def name(self) -> str:
        return self.breaks.__name__

    def first(self, walk: list[Step]) -> Optional[int]:
        """The first command at which it breaks."""
        return next((place for place, breaks in enumerate(self.breaks(walk)) if breaks), None)

    def is_asked(self, walk: list[Step]) -> bool:
        """Whether it is asked at a command."""
        return any(breaks is not None for breaks in self.breaks(walk))


LAWS = (
    Law(runs_at_one_node, "A distributed application runs at one node at most",
        "no: nodes that don't see one another run one each", ("two-instances",)),
    Law(placed_in_first_group, "It is placed in the first group that has a node that can run it",
        "no: a node that doesn't see the better one starts it, too", ("better-node-unseen",)),
    Law(placed_at_best_nodes, "and in a tuple where fewest applications of the file run",
        "no: what OTP itself runs counts, too", ("placed-by-platforms",)),
    Law(taken_over_by_earlier_groups, "Without a `takeover` only a node of an earlier group takes it over",
        "no: so does any node where it is forbidden at the one that runs it, or behind a call that hung", ("forbidden-moves",)),
    Law(fails_over_in_time, "Behind its failover time it runs again, if a node can run it",
        "no: a better node that is up and hasn't started it keeps it from all others", ("stopped-at-a-better-node",)),
    Law(lost_until_due, "What is lost starts nowhere else before its failover time is over",
        "no: a start, a permission or a boot at a node that doesn't know of the loss starts it at once", ("started-within-the-time",)),
    Law(never_left_wanted, "What is to run runs, if a node can run it", "no: each start that hangs",
        ("answered-late", "stopped-at-a-better-node")),
    Law(stop_leaves_quiet, "What is stopped where it runs runs nowhere", "no, where there are two instances: the other one runs on",
        ("two-instances",)),
    Law(stop_all_leaves_nothing, "What is stopped at all nodes is started nowhere",
        "no, where it was started twice: one `stop` takes back one `start`", ("started-twice",)),
    Law(quiet_until_started, "What was stopped starts only by a `start`, or where a node boots it",
        "no: a permission starts it, and so does a start that still hung", ("permit-starts-a-stopped-one", "stop-all-leaves-a-start")),
    Law(start_all_starts_everywhere, "What is started at all nodes is started at each of its list that is up",
        "no: the calls that hang", ("start-all-hangs",)),
    Law(permission_pulls_back, "What is permitted again at a better node that can run it runs at no worse one (profile 2)",
        "no, where there are two instances", ("two-instances",)),
    Law(waits_for_a_reason, "A local application waits only where it is forbidden or lacks something", "not seen to break; one that lacks "
        "something doesn't wait, but fails"),
    Law(comes_up_if_ready, "Behind a boot a node is up just where all nodes of its lists are",
        "no: it looks for others once, and those that it has seen may be gone", ("latecomer",)),
    Law(ends_without_mandatory, "A node whose wait ends without a mandatory one ends", "no: it comes up if it has seen that one",
        ("mandatory-node-ended",)),
    Law(up_until_ended, "A node that is up stays up, or its end is told", "not seen to break"),
    Law(only_the_clock_moves, "While no timer is due time alone changes nothing",
        "no: a node that ends by itself takes its time, and so does one that asks for a lock again", ("ends-in-a-tick",)))


# ---- The tests


@dataclass(frozen=True)
class Walked:
    """A random rehearsal: its kind, and the laws that were asked and that broke by the rules of OTP 25."""
    kind: str
    asked: list[str]
    broken: list[str]


def random_ones(program: str, seeds: range) -> Iterator[Test]:
    """Random rehearsals: by the rules of `run` no law breaks, by those of OTP 25 none of which that wasn't seen."""
    found = []
    for seed in seeds:
        one = rehearsal(seed)
        manual, live = (walk_of(program, rules, one.text) for rules in ("manual", "otp25"))
        wrong = [law.name for law in LAWS if law.first(manual) is not None]
        yield f"laws by the rules of run, rehearsal {seed}", f"{wrong} break" if wrong else None
        broken = [law.name for law in LAWS if law.first(live) is not None]
        new = [law.name for law in LAWS if law.name in broken and not law.rows]
        yield f"laws that hold by the rules of OTP 25, rehearsal {seed}", f"{new} break" if new else None
        found.append(Walked(one.kind, [law.name for law in LAWS if law.is_asked(live)], broken))
    return found


def shown_by_rows(program: str) -> Iterator[Test]:
    """In each row that shows that a law breaks it does, by the rules of OTP 25 alone."""
    for law in LAWS:
        for name in law.rows:
            row = row_at(os.path.join(ROWS, "otp25", f"{name}.row"))
            text = (row.input or b"").decode()
            firsts = [law.first(walk_of(program, rules, text)) for rules in ("manual", "otp25")]
            is_so = firsts[0] is None and firsts[1] is not None
            yield f"{law.name} in {name}.row", None if is_so else f"by either set of rules it breaks at {firsts}"


def law_rows(found: list[Walked]) -> Iterator[str]:
    """The lines of the page's table."""
    for law in LAWS:
        counts = []
        for kind in KINDS:
            asked = [one for one in found if one.kind == kind and law.name in one.asked]
            counts.append(f"{sum(law.name in one.broken for one in asked)} of {len(asked)}")
        rows = ", ".join(f"`{name}`" for name in law.rows)
        yield f"| {law.text} (`{law.name}`) | {law.live} | {' | '.join(counts)} | {rows} |"


def of_random(parts: list[list[Walked]]) -> Iterator[Test]:
    """Each law is asked, and the page has the counts."""
    found = [one for part in parts for one in part]
    for law in LAWS:
        yield f"{law.name} is asked", None if any(law.name in one.asked for one in found) else "in no rehearsal"
    yield "laws by the rules of OTP 25: the page", is_in_page(law_rows(found))


TESTS: tuple[Group | Callable[[str], Iterable[Test]], ...] = (
    Group(random_ones, ranges(FIRST, COUNT, AT_ONCE), end=of_random), shown_by_rows)
