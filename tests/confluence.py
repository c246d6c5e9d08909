"""When the order of messages matters: random rehearsals (random_live.py) in several orders of messages, by the model of live nodes, and by
the program, with any words on its command line by which it takes messages in one order or another (WORDS).

Messages from one process to another keep their order; which of those that are on their way arrives next may differ, and so may which of
several timers fires first that are due at one moment, and how long a process sleeps that asks for a lock in vain. What is told of a
command is its answer and the report behind it, each as a first line and a set of lines, a line of a node with its node: of the
lines of one answer the order counts nothing. Two orders part at the first command of which they tell otherwise.

The conditions say where no two orders part, in what the file tells, and the reports and answers in the order in which messages are sent:
no list has a tuple, each node waits for all others, nothing hangs before the command, and no two timers are due at one moment that it
reaches; a failover time of 0 counts as one that is due at once. Within them no two of the orders that are tried may part. Without any
one of them some rehearsal parts, which is told by name.

Of some kinds of commands less is asked (orderly.py): it is proved that they come to the same in every order, of some under more conditions
than are asked there. Nor may two orders part at one of these.
"""
import os
import random
from collections.abc import Callable, Iterable, Iterator
from dataclasses import dataclass
from typing import Optional, Union

import orderly
from agreement import has_tuple, ranges
from groups import Group
from lint_measure import is_in_page, shown
from live_conditions import lacks_lists
from live_told import Lines, Told, by_model, by_program, now_of
from orderly import At, Kind, hangs
from random_live import KINDS, Rehearsal, rehearsal, sane, wild
from random_spread import beginning, gathering, gathering_apart, loss, loss_of_several, moving, returning
from support import TOP

from rehearse_tools.inputs import is_command, split_input, words_of
from rehearse_tools.otp25.cluster import ClusterFile, cluster_of

# Random rehearsals of any kind, and seeds of which those are taken whose files are within the conditions.
FIRST, COUNT, AT_ONCE = 50_000, 500, 25
KEPT_FIRST, KEPT_COUNT, KEPT_AT_ONCE = 70_000, 2_000, 100
# That in which messages are sent is among them.
ORDERS = 8
# At least so many rehearsals have to have such a file, with so many commands within the conditions.
LEAST_REHEARSALS, LEAST_COMMANDS = 200, 2_000
# Seeds of random clusters that lose the node at which their one application runs, of some in which it is started, of some in which it is
# permitted, forbidden and taken over, and of some in which a node crashes and comes back.
LOST_FIRST, LOST_COUNT, LOST_AT_ONCE = 75_000, 200, 50
BEGIN_FIRST, BEGIN_COUNT, BEGIN_AT_ONCE = 76_000, 200, 50
MOVE_FIRST, MOVE_COUNT, MOVE_AT_ONCE = 77_000, 200, 50
RETURN_FIRST, RETURN_COUNT, RETURN_AT_ONCE = 78_000, 200, 50
# Of some in which all nodes boot several applications, and of some that lose several with a node.
GATHER_FIRST, GATHER_COUNT, GATHER_AT_ONCE = 79_000, 200, 50
LOST_TOGETHER_FIRST, LOST_TOGETHER_COUNT, LOST_TOGETHER_AT_ONCE = 79_500, 200, 50
# For each condition a rehearsal that breaks it alone, and in which orders part: a script of tests/live, or a random one of a seed; and in
# how many orders that shows.
NEEDED: tuple[tuple[str, Union[str, int], int], ...] = (
    ("plain lists", "permit-within-a-tuple.txt", ORDERS), ("complete lists", 54_847, ORDERS),
    ("nothing hangs", "blocked-permit.txt", ORDERS), ("one timer at a time", "crossed-lists.txt", ORDERS),
    ("one loss at once", "crossed-lists-at-once.txt", 200))
# More words on the program's command line, by each of which it has to tell what the model does, within the conditions.
WORDS: tuple[tuple[str, ...], ...] = ((), ("--pick", "last"), ("--pick", "7"))

Test = tuple[str, Optional[str]]


# ---- The conditions


def times_of(report: Lines) -> dict[int, set[str]]:
    """For each moment at which timers are due what is due then: the end of a node's wait, or of an application's failover time, which
    each standby has."""
    due: dict[int, set[str]] = {}
    for line, _ in report[1]:
        _, _, timer = line.partition("  timer ")
        if timer:
            kind, *rest = words_of(timer)
            due.setdefault(int(rest[-1]), set()).add(line if kind == "sync" else rest[0])
    return due


def broken_by_file(cluster: ClusterFile) -> set[str]:
    """The conditions that a file breaks: a list has a tuple, or a node doesn't wait for all others."""
    return {name for name, breaks in (("plain lists", has_tuple), ("complete lists", lacks_lists)) if breaks(cluster)}


def ends_two(cluster: ClusterFile, before: Lines, answer: Lines) -> bool:
    """A node ends at which two applications run that fail over at once."""
    ended = [words_of(line)[1] for line, _ in answer[1] if line.startswith("ended ")]
    running = [words_of(line)[2] for line, _ in before[1] for node in ended if line.startswith(f"{node}  running ")]
    return sum(app in cluster.entries and cluster.entries[app].timeout == 0 for app in running) > 1


def broken_by_step(cluster: ClusterFile, command: str, before: Lines, answer: Lines) -> set[str]:
    """The conditions that a command breaks: a call is open before it or a process stands in the middle of something, or it reaches two
    timers that are due at one moment, or two losses that are due at once."""
    word, *rest = words_of(command)
    end = now_of(before) + int(rest[0]) if word == "tick" else 0
    meet = any(moment <= end and len(due) > 1 for moment, due in times_of(before).items())
    return {name for name, is_so in (("nothing hangs", hangs(before)), ("one timer at a time", meet),
                                     ("one loss at once", ends_two(cluster, before, answer))) if is_so}


@dataclass(frozen=True)
class Measured:
    """A rehearsal: its commands, the conditions that each of them breaks, those of the file the first one, which of them are of each kind of
    which it is proved that they come to the same, and the first command at which two orders part."""
    name: str
    kind: str
    commands: list[str]
    broken: list[set[str]]
    proved: dict[str, set[int]]
    first: Optional[int]

    @property
    def within(self) -> int:
        """So many commands, from the first one on, break no condition."""
        return next((place for place, names in enumerate(self.broken) if names), len(self.commands))

    @property
    def wrong(self) -> Optional[str]:
        """At which command two orders part within the conditions, or None."""
        if self.first is None or self.first >= self.within:
            return None
        return f"two orders part at command {self.first + 1}, {self.commands[self.first]}"

    @property
    def wrong_proof(self) -> Optional[str]:
        """At which command of those that are proved alike two orders part, or None."""
        kind = next((words for words, places in self.proved.items() if self.first in places), None)
        return None if kind is None or self.first is None else f"two orders part at command {self.first + 1}: {kind}"


def broken_in(cluster: ClusterFile, commands: list[str], told: list[Told]) -> list[set[str]]:
    """The conditions that each command of a rehearsal breaks."""
    later = [broken_by_step(cluster, command, before.report, one.answer) for command, before, one in zip(commands[1:], told, told[1:])]
    return [broken_by_file(cluster), *later]


def proved_in(cluster: ClusterFile, commands: list[str], told: list[Told]) -> dict[str, set[int]]:
    """Which commands of a rehearsal are of each kind of which it is proved that they come to the same."""
    given = [At(cluster, command, before.report, one) for command, before, one in zip(commands[1:], told, told[1:])]
    return {kind.words: {place for place, at in enumerate(given, 1) if kind.is_such(at)} for kind in orderly.ALL}


def parting(told: list[list[Told]]) -> Optional[int]:
    """The first command of which several orders tell otherwise than the first one."""
    return next((place for place, one in enumerate(told[0]) if any(other[place] != one for other in told[1:])), None)


def measured(one: Rehearsal, told: list[list[Told]]) -> Measured:
    """A rehearsal of which something is told in several orders."""
    parts = split_input(one.text)
    cluster, commands = cluster_of(parts.cluster), list(filter(is_command, parts.lines))
    broken, proved = broken_in(cluster, commands, told[0]), proved_in(cluster, commands, told[0])
    return Measured(str(one.seed), one.kind, commands, broken, proved, parting(told))


# ---- The tests


def in_orders(one: Rehearsal, orders: int = ORDERS) -> Measured:
    """A rehearsal by the model, in several orders."""
    return measured(one, [by_model(one.text, order) for order in range(orders)])


def anywhere(_program: str, seeds: range) -> Iterator[Test]:
    """Random rehearsals of any kind."""
    found = [in_orders(rehearsal(seed)) for seed in seeds]
    for one in found:
        yield f"orders of messages, rehearsal {one.name}", one.wrong
        yield f"orders of messages at what is proved alike, rehearsal {one.name}", one.wrong_proof
    return found


def is_kept(seed: int) -> bool:
    """Whether the cluster file of a random rehearsal is within the conditions."""
    cluster = {"sane": sane, "wild": wild}[KINDS[seed % 2]](random.Random(seed))
    return not broken_by_file(cluster_of(cluster.text))


def kept(_program: str, seeds: range) -> Iterator[Test]:
    """Random rehearsals whose files are within the conditions."""
    found = [in_orders(rehearsal(seed)) for seed in seeds if is_kept(seed)]
    for one in found:
        yield f"orders of messages within the conditions, rehearsal {one.name}", one.wrong
    return found


def proved_alike(where: str, rehearsals: Iterable[Rehearsal]) -> Iterator[Test]:
    """At none of their commands of a kind of which it is proved two orders part."""
    found = [in_orders(one) for one in rehearsals]
    for one in found:
        yield f"orders of messages at a {where}, cluster {one.name}", one.wrong_proof
    return found


def losses(_program: str, seeds: range) -> Iterator[Test]:
    """Clusters that lose a node."""
    return (yield from proved_alike("loss", map(loss, seeds)))


def beginnings(_program: str, seeds: range) -> Iterator[Test]:
    """Clusters in which an application is started."""
    return (yield from proved_alike("start", map(beginning, seeds)))


def moves(_program: str, seeds: range) -> Iterator[Test]:
    """Clusters in which an application moves."""
    return (yield from proved_alike("move", map(moving, seeds)))


def returns(_program: str, seeds: range) -> Iterator[Test]:
    """Clusters in which a node comes back."""
    return (yield from proved_alike("return", map(returning, seeds)))


def gatherings(_program: str, seeds: range) -> Iterator[Test]:
    """Clusters all of whose nodes boot, with lists of all nodes, and with lists that lack some."""
    return (yield from proved_alike("boot of all nodes", (make(seed) for seed in seeds for make in (gathering, gathering_apart))))


def losses_of_several(_program: str, seeds: range) -> Iterator[Test]:
    """Clusters that lose several applications with a node."""
    return (yield from proved_alike("loss of several", map(loss_of_several, seeds)))


def enough_of(found: list[Measured], kinds: tuple[Kind, ...]) -> Optional[str]:
    """Which kind of command there isn't enough of, or None."""
    counts = {kind.words: sum(len(one.proved[kind.words]) for one in found) for kind in kinds}
    few = next((kind for kind in kinds if counts[kind.words] < kind.least), None)
    return None if few is None else f"{counts[few.words]} of {few.words}"


def rows_of(found: list[Measured], kinds: tuple[Kind, ...]) -> list[str]:
    """The page's table of what is proved to end alike: how many such commands there are, and at how many two orders part."""
    places = {kind.words: [one.proved[kind.words] for one in found] for kind in kinds}
    return [f"| {words} | {sum(map(len, those))} | {sum(one.first in these for one, these in zip(found, those))} |"
            for words, those in places.items()]


def of_losses(parts: list[list[Measured]]) -> Iterator[Test]:
    """There are enough failovers at several nodes, and the page has their count."""
    found = [one for part in parts for one in part]
    yield "orders of messages: enough failovers at several nodes", enough_of(found, orderly.LOST)
    yield "orders of messages at failovers at several nodes: the page", is_in_page(rows_of(found, orderly.LOST))


def of_beginnings(parts: list[list[Measured]]) -> Iterator[Test]:
    """There are enough starts of distributed applications, and the page has their counts."""
    found = [one for part in parts for one in part]
    yield "orders of messages: enough starts of distributed applications", enough_of(found, orderly.BEGUN)
    yield "orders of messages at starts of distributed applications: the page", is_in_page(rows_of(found, orderly.BEGUN))


def of_moves(parts: list[list[Measured]]) -> Iterator[Test]:
    """There are enough takeovers, permits and forbids of distributed applications, and the page has their counts."""
    found = [one for part in parts for one in part]
    yield "orders of messages: enough moves", enough_of(found, orderly.MOVED)
    yield "orders of messages at moves: the page", is_in_page(rows_of(found, orderly.MOVED))


def of_returns(parts: list[list[Measured]]) -> Iterator[Test]:
    """There are enough boots of nodes that come back, and the page has their count."""
    found = [one for part in parts for one in part]
    yield "orders of messages: enough returns", enough_of(found, orderly.RETURNED)
    yield "orders of messages at returns: the page", is_in_page(rows_of(found, orderly.RETURNED))


def of_gatherings(parts: list[list[Measured]]) -> Iterator[Test]:
    """There are enough boots of the last node, and the page has their count."""
    found = [one for part in parts for one in part]
    yield "orders of messages: enough boots of the last node", enough_of(found, orderly.GATHERED)
    yield "orders of messages at boots of the last node: the page", is_in_page(rows_of(found, orderly.GATHERED))


def of_losses_of_several(parts: list[list[Measured]]) -> Iterator[Test]:
    """There are enough ticks through several failovers, and the page has their count."""
    found = [one for part in parts for one in part]
    yield "orders of messages: enough ticks through failovers", enough_of(found, orderly.LOST_TOGETHER)
    yield "orders of messages at ticks through failovers: the page", is_in_page(rows_of(found, orderly.LOST_TOGETHER))


def by_words(program: str, seeds: range) -> Iterator[Test]:
    """The same rehearsals by the program, with several command lines, beside the model in the order in which messages are sent."""
    for one in (rehearsal(seed) for seed in seeds if is_kept(seed)):
        told = [by_model(one.text, 0), *(by_program(program, one.text, words) for words in WORDS)]
        yield f"orders of the program within the conditions, rehearsal {one.seed}", measured(one, told).wrong


def needed(_program: str) -> Iterator[Test]:
    """Each condition is needed: where it alone is broken, two orders part."""
    for name, source, orders in NEEDED:
        found = in_orders(rehearsal(source) if isinstance(source, int) else script(source), orders)
        broken = set().union(*found.broken[:len(found.commands) if found.first is None else found.first + 1])
        is_so = found.first is not None and broken == {name}
        yield f"orders of messages: {name} is needed", None if is_so else f"{source}: parts at {found.first}, breaks {sorted(broken)}"


def script(name: str) -> Rehearsal:
    """A script of tests/live."""
    with open(os.path.join(TOP, "tests", "live", name), encoding="utf-8") as file:
        return Rehearsal(0, name, file.read())


def row_of(text: str, found: list[Measured]) -> str:
    """A line of the page's table."""
    parted = [one for one in found if one.first is not None]
    return (f"| {text} | {len(found):,} | {shown(len(parted), len(found))} | {sum(len(one.commands) for one in found):,} "
            f"| {sum(one.within for one in found):,} | {sum(one.wrong is not None for one in found)} |")


def of_anywhere(parts: list[list[Measured]]) -> Iterator[Test]:
    """Somewhere orders do part, and the page has the counts."""
    found = [one for part in parts for one in part]
    yield "orders of messages: they matter", None if any(one.first is not None for one in found) else "no two orders part anywhere"
    yield "orders of messages: enough of what is proved alike", enough_of(found, orderly.ANYWHERE)
    yield "orders of messages at what is proved alike: the page", is_in_page(rows_of(found, orderly.ANYWHERE))
    rows = [row_of(kind.capitalize(), [one for one in found if one.kind == kind]) for kind in KINDS]
    yield "orders of messages: the page", is_in_page([*rows, row_of("All", found)])


def of_kept(parts: list[list[Measured]]) -> Iterator[Test]:
    """Enough rehearsals and commands are within the conditions, and the page has the counts."""
    found = [one for part in parts for one in part]
    within = sum(one.within for one in found)
    is_enough = len(found) >= LEAST_REHEARSALS and within >= LEAST_COMMANDS
    yield "orders of messages: enough within the conditions", None if is_enough else f"{len(found)} rehearsals, {within} commands"
    yield "orders of messages within the conditions: the page", is_in_page([row_of("Plain and complete lists", found)])


KEPT = ranges(KEPT_FIRST, KEPT_COUNT, KEPT_AT_ONCE)
TESTS: tuple[Group | Callable[[str], Iterable[Test]], ...] = (
    Group(anywhere, ranges(FIRST, COUNT, AT_ONCE), is_long=True, end=of_anywhere), Group(kept, KEPT, is_long=True, end=of_kept),
    Group(by_words, KEPT), Group(losses, ranges(LOST_FIRST, LOST_COUNT, LOST_AT_ONCE), end=of_losses),
    Group(beginnings, ranges(BEGIN_FIRST, BEGIN_COUNT, BEGIN_AT_ONCE), end=of_beginnings),
    Group(moves, ranges(MOVE_FIRST, MOVE_COUNT, MOVE_AT_ONCE), end=of_moves),
    Group(returns, ranges(RETURN_FIRST, RETURN_COUNT, RETURN_AT_ONCE), end=of_returns),
    Group(gatherings, ranges(GATHER_FIRST, GATHER_COUNT, GATHER_AT_ONCE), end=of_gatherings),
    Group(losses_of_several, ranges(LOST_TOGETHER_FIRST, LOST_TOGETHER_COUNT, LOST_TOGETHER_AT_ONCE), end=of_losses_of_several), needed)
