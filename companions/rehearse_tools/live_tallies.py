"""What a sweep on live nodes told (`sweep --rules otp25 --json`), counted while it is read, for `survey`.

Such a line has no standing of an application: it tells the nodes at which it runs, and what hangs at the end of the plan.
"""
from collections.abc import Iterable, Iterator
from itertools import chain
from typing import Optional

from rehearse_tools.endings import Refused
from rehearse_tools.inputs import to_text
from rehearse_tools.outcomes import PLAN, OutcomeReader, refused_event
from rehearse_tools.reading import Fields, fields_of
from rehearse_tools.tallies import PLAN_BYTES, Count, lines_of
from rehearse_tools.words import plural

# What every line of a plan on live nodes has, and none of a plan by the manual's rules.
LIVE_FIELD = "open"


def is_live(line: bytes) -> bool:
    """Whether a line of a plan tells of live nodes."""
    return LIVE_FIELD in fields_of(to_text(line))


def parted(chunks: Iterable[bytes]) -> tuple[bool, Iterator[bytes]]:
    """Whether what a sweep told is of live nodes, and all of it: its first line of a plan tells."""
    read = []
    rest = iter(chunks)
    for chunk in rest:
        read.append(chunk)
        whole = b"".join(read).split(b"\n")[:-1]
        first = next((line for line in whole if line.startswith(PLAN_BYTES)), None)
        if first is not None:
            return is_live(first), chain(read, rest)
    last = next((line for line in lines_of(read) if line.startswith(PLAN_BYTES)), None)
    return last is not None and is_live(last), chain(read)


class LiveTally:
    """The plans of a sweep on live nodes, counted. Names are kept as in `tallies.Tally`."""

    def __init__(self, source: str, most: Optional[int]):
        self.source, self.most = source, most
        self.plans = 0
        # Plans that end with something that hangs, at an event that no node can be given, and at one without end; and those of which
        # some event wasn't answered by `ok`.
        self.hanging, self.refused, self.endless, self.unanswered = Count(), Count(), Count(), Count()
        # For each application the nodes at which it ran at the end, in the order in which that was met.
        self.ran: dict[str, dict[tuple[str, ...], Count]] = {}

    def add_all(self, chunks: Iterable[bytes]) -> None:
        """Counts what a sweep told."""
        reader = OutcomeReader(self.source)
        for number, line in enumerate(map(to_text, lines_of(chunks)), 1):
            if line.startswith(PLAN):
                self.add(number, reader.fields(number, line))
            else:
                reader.read(number, line)

    def add(self, number: int, fields: Fields) -> None:
        """One more plan."""
        name, apps = fields["plan"], [app["name"] for app in fields["applications"]]
        if self.plans and apps != list(self.ran):
            raise Refused(f"{self.source}: line {number}: plan {name} tells of other applications than the first one")
        self.plans += 1
        for app in fields["applications"]:
            self.ran.setdefault(app["name"], {}).setdefault(tuple(app["nodes"]), Count()).add(name, self.most)
        refused = refused_event(fields)
        if refused is not None:
            self.refused.add(f"{name} ({refused})", self.most)
        for count, is_so in ((self.endless, "endless" in fields), (self.unanswered, bool(fields["answers"])),
                             (self.hanging, bool(fields["blocked"] or fields["open"]))):
            if is_so:
                count.add(name, self.most)

    def of(self, app: str, is_counted: range) -> Count:
        """The plans at whose end an application ran at so many nodes."""
        found = [count for nodes, count in self.ran[app].items() if len(nodes) in is_counted]
        names = [name for count in found for name in count.names]
        return Count(sum(count.number for count in found), names[:self.most])


# At how many nodes an application runs that runs nowhere, and one that runs twice or more often.
NOWHERE, SEVERAL = range(1), range(2, 1_000)


def live_tally_of(chunks: Iterable[bytes], source: str, most: Optional[int]) -> LiveTally:
    """What a sweep on live nodes told, counted."""
    tally = LiveTally(source, most)
    tally.add_all(chunks)
    return tally


def lines_about(tally: LiveTally, app: str) -> Iterator[str]:
    """What is told of an application."""
    nowhere, several = tally.of(app, NOWHERE), tally.of(app, SEVERAL)
    yield f"{app}: nowhere at the end of {nowhere.number} of {plural(tally.plans, 'plan')}"
    if nowhere.number:
        yield f"  nowhere: {nowhere}"
    if several.number:
        yield f"  at several nodes: {several}"
    ran = [f"{' and '.join(nodes)} ({plural(count.number, 'plan')})" for nodes, count in tally.ran[app].items() if nodes]
    if ran:
        yield "  ran at the end at " + ", ".join(ran)


def live_summary(tally: LiveTally) -> Iterator[str]:
    """All that is told of a sweep on live nodes."""
    yield f"{plural(tally.plans, 'plan')} on live nodes, {plural(len(tally.ran), 'distributed application')}"
    for count, what in ((tally.hanging, "something hangs at the end of"), (tally.unanswered, "an event isn't answered by ok in"),
                        (tally.refused, "an event can't be given to a node in"), (tally.endless, "an event has no end in")):
        if count.number:
            yield f"{what} {plural(count.number, 'plan')}: {count}"
    for app in tally.ran:
        yield ""
        yield from lines_about(tally, app)


def live_failures(tally: LiveTally, wanted: Iterable[str]) -> Iterator[str]:
    """What --fail-if names: for each of its words that applies, a line."""
    found = {"refused": [("an event", tally.refused.number)], "hangs": [("something", tally.hanging.number)],
             "nowhere": [(app, tally.of(app, NOWHERE).number) for app in tally.ran],
             "twice": [(app, tally.of(app, SEVERAL).number) for app in tally.ran]}
    for word, counts in found.items():
        some = [f"{name} in {plural(number, 'plan')}" for name, number in counts if number]
        if some and word in wanted:
            yield f"--fail-if {word}: {', '.join(some)}"
