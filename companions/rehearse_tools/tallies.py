"""What a sweep told, counted while it is read: no plan is kept but by its name, and of these only as many as are told.

What the lines of plans tell of an application is much the same. So each such part of a line is understood once, by
`outcomes.OutcomeReader`, and then known by its bytes.
"""
from collections.abc import Iterable, Iterator, Sequence
from dataclasses import dataclass, field
from typing import Optional

from rehearse_tools.endings import Refused
from rehearse_tools.inputs import to_text
from rehearse_tools.outcomes import PLAN, OutcomeReader, RefusedEvent, refused_event
from rehearse_tools.reading import Standing, fields_of

# What stands in the line of a plan before its applications, and between each two. In a name no quote stands without a backslash before
# it, so neither does one of these.
APPS, NEXT_APP = b',"applications":[', b'},{"name":'
PLAN_BYTES = PLAN.encode()


@dataclass
class Count:
    """So many plans, and the names of the first of them."""
    number: int = 0
    names: list[str] = field(default_factory=list)

    def add(self, name: str, most: Optional[int]) -> None:
        """One more plan, whose name is kept if there aren't as many already."""
        self.number += 1
        if most is None or len(self.names) < most:
            self.names.append(name)

    def __str__(self) -> str:
        more = self.number - len(self.names)
        return ", ".join(self.names) + (f" and {more} more" if more else "")


@dataclass
class Stood:
    """How an application stood at the end of some plans: where it runs, or why it doesn't."""
    standing: Standing
    count: Count = field(default_factory=Count)


def as_told(standing: Standing) -> Standing:
    """A standing without the node at which an application was lost."""
    return standing if standing.is_running else Standing(standing.word)


def lines_of(chunks: Iterable[bytes]) -> Iterator[bytes]:
    """The lines, without their ends."""
    rest = b""
    for chunk in chunks:
        *whole, rest = (rest + chunk).split(b"\n")
        yield from (line.removesuffix(b"\r") for line in whole)
    if rest:
        yield rest


class Tally:
    """The plans of a sweep, counted. Names are kept of at most so many plans for each application and each way in which it doesn't
    run, and of so many that were refused; of all of them where that is None."""

    def __init__(self, source: str, most: Optional[int]):
        self.reader, self.most = OutcomeReader(source), most
        self.plans = 0
        self.refused = Count()
        # For each place in the list of applications, what each of its parts tells.
        self.known: list[dict[bytes, Stood]] = []
        # For each application how it stood, in the order in which that was met.
        self.stood: dict[str, dict[Standing, Stood]] = {}

    @property
    def apps(self) -> list[str]:
        """The distributed applications."""
        return list(self.stood)

    def add_all(self, chunks: Iterable[bytes]) -> None:
        """Counts what a sweep told."""
        for number, line in enumerate(lines_of(chunks), 1):
            front, _, apps = line.partition(APPS)
            parts = apps.split(NEXT_APP)
            stood = [known.get(part) for known, part in zip(self.known, parts)]
            if self.plans and len(parts) == len(self.known) and None not in stood and front.startswith(PLAN_BYTES):
                fields = fields_of(to_text(front) + "}")
                self.count(fields["plan"], refused_event(fields), [each for each in stood if each is not None])
            else:
                self.read(number, line, parts)
        if not self.plans:
            raise Refused(f"{self.reader.source}: it has no outcome of a plan, so it isn't what `sweep --json` printed")

    def read(self, number: int, line: bytes, parts: list[bytes]) -> None:
        """Reads a line, and keeps what its parts tell."""
        outcome = self.reader.read(number, to_text(line))
        if outcome is None:
            return
        if not self.plans:
            self.known = [{} for _ in parts]
        told = ((app, as_told(standing)) for app, standing in outcome.standing.items())
        stood = [self.stood.setdefault(app, {}).setdefault(standing, Stood(standing)) for app, standing in told]
        for known, part, each in zip(self.known, parts, stood):
            known[part] = each
        self.count(outcome.name, outcome.refused, stood)

    def count(self, name: str, refused: Optional[RefusedEvent], stood: Sequence[Stood]) -> None:
        """One more plan, at whose end the applications stood like this."""
        self.plans += 1
        if refused is not None:
            self.refused.add(f"{name} ({refused})", self.most)
        for each in stood:
            if each.standing.is_running:
                each.count.number += 1
            else:
                each.count.add(name, self.most)


def tally_of(chunks: Iterable[bytes], source: str, most: Optional[int]) -> Tally:
    """What a sweep told, counted."""
    tally = Tally(source, most)
    tally.add_all(chunks)
    return tally
