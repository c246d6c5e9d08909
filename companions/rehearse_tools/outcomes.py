"""What `sweep --json` tells (docs/SCRIPTS.md), read into dataclasses."""
from collections.abc import Iterable, Sequence
from dataclasses import dataclass
from typing import Optional

from rehearse_tools.endings import Refused
from rehearse_tools.reading import Fields, Standing, fields_of, refusal_in

# With what a line begins that tells of a plan.
PLAN = '{"plan":'


@dataclass(frozen=True)
class RefusedEvent:
    """The event of a plan that was refused: its number, from 1 on, and why."""
    number: int
    why: str

    def __str__(self) -> str:
        return f"{self.number} {self.why}"


@dataclass
class Outcome:
    """What a sweep tells of a plan: its name, how many events were accepted, how many failovers and takeovers there were, which
    event was refused, and where each distributed application stands."""
    name: str
    accepted: int
    failovers: int
    takeovers: int
    standing: dict[str, Standing]
    refused: Optional[RefusedEvent] = None

    def tried(self, events: Sequence[str]) -> list[str]:
        """Those of the plan's events that were accepted, and the one that was refused."""
        return list(events[:self.accepted + (self.refused is not None)])


def refused_event(fields: Fields) -> Optional[RefusedEvent]:
    """The event that was refused, by the line of its plan."""
    event = fields.get("refused")
    return None if event is None else RefusedEvent(event["event"], event["answer"].removeprefix("refused "))


def outcome_of(fields: Fields) -> Outcome:
    """The outcome that a line tells."""
    return Outcome(fields["plan"], fields["accepted"], fields["failovers"], fields["takeovers"],
                   {app["name"]: Standing(app["standing"], app.get("node", "")) for app in fields["applications"]}, refused_event(fields))


class OutcomeReader:
    """Reads what a sweep tells, line by line: the cluster and the answers of the base, and then the plans, which tell all of the same
    applications. `source` names it for which an error is told."""

    def __init__(self, source: str):
        self.source = source
        self.apps: Optional[list[str]] = None

    def read(self, number: int, line: str) -> Optional[Outcome]:
        """The outcome that the line of this number tells; or none, where it tells of the cluster or the base."""
        if line.startswith(PLAN):
            return self.checked(number, outcome_of(self.fields(number, line)))
        fields = self.fields(number, line)
        if fields.get("bad"):
            raise Refused(f"{self.source}: the sweep was refused: bad line {fields['line']} (counted behind ===)")
        if "refused" in fields:
            raise Refused(f"{self.source}: the sweep was refused: {refusal_in(fields)}")
        if self.apps is not None or ("command" not in fields and "profile" not in fields):
            raise Refused(f"{self.source}: line {number} is no outcome of a plan: {line}")
        return None

    def fields(self, number: int, line: str) -> Fields:
        """The fields of a line."""
        try:
            return fields_of(line)
        except Refused:
            raise Refused(f"{self.source}: line {number} is none that `sweep --json` prints: {line[:100]}") from None

    def checked(self, number: int, outcome: Outcome) -> Outcome:
        """An outcome that tells of the same applications as the first one."""
        apps = list(outcome.standing)
        self.apps = apps if self.apps is None else self.apps
        if apps != self.apps:
            raise Refused(f"{self.source}: line {number}: plan {outcome.name} tells of other applications than the first one")
        return outcome


def outcomes_in(lines: Iterable[str], source: str) -> list[Outcome]:
    """The outcomes in what a sweep told."""
    reader = OutcomeReader(source)
    found = (reader.read(number, line) for number, line in enumerate(lines, 1))
    return [outcome for outcome in found if outcome is not None]
