"""The tables of a page, as their rows: all steps, and all plans with what became of each distributed application."""
from collections.abc import Mapping, Sequence
from dataclasses import dataclass
from typing import Optional

from rehearse_tools.outcomes import RefusedEvent
from rehearse_tools.page_data import Step
from rehearse_tools.page_names import Names
from rehearse_tools.page_plans import PlanTold
from rehearse_tools.reading import Standing
from rehearse_tools.words import plural

FIRST = "first state"
# From so many milliseconds on a time is told in hours, minutes and seconds.
LONG = 60_000
WORDS = {"lost": "\u2026 lost", "wanted": "\u2717 wanted", "quiet": "\u2013 quiet"}
# What plans are looked for by, in the order of their boxes, and what these are called. Of live nodes there is a box where they were
# asked.
KINDS = {"nowhere": "nowhere", "moved": "moved", "refused": "refused", "live": "differs live"}
# What is told of live nodes where they come to what the rules say.
AGREES = "agrees"


@dataclass(frozen=True)
class Text:
    """A text that is shown, and all of it, which may be longer."""
    shown: str
    full: str

    @property
    def is_shorter(self) -> bool:
        return self.shown != self.full


@dataclass(frozen=True)
class StepRow:
    """A step as the table of all steps has it."""
    number: int
    time: Text
    notes: list[str]
    command: str
    answer: str


@dataclass(frozen=True)
class Became:
    """What became of an application: how it is shown, the words for it, and the node that they name, or ""."""
    look: str
    words: str
    node: str


@dataclass(frozen=True)
class Cell:
    """The cell for what became of an application: how it is shown, its words, and the node that they name."""
    look: str
    words: str
    node: Text


@dataclass(frozen=True)
class PlanRow:
    """A plan as the table of plans has it."""
    name: Text
    kinds: list[str]
    is_bad: bool
    cells: list[Cell]
    events: Text
    refused: str
    counts: list[str]


@dataclass(frozen=True)
class Box:
    """A box that leaves only the plans of a kind, what it is called, and how many of them there are."""
    kind: str
    label: str
    count: int


@dataclass(frozen=True)
class Plans:
    """The table of plans: its heads, its rows, its boxes, and how many plans there are of each kind."""
    heads: list[str]
    rows: list[PlanRow]
    boxes: list[Box]
    count: str


def time_of(clock: int) -> str:
    """A time, as hours, minutes, seconds and milliseconds where it is long."""
    if clock < LONG:
        return f"{clock} ms"
    seconds, rest = divmod(clock, 1000)
    minutes, seconds = divmod(seconds, 60)
    return f"{minutes // 60}:{minutes % 60:02}:{seconds:02}" + (f".{rest:03}" if rest else "")


def story(steps: Sequence[Step]) -> list[StepRow]:
    """All steps with their answers."""
    return [StepRow(number, Text(time_of(step.report.now), f"{step.report.now} ms"), step.notes, step.command or FIRST,
                    "\n".join(step.answer))
            for number, step in enumerate(steps)]


def became(standing: Standing, base: Standing) -> Became:
    """What became of an application that stood as it did behind the base."""
    if standing.is_running:
        return Became("stays", "= ", standing.node) if standing == base else Became("moved", "\u2192 ", standing.node)
    return Became(standing.word, WORDS[standing.word] + (", was at " if standing.node else ""), standing.node)


def kinds_of(refused: object, shown: Sequence[Became], live: str) -> list[str]:
    """What a plan may be looked for by."""
    looks = {each.look for each in shown}
    found = {"nowhere": looks & set(WORDS), "moved": "moved" in looks, "refused": refused is not None, "live": live not in ("", AGREES)}
    return [kind for kind in KINDS if found[kind]]


def shorter(text: str, mark: str, names: Names) -> Text:
    """A text whose parts, which stand apart by a mark, are nodes perhaps, as a table shows them."""
    return Text(mark.join(map(names.shown, text.split(mark))), text)


def refused_text(refused: Optional[RefusedEvent]) -> str:
    """What is told of an event that was refused."""
    return "" if refused is None else f"\u2717 refused: {refused}"


def plan_row(plan: PlanTold, base: dict[str, Standing], names: Names, live: str) -> PlanRow:
    """The row of a plan. `live` is what live nodes do, or "" where they weren't asked."""
    outcome = plan.outcome
    nodes = [Cell("stays" if live == AGREES else "lost", live, Text("", ""))] if live else []
    shown = [became(standing, base[app]) for app, standing in outcome.standing.items()]
    events = Text("; ".join(shorter(event, " ", names).shown for event in plan.events), "; ".join(plan.events))
    return PlanRow(
        shorter(plan.name, "+", names), kinds_of(outcome.refused, shown, live),
        outcome.refused is not None or any(each.look in ("lost", "wanted") for each in shown),
        [Cell(each.look, each.words, Text(names.shown(each.node), each.node)) for each in shown] + nodes, events,
        refused_text(outcome.refused),
        [f"{outcome.accepted} of {len(plan.events)}", str(outcome.failovers), str(outcome.takeovers)])


def table_of(plans: Sequence[PlanTold], base: dict[str, Standing], names: Names, live: Mapping[str, str]) -> Plans:
    """The table of plans behind a base. `live` has a word for each plan that tells what live nodes do, or nothing."""
    rows = [plan_row(plan, base, names, live.get(plan.name, "")) for plan in plans]
    boxes = [Box(kind, label, sum(kind in row.kinds for row in rows)) for kind, label in KINDS.items() if live or kind != "live"]
    bad = sum(row.is_bad for row in rows)
    return Plans(
        ["Plan", *base, *(["live nodes"] if live else []), "Its events", "accepted", "failovers", "takeovers"], rows, boxes,
        f"{plural(len(plans), 'plan')}; {bad} of them {'leaves' if bad == 1 else 'leave'} an application lost or wanted, or "
        f"{'was' if bad == 1 else 'were'} refused")
