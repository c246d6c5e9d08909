"""The plans of a page: what a sweep told of each, and its steps one by one, which the program makes again.

A sweep tells no times. So each plan is made once more by `run`, with a report behind each event, and its ticks are cut where a
timer fires within them, so that each loss and each start has its moment. That it ends as the sweep told is checked.
"""
from collections.abc import Iterator, Sequence
from dataclasses import dataclass

from rehearse_tools.courses import time_passing
from rehearse_tools.endings import Refused
from rehearse_tools.inputs import Plan, to_bytes, words_of
from rehearse_tools.outcomes import Outcome
from rehearse_tools.page_data import Step
from rehearse_tools.program import Program
from rehearse_tools.progress import Bar
from rehearse_tools.reading import Report

# What goes into one run of the program has events of so many bytes, and reports of so many lines.
MOST_BYTES = 2_000_000
MOST_LINES = 400_000
# An event with the comments above it.
Event = tuple[str, list[str]]


@dataclass(frozen=True)
class PlanTold:
    """A plan: its name, its events with one blank between their words, and what the program tells of it."""
    name: str
    events: list[str]
    outcome: Outcome

    @property
    def accepted(self) -> list[str]:
        """The events that were accepted."""
        return self.events[:self.outcome.accepted]


def plans_told(outcomes: Sequence[Outcome], plans: Sequence[Plan]) -> list[PlanTold]:
    """The plans, each with what the program tells of it."""
    return [PlanTold(plan.name, [" ".join(words_of(event)) for event in plan.events], outcome)
            for plan, outcome in zip(plans, outcomes)]


def shares(plans: Sequence[PlanTold], report: Report) -> Iterator[list[PlanTold]]:
    """The plans in lists that go into one run of the program each. A report has about as many lines as this one."""
    share: list[PlanTold] = []
    size = lines = 0
    for plan in plans:
        size += sum(len(to_bytes(event)) + 10 for event in plan.events)
        lines += len(plan.events) * len(report.lines)
        if share and (size > MOST_BYTES or lines > MOST_LINES):
            yield share
            share, size, lines = [], 0, 0
        share.append(plan)
    if share:
        yield share


def played(program: Program, cluster: str, base: Sequence[str], lists: Sequence[Sequence[Event]], source: str) -> list[list[Step]]:
    """Lists of events, each tried behind the base, as steps."""
    script = list(base)
    for events in lists:
        script += [line for event, _ in events for line in (event, "show")] + ["undo"] * len(events)
    # One CR at the end of a line is dropped: so a line keeps its own.
    told = iter(program.answers(cluster, [f"{line}\r" for line in script], source)[len(base):])
    found = []
    for events in lists:
        found.append([Step(event, notes, next(told).lines, next(told).report) for event, notes in events])
        for _ in events:
            next(told)
    return found


def is_tick(event: str) -> bool:
    """Whether an event lets time pass."""
    return words_of(event)[0] == "tick"


def pieces_of(event: str, before: Report) -> list[str]:
    """The ticks that together last as long as this one, and end at each timer of the report before it that fires within it: none is set
    within a tick. Another event is one piece."""
    if not is_tick(event):
        return [event]
    end = before.now + time_passing(event)
    stops = [before.now, *before.dues_until(end), end]
    return [f"tick {to - since}" for since, to in zip(stops, stops[1:])]


def cut(step: Step, before: Report) -> list[Event]:
    """The event of a step; a tick as several, which end at each timer of the report before it that fires within it."""
    pieces = pieces_of(step.command, before) if is_tick(step.command) else [step.command]
    notes = [f"{step.command}, cut where a timer fires"] if len(pieces) > 1 else []
    return [(piece, notes) for piece in pieces]


def cut_at_timers(steps: Sequence[Step], report: Report) -> list[Event]:
    """The events of some steps behind a report, with each tick cut at the timers that fire within it."""
    found: list[Event] = []
    for step in steps:
        found += cut(step, report)
        report = step.report
    return found


def refused_step(plan: PlanTold, report: Report) -> list[Step]:
    """The step of the event that was refused, if one was: nothing has changed behind it."""
    refused = plan.outcome.refused
    return [] if refused is None else [Step(plan.events[refused.number - 1], [], [f"refused {refused.why}"], report)]


def check_end(plan: PlanTold, steps: Sequence[Step], report: Report, source: str) -> None:
    """Refuses a plan whose steps end otherwise than the sweep told."""
    is_refused = any(step.answer[0] != "ok" for step in steps)
    if is_refused or (steps[-1].report if steps else report).apps != plan.outcome.standing:
        raise Refused(f"{source}: plan {plan.name} ends otherwise than the sweep tells")


def timelines(program: Program, cluster: str, base: Sequence[str], report: Report, plans: Sequence[PlanTold],
              source: str) -> Iterator[tuple[str, list[Step]]]:
    """For each plan its name and its steps, behind a base that ends with a report."""
    bar = Bar(len(plans), "plans drawn")
    for share in shares(plans, report):
        whole = played(program, cluster, base, [[(event, []) for event in plan.accepted] for plan in share], source)
        events = [cut_at_timers(steps, report) for steps in whole]
        for plan, steps in zip(share, played(program, cluster, base, events, source)):
            check_end(plan, steps, report, source)
            yield plan.name, steps + refused_step(plan, steps[-1].report if steps else report)
        bar.go_on(len(share))
