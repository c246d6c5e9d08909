"""The plans of a sweep once more, with their times: `survey`, `compare` and `report` have them.

A sweep tells where each application stands at the end of a plan, and no times. So the program goes through each plan once more, by
`run --json`, which tells of each start and end in a tick at what time it was.
"""
from collections.abc import Iterator, Sequence
from dataclasses import dataclass
from typing import Callable

from rehearse_tools.endings import Refused
from rehearse_tools.inputs import Input, Plan, to_bytes, words_of
from rehearse_tools.outcomes import Outcome
from rehearse_tools.program import Program
from rehearse_tools.progress import Bar
from rehearse_tools.reading import Answer, Notice, Report, Standing

# So many plans go into one run of the program, and events of so many bytes: more than twice that is what it is given.
AT_ONCE = 500
MOST_BYTES = 4_000_000


@dataclass(frozen=True)
class Gap:
    """A time without an application: how long, in which plan, and whether it ran again."""
    length: int
    plan: str
    is_over: bool


@dataclass(frozen=True)
class Tried:
    """A plan's outcome, and those of its events that were accepted."""
    outcome: Outcome
    events: list[str]


@dataclass(frozen=True)
class Course:
    """A plan that was gone through once more: its outcome, its accepted events, the times without an application, each with its
    name, and the report at its end."""
    outcome: Outcome
    events: list[str]
    gaps: list[tuple[str, Gap]]
    report: Report


@dataclass(frozen=True)
class Courses:
    """The report behind the base, and the courses of all plans."""
    base: Report
    plans: list[Course]


def paired(outcomes: Sequence[Outcome], plans: Sequence[Plan], output: str, of: str) -> list[Tried]:
    """Each outcome with the events of its plan that were accepted."""
    if [outcome.name for outcome in outcomes] != [plan.name for plan in plans]:
        raise Refused(f"{output}: it doesn't tell of the {len(plans)} plans of {of}, in their order")
    for outcome, plan in zip(outcomes, plans):
        is_whole = outcome.refused is None
        if outcome.accepted > len(plan.events) or is_whole != (outcome.accepted == len(plan.events)):
            raise Refused(f"{output}: plan {outcome.name} has other events in {of}")
    return [Tried(outcome, plan.events[:outcome.accepted]) for outcome, plan in zip(outcomes, plans)]


def runs_of(tried: Sequence[Tried]) -> list[list[Tried]]:
    """The plans in lists that go into one run of the program each."""
    found: list[list[Tried]] = [[]]
    size = 0
    for plan in tried:
        more = sum(len(to_bytes(event)) + 1 for event in plan.events)
        if len(found[-1]) == AT_ONCE or found[-1] and size + more > MOST_BYTES:
            found.append([])
            size = 0
        found[-1].append(plan)
        size += more
    return found


def time_passing(event: str) -> int:
    """How long an event lets time pass."""
    word, *rest = words_of(event)
    return int(rest[0]) if word == "tick" else 0


# ---- Courses


def courses_of(program: Program, parts: Input, tried: Sequence[Tried], of: str) -> Courses:
    """The report behind the base, and the courses of all plans."""
    runs, bar = [], Bar(len(tried), "plans timed")
    for some in runs_of(tried):
        runs.append(run_courses(program, parts, some, of))
        bar.go_on(len(some))
    return Courses(runs[0].base, [course for run in runs for course in run.plans])


def run_courses(program: Program, parts: Input, tried: Sequence[Tried], of: str) -> Courses:
    """The same of the plans that go into one run of the program."""
    script = [*parts.base, "show"]
    for plan in tried:
        script += [*plan.events, "show", *["undo"] * len(plan.events)]
    told = iter(program.answers(parts.cluster, script, of)[len(parts.base):])
    base = next(told).report
    found = []
    for plan in tried:
        steps = [(event, next(told)) for event in plan.events]
        report = next(told).report
        if report.apps != plan.outcome.standing or not all(answer.is_ok for _, answer in steps):
            raise Refused(f"{of}: plan {plan.outcome.name} ends otherwise than the output tells: is it another cluster, "
                          "another --pick, or are there too many events for one trail?")
        found.append(Course(plan.outcome, plan.events, gaps_in(plan.outcome.name, base, steps), report))
        for _ in plan.events:
            next(told)
    return Courses(base, found)


class Places:
    """Where each application runs, or since when it doesn't, and the times without it that are over."""

    def __init__(self, plan: str, state: Report):
        self.plan = plan
        self.where = {app: standing.node if standing.is_running else None for app, standing in state.apps.items()}
        self.since = {app: state.now for app, node in self.where.items() if node is None}
        self.found: list[tuple[str, Gap]] = []

    def end(self, apps: Sequence[str], now: int) -> None:
        """Some applications run no longer."""
        for app in apps:
            self.where[app], self.since[app] = None, now

    def start(self, app: str, node: str, now: int) -> None:
        """An application runs at a node."""
        if app in self.where:
            self.where[app] = node
            if app in self.since:
                self.found.append((app, Gap(now - self.since.pop(app), self.plan, True)))

    def follow(self, notice: Notice, now: int) -> None:
        """Goes on by what followed from an event."""
        if notice.word == "ended":
            self.end([app for app, node in self.where.items() if node == notice.node], now)
        elif notice.word == "stopped" and self.where.get(notice.app) == notice.node:
            self.end([notice.app], now)
        elif notice.word == "started":
            self.start(notice.app, notice.node, now)


def gaps_in(plan: str, state: Report, steps: Sequence[tuple[str, Answer]]) -> list[tuple[str, Gap]]:
    """The times without an application in one plan, from the state that it begins with and its events with their answers."""
    places, now = Places(plan, state), state.now
    for event, answer in steps:
        for notice in answer.notices:
            places.follow(notice, now if notice.time is None else notice.time)
        now += time_passing(event)
    return places.found + [(app, Gap(now - begin, plan, False)) for app, begin in places.since.items()]


# ---- Losses


def lost_nodes(base: Report, report: Report) -> frozenset[str]:
    """The nodes that are alive in a report and down in a later one."""
    return frozenset(node for node in base.alive if not report.nodes[node].is_alive)


def least_sets(sets: Sequence[frozenset[str]]) -> Iterator[frozenset[str]]:
    """The sets of which no other one is a part, each once, the small ones first."""
    found: list[frozenset[str]] = []
    for one in sorted(dict.fromkeys(sets), key=len):
        if not any(less <= one for less in found):
            found.append(one)
            yield one


def is_wanted(standing: Standing) -> bool:
    """Whether an application is to run and no node can run it."""
    return standing.word == "wanted"


def is_nowhere(standing: Standing) -> bool:
    """Whether an application doesn't run."""
    return not standing.is_running


def losses_of(app: str, courses: Courses, is_bad: Callable[[Standing], bool] = is_wanted) -> list[tuple[list[str], Course]]:
    """The least sets of lost nodes behind which an application stands badly, each with its nodes in the order of the report and the
    first course that has it."""
    first: dict[frozenset[str], Course] = {}
    for course in courses.plans:
        if is_bad(course.outcome.standing[app]):
            first.setdefault(lost_nodes(courses.base, course.report), course)
    return [([node for node in courses.base.nodes if node in least], first[least]) for least in least_sets(list(first))]
