"""The two sides of `compare`: the same plans on two cluster files, and what differs between them."""
from collections.abc import Iterator, Sequence
from dataclasses import dataclass

from rehearse_tools.courses import Course, Courses, courses_of, losses_of, paired
from rehearse_tools.inputs import Input, Plan
from rehearse_tools.plan_making import boots_of
from rehearse_tools.program import Program
from rehearse_tools.reading import Answer, Names, Report

# A line of one side alone: `-` of the first one, `+` of the second.
Row = tuple[str, str]


@dataclass(frozen=True)
class Side:
    """A cluster file with its names, and how it is called; the base of the plans, with the answers, and the report behind it; and
    each plan with its course."""
    source: str
    names: Names
    base: list[tuple[str, Answer]]
    report: Report
    plans: list[Plan]
    courses: list[Course]

    @property
    def spread(self) -> list[str]:
        """The distributed applications."""
        return list(self.report.apps)


def side_of(program: Program, source: str, cluster: str, base: list[str], plans: list[Plan]) -> Side:
    """What the program tells of plans on a cluster file. Without a base, each node boots in the order of the file."""
    names = program.names(cluster, source)
    base = base or boots_of(names.nodes)
    answers = program.answers(cluster, base, source)
    tried = paired(program.outcomes(cluster, base, plans, source), plans, source, "the plans")
    courses = courses_of(program, Input(cluster, True, base, base, plans), tried, source)
    return Side(source, names, list(zip(base, answers)), courses.base, plans, courses.plans)


def changed(old: object, new: object) -> list[Row]:
    """The rows for what both sides have, if it isn't the same."""
    return [] if old == new else [("-", str(old)), ("+", str(new))]


# ---- Names


def name_rows(old: Side, new: Side) -> Iterator[Row]:
    """What only one of both cluster files has: a profile, nodes, applications, and what of these is distributed."""
    yield from changed(f"profile {old.names.profile}", f"profile {new.names.profile}")
    both = [app for app in old.names.apps if app in new.names.apps]
    for word, first, second in (("node", old.names.nodes, new.names.nodes), ("application", old.names.apps, new.names.apps),
                                ("distributed", [app for app in old.spread if app in both], [app for app in new.spread if app in both])):
        yield from (("-", f"{word} {name}") for name in first if name not in second)
        yield from (("+", f"{word} {name}") for name in second if name not in first)


# ---- The base and the plans


def base_rows(old: Side, new: Side) -> Iterator[Row]:
    """What differs behind the base: which of its commands is refused, how nodes and applications stand."""
    answered = [{command: f"refused {answer.refusal}" for command, answer in side.base if not answer.is_ok} for side in (old, new)]
    for command in dict.fromkeys([*answered[0], *answered[1]]):
        first, second = (f"{command}: {refused.get(command, 'ok')}" for refused in answered)
        yield from changed(first, second)
    yield from standing_rows(old, new, [old.report, new.report], [{}, {}])


def standing_rows(old: Side, new: Side, reports: Sequence[Report], times: Sequence[dict[str, str]]) -> Iterator[Row]:
    """What differs between two reports, of what both sides have. `times` has for each side what is told behind an application."""
    for node in old.names.nodes:
        if node in new.names.nodes:
            yield from changed(*(f"{node} {report.nodes[node].mode}" for report in reports))
    for app in old.spread:
        if app in new.spread:
            yield from changed(*(f"{app} {report.apps[app]}{behind.get(app, '')}" for report, behind in zip(reports, times)))


def plan_rows(old: Side, new: Side, place: int) -> list[Row]:
    """What differs between both courses of a plan. Where they end at different events, only that; where they come to the same by
    other ways, how many failovers and takeovers there were."""
    courses = [old.courses[place], new.courses[place]]
    ends = [end_of(course, old.plans[place]) for course in courses]
    if ends[0] != ends[1]:
        return changed(*ends)
    rows = list(standing_rows(old, new, [course.report for course in courses], [times_of(course) for course in courses]))
    moves = [f"failovers {course.outcome.failovers}, takeovers {course.outcome.takeovers}" for course in courses]
    return rows or (changed(*moves) if old.spread == new.spread else [])


def least_rows(old: Side, new: Side) -> Iterator[Row]:
    """What differs between the least sets of lost nodes that leave an application wanted, of what both sides have."""
    for app in old.spread:
        if app in new.spread:
            yield from changed(*(f"{app} {least_losses(app, side)}" for side in (old, new)))


def least_losses(app: str, side: Side) -> str:
    """The least sets of lost nodes that leave an application wanted on a side."""
    sets = ["+".join(nodes) or "no node" for nodes, _ in losses_of(app, Courses(side.report, side.courses))]
    return ", ".join(sets) or "none"


def end_of(course: Course, plan: Plan) -> str:
    """How a plan ends: behind all of its events, or at one that is refused."""
    refused = course.outcome.refused
    if refused is None:
        return "all events accepted"
    return f"event {refused.number}, {plan.events[refused.number - 1]}: refused {refused.why}"


def times_of(course: Course) -> dict[str, str]:
    """For each application that was away in a plan, for how long in all."""
    found: dict[str, int] = {}
    for app, gap in course.gaps:
        found[app] = found.get(app, 0) + gap.length
    return {app: f", without it {length} ms" for app, length in found.items()}


def groups_of(old: Side, new: Side) -> dict[tuple[Row, ...], list[str]]:
    """What differs, each with the plans in which just that does."""
    found: dict[tuple[Row, ...], list[str]] = {}
    for place, course in enumerate(old.courses):
        rows = plan_rows(old, new, place)
        if rows:
            found.setdefault(tuple(rows), []).append(course.outcome.name)
    return found
