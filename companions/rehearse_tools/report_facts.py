"""What a report tells of a cluster: which losses it survives, how long that takes, and what live nodes do otherwise."""
from collections import Counter
from collections.abc import Sequence
from dataclasses import dataclass
from typing import Optional

from rehearse_tools.courses import Course, Courses, Gap, is_nowhere, losses_of
from rehearse_tools.exploring import Explored
from rehearse_tools.inputs import Plan
from rehearse_tools.live_plans import AGREES, Verdict
from rehearse_tools.live_sides import Answer
from rehearse_tools.live_text import PAGE, first_of
from rehearse_tools.otp25.reasons import SENTENCES
from rehearse_tools.page_names import Names
from rehearse_tools.page_tables import shorter
from rehearse_tools.reading import Standing
from rehearse_tools.words import plural, some

MOST_NAMES = 5
SAFE, UNSAFE, DOUBTFUL = "safe", "not safe", "safe by the rules alone"


@dataclass(frozen=True)
class Loss:
    """A least set of lost nodes that leaves an application nowhere: how it stands then, the plan, and the commands of that, which are the
    shortest sequence that comes to it."""
    nodes: list[str]
    standing: Standing
    plan: str
    events: list[str]


@dataclass(frozen=True)
class AppFacts:
    """What a report tells of an application: where it runs, whether it is safe, what it isn't safe from, where no loss of the plans is
    the shortest list of events that explore tells, and how long it was away."""
    name: str
    home: Standing
    verdict: str
    losses: list[Loss]
    events: list[str]
    away: str
    stays_away: str
    # How many plans come out otherwise on live nodes where the rules say that it runs.
    doubts: int

    @property
    def look(self) -> str:
        """How the page shows whether it is safe."""
        return {SAFE: "safe", UNSAFE: "unsafe"}.get(self.verdict, "doubtful")


@dataclass(frozen=True)
class Difference:
    """A reason for which live nodes do otherwise: its place in the documents, how often it came, and one plan of it."""
    anchor: str
    sentence: str
    count: int
    first: Verdict

    @property
    def page(self) -> str:
        return f"{PAGE}#{self.anchor}" if self.anchor else PAGE


@dataclass(frozen=True)
class LiveFacts:
    """What live nodes do otherwise: how many plans come out how, why, those that hang or burn, and the first command of the base that
    differs."""
    counts: dict[str, int]
    differences: list[Difference]
    stuck: list[Verdict]
    base: str


def longest(gaps: Sequence[Gap], names: Names) -> str:
    """The longest of some times, with its plans; or ""."""
    if not gaps:
        return ""
    length = max(gap.length for gap in gaps)
    plans = [shorter(gap.plan, "+", names).shown for gap in gaps if gap.length == length]
    return f"{length} ms ({some(list(dict.fromkeys(plans)), MOST_NAMES)})"


def loss_of(app: str, nodes: list[str], course: Course) -> Loss:
    """A loss, by the first plan that comes to it."""
    return Loss(nodes, course.outcome.standing[app], course.outcome.name, course.events)


@dataclass(frozen=True)
class Tries:
    """What a report knows: the courses of all plans, what explore and live nodes tell, where these were asked, whether live nodes boot as
    the rules say, and the names of the nodes."""
    courses: Courses
    explored: Optional[Explored]
    verdicts: Optional[dict[str, Verdict]]
    is_as_booted: bool
    names: Names


def app_facts(app: str, tries: Tries) -> AppFacts:
    """What is told of an application. One that doesn't run behind the base isn't safe, and needs no loss for it. Without verdicts of
    live nodes nothing is safe but by the rules, nor where live nodes differ at the base already."""
    courses, verdicts = tries.courses, tries.verdicts
    home = courses.base.apps[app]
    losses = [loss_of(app, nodes, course) for nodes, course in losses_of(app, courses, is_nowhere)] if home.is_running else []
    events = (tries.explored.lists[app] or []) if tries.explored and not losses else []
    runs = [course.outcome.name for course in courses.plans if course.outcome.standing[app].is_running]
    doubts = sum(verdicts[plan].word != AGREES for plan in runs) if verdicts is not None else 0
    is_certain = verdicts is not None and tries.is_as_booted and not doubts
    gaps = [gap for course in courses.plans for name, gap in course.gaps if name == app]
    verdict = UNSAFE if losses or events or not home.is_running else SAFE if is_certain else DOUBTFUL
    return AppFacts(app, home, verdict, losses, events, longest([gap for gap in gaps if gap.is_over], tries.names),
                    longest([gap for gap in gaps if not gap.is_over], tries.names), doubts)


def live_facts(answers: list[Answer], verdicts: Sequence[Verdict]) -> LiveFacts:
    """What live nodes do otherwise."""
    words = Counter(verdict.word for verdict in verdicts)
    differing = [verdict for verdict in verdicts if verdict.word != AGREES]
    anchors = Counter(verdict.anchor or "" for verdict in differing)
    first = first_of(answers)
    return LiveFacts(
        {word: words[word] for word in (AGREES, "differs", "hangs", "burns")},
        [Difference(anchor, SENTENCES.get(anchor, "it follows from what differs before"), count,
                    next(verdict for verdict in differing if (verdict.anchor or "") == anchor))
         for anchor, count in anchors.most_common()],
        [verdict for verdict in verdicts if verdict.word in ("hangs", "burns")],
        "" if first is None else f"{answers[first].line}: {answers[first].sentence or 'it differs'}")


def headline(apps: Sequence[AppFacts], plans: Sequence[Plan], most: int) -> str:
    """The report in one sentence."""
    if not apps:
        return "No application is distributed, so none fails over. Is a name in the configuration misspelt?"
    counts = Counter(app.verdict for app in apps)
    losses = "every loss of one node" if most == 1 else f"every loss of up to {most} nodes"
    told = [f"{plural(counts[verdict], 'application')} {'is' if counts[verdict] == 1 else 'are'} {verdict}"
            for verdict in (UNSAFE, DOUBTFUL, SAFE) if counts[verdict]]
    return f"Of {plural(len(apps), 'distributed application')}, over {losses} ({plural(len(plans), 'plan')}): {', '.join(told)}."
