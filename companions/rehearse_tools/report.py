"""From a release to one page that a team can read: what is safe, what is not, and what live nodes would do otherwise.

  companions/rehearse-tools report target > report.html
  companions/rehearse-tools report shop.tar.gz:a@host1,b@host2 edge.tar.gz:c@host3 > report.html
  companions/rehearse-tools report cluster.txt > report.html

RELEASE is an unpacked release, or NAME.tar.gz, as for gather; or a cluster file in place of all releases. Behind a colon stand the nodes
that run it. One release alone runs at all nodes that its configuration names, if none are told.

It does what these do one after the other: gather, the program's check and lint, plans for every
loss of one node and of two behind the boot of all, the sweep of them with the times of each, explore for every order of crashes, boots
and waits, live, survey and page. The page has for each distributed application whether it is safe; which least losses leave it
nowhere, with the shortest sequence of commands that does; how long it is away; what live nodes do otherwise, and why; each plan step
by step; and the commands that tell all of it again.

An application is safe where it runs at the end of each plan and behind each list of events that explore tried, where no timer is set,
and live nodes come to the same at the boot of all and in each plan, as the model of `live` tells. By the rules alone: it runs, but
live nodes do otherwise in some, or weren't asked (--no-live).

Exit status: 0 done, 1 a wrong command line, 2 what was read is refused, or PAGE can't be written.
"""
from argparse import Namespace
from collections.abc import Sequence
from typing import Any, Optional

from rehearse_tools.command_line import CommandLine, count, thousand
from rehearse_tools.courses import Courses, courses_of, paired
from rehearse_tools.endings import Refused
from rehearse_tools.exploring import LIMITS, Scope, explored
from rehearse_tools.inputs import Input, Plan, joined, write_page
from rehearse_tools.live_plans import Sweep, Verdict, judged
from rehearse_tools.live_sides import Answer
from rehearse_tools.live_text import NONE_DIFFERS, status_of
from rehearse_tools.page import values_of
from rehearse_tools.page_names import Names, names_of
from rehearse_tools.page_tables import shorter
from rehearse_tools.plan_making import Crashes, boots_of, crash_count, crash_plans, longest_wait
from rehearse_tools.program import Program
from rehearse_tools.releases import Gathered, gathered
from rehearse_tools.report_facts import UNSAFE, Tries, app_facts, headline, live_facts
from rehearse_tools.templates import rendered

MOST_PLANS = 10_000


def command_line() -> CommandLine:
    """The command line of this tool."""
    line = CommandLine("report", __doc__)
    line.add_argument("releases", metavar="RELEASE", nargs="+", help="a release, perhaps with :NODE,NODE.. behind it; or a cluster file")
    line.add_argument("-o", "--output", metavar="PAGE", help="the file to write (default: standard output)")
    line.add_argument("--title", help="the title of the page (default: the names that the releases give themselves)")
    line.add_argument("--crashes", metavar="K", type=count, default=2, help="every loss of up to so many nodes (default: 2)")
    line.add_argument("--env", metavar="NAME=VALUE", action="append", default=[], help="as for gather; may be repeated")
    line.add_argument("--needed", action="store_true", help="as for gather: rehearses only what is distributed and what that needs")
    line.add_argument("--orders", metavar="N", type=thousand, default=8, help="so many orders of messages are tried by live (default: 8)")
    line.add_argument("--jobs", metavar="N", type=thousand, help="so many processes for live (default: one for each processor)")
    line.add_argument("--no-live", action="store_true", help="doesn't ask what live nodes do, which takes longest")
    line.add_argument("--steps", metavar="N", type=count,
                      help="explore tries every list of up to so many crashes, boots and waits (default: of any length)")
    line.add_argument("--no-explore", action="store_true", help="doesn't ask explore")
    line.add_program()
    return line


def parts_of(program: Program, release: Gathered, crashes: int) -> tuple[Input, int]:
    """The cluster file, with a base that boots all nodes, and the plans; and the longest wait that the program tells, which passes at the
    end of each plan."""
    cluster, source = release.cluster, release.source
    nodes = program.names(cluster, source).nodes
    wanted = crash_count(len(nodes), Crashes(crashes))
    if wanted > MOST_PLANS:
        raise Refused(f"{source}: {wanted} plans are more than the {MOST_PLANS} of a report: fewer --crashes")
    boots = boots_of(nodes)
    wait = longest_wait(program, cluster, boots, nodes, source)
    return Input(cluster, True, boots, boots, list(crash_plans(nodes, Crashes(crashes), wait))), wait


def tried(program: Program, parts: Input, source: str) -> Courses:
    """The plans, with what came of each."""
    outcomes = program.outcomes(parts.cluster, parts.base, parts.plans, source)
    return courses_of(program, parts, paired(outcomes, parts.plans, source, "the plans"), source)


def repeated(release: Gathered, crashes: int, asked: Sequence[str]) -> list[str]:
    """The commands that tell all of it again. `asked` are the lines that explore was given."""
    return [*([release.command] if release.command else []), f"./rehearse check < {release.file}", f"./rehearse lint {release.file}",
            f"companions/rehearse-tools plans {release.file} --crashes {crashes} > plans.txt",
            "./rehearse sweep --json < plans.txt | companions/rehearse-tools survey --of plans.txt --least",
            *([f"./rehearse explore {' '.join(LIMITS)} {release.file} - << 'EOF'", *asked, "EOF"] if asked else []),
            "companions/rehearse-tools live --plans plans.txt", "companions/rehearse-tools page --sweep plans.txt > plans.html"]


def names_shown(names: Names) -> dict[str, Any]:
    """How a template shows names of nodes, and those of plans, which have several."""
    return {"shown": names.shown, "shown_plan": lambda plan: shorter(plan, "+", names).shown}


def words_of_plans(verdicts: Optional[dict[str, Verdict]]) -> dict[str, str]:
    """What live nodes do in each plan, in a word."""
    return {name: verdict.word for name, verdict in (verdicts or {}).items()}


def facts_of(tries: Tries, answers: list[Answer], plans: Sequence[Plan], crashes: int) -> dict[str, Any]:
    """What is told of the applications and of live nodes."""
    apps = sorted((app_facts(app, tries) for app in tries.courses.base.apps), key=lambda app: app.verdict != UNSAFE)
    return {"apps": apps, "headline": headline(apps, plans, crashes),
            "live": None if tries.verdicts is None else live_facts(answers, list(tries.verdicts.values()))}


def report_of(given: Namespace, program: Program) -> bytes:
    """The page for what a command line asks."""
    more = [word for value in given.env for word in ("--env", value)] + (["--needed"] if given.needed else [])
    release = gathered(given.releases, more)
    parts, wait = parts_of(program, release, given.crashes)
    courses = tried(program, parts, release.source)
    apps, scope = list(courses.base.apps), Scope(given.steps, given.crashes, wait)
    found = None if given.no_explore or not apps else explored(program, parts.cluster, parts.base, apps, scope, release.source)
    answers: list[Answer] = []
    verdicts: Optional[dict[str, Verdict]] = None
    if not given.no_live:
        answers, judgements = judged(Sweep(program, parts.cluster, parts.base, given.orders), parts.plans, given.jobs)
        verdicts = {verdict.name: verdict for verdict in judgements}
    names = names_of(list(courses.base.nodes))
    tries = Tries(courses, found, verdicts, status_of(answers) == NONE_DIFFERS, names)
    text = joined(parts.cluster, [*parts.base, *(line for plan in parts.plans for line in plan.lines)])
    asked = [*parts.base, *scope.lines(apps)] if found else []
    return rendered("report.html.j2", title=given.title or f"What {release.name} survives", maker="rehearse-tools report",
                    warnings=release.warnings, commands=repeated(release, given.crashes, asked), cluster=parts.cluster, base=parts.base,
                    explored=found.told(scope) if found else "", **names_shown(names),
                    **facts_of(tries, answers, parts.plans, given.crashes),
                    **values_of(program, text, release.source, "1", parts.cluster, words_of_plans(verdicts)))


def main(words: Sequence[str]) -> None:
    """Writes a report."""
    line = command_line()
    given = line.parse_args(words)
    write_page(given.output, report_of(given, line.program(given)))
