"""Sums up a sweep: for each distributed application the plans that leave it nowhere, and the longest time without it.

  ./rehearse sweep --json < plans.txt | companions/survey
  ./rehearse sweep --json < plans.txt | companions/survey --of plans.txt
  ./rehearse sweep --json < plans.txt | companions/survey --of plans.txt --least --fail-if nowhere --fail-if refused
  ./rehearse sweep --rules otp25 --json < plans.txt | companions/survey --fail-if hangs

OUTPUT is what `rehearse sweep --json` (or companions/spread --json) printed; `-` or nothing is standard input. A sweep tells where each
application stands at the end of a plan, and no times. For these name the sweep's input by --of: then the program goes
through each plan once more, by `run --json`, which tells the moment of each start and end.

Where an application is nowhere, the word behind the plan tells why: `wanted`, no node can run it; `lost`, its failover
time isn't over, so let the plan end by a longer tick; `quiet`, it was stopped or ended by itself, or nobody started it.

With --of the first line says how many errors and warnings `rehearse lint` has for INPUT, if any.

Of a sweep on live nodes (`rehearse sweep --rules otp25 --json`) it tells which plans end where something hangs, and which leave an
application nowhere or at several nodes. It has no times, so --of and --least don't go with it.

The time without an application is the one from its end to its next start, within a plan. Where the plan ends first, the
application is counted as nowhere, and the time up to there is told as `at least`.

In a pipeline --fail-if gives the status 9 where some plan ends in a way that may not be, and names it on standard error: with an
application `nowhere`, `moved` (it runs elsewhere than behind the base: that needs --of), or `refused` at an event; on live nodes also
`hangs` (something does) and `twice` (an application runs at several nodes).

Exit status: 0 done, 1 a wrong command line, 2 what was read is refused: it is no sweep's output, or not that of --of; 9 what
--fail-if names.
"""
import sys
from argparse import Namespace
from collections import Counter
from collections.abc import Iterable, Iterator, Sequence
from dataclasses import dataclass
from typing import Optional

from rehearse_tools.command_line import CommandLine, as_called
from rehearse_tools.courses import Courses, Gap, courses_of, losses_of, paired
from rehearse_tools.endings import tell
from rehearse_tools.findings import notice_of
from rehearse_tools.inputs import before_plans, called, lines_of, read_chunks, read_text, split_input, text_of, to_text, write_out
from rehearse_tools.live_tallies import live_failures, live_summary, live_tally_of, parted
from rehearse_tools.outcomes import outcomes_in
from rehearse_tools.tallies import Tally, tally_of
from rehearse_tools.words import plural, some

FAILED = 9
MOST_NAMES, MOST_LONGEST = 10, 3


@dataclass(frozen=True)
class Swept:
    """What is known of a sweep: its plans, counted, and with --of the report behind the base, the courses of the plans, and that lint
    has something, or ""."""
    tally: Tally
    courses: Optional[Courses] = None
    notice: str = ""

    def gaps(self, app: str) -> list[Gap]:
        """The times without an application."""
        plans = self.courses.plans if self.courses is not None else []
        return [gap for course in plans for name, gap in course.gaps if name == app]


def command_line() -> CommandLine:
    """The command line of this tool."""
    line = CommandLine("survey", __doc__)
    line.add_argument("output", metavar="OUTPUT", nargs="?", default="-", help="a sweep's output (default: standard input)")
    line.add_argument("--of", metavar="INPUT", help="the sweep's input: tells times too, by asking the program")
    line.add_argument("--all", action="store_true", help="names every plan (else at most 10 for each application and word)")
    line.add_argument("--least", action="store_true",
                      help="with --of: tells for each application the least sets of lost nodes that leave it `wanted`, those of "
                      "which no part does so")
    line.add_argument("--fail-if", choices=("nowhere", "moved", "refused", "hangs", "twice"), action="append", default=[],
                      help="ends with status 9 where some plan leaves an application nowhere, has moved one (with --of), or ended "
                      "at a refused event; on live nodes where something hangs, or an application runs twice; may be repeated")
    line.add_program()
    return line


def lines_about(app: str, swept: Swept, is_least: bool, most: Optional[int]) -> Iterator[str]:
    """What is told of an application."""
    stood = swept.tally.stood[app].values()
    nowhere, ran = [each for each in stood if not each.standing.is_running], [each for each in stood if each.standing.is_running]
    count = sum(each.count.number for each in nowhere)
    yield f"{app}: nowhere at the end of {count} of {plural(swept.tally.plans, 'plan')}"
    yield from (f"  {each.standing.word}: {each.count}" for each in nowhere)
    if ran:
        yield "  ran at the end at " + ", ".join(f"{each.standing.node} ({plural(each.count.number, 'plan')})" for each in ran)
    if swept.courses is not None:
        yield from longest_of(swept.gaps(app), most)
    if is_least and swept.courses is not None:
        losses = ["+".join(nodes) or "no node" for nodes, _ in losses_of(app, swept.courses)]
        yield f"  least losses that leave it wanted: {some(losses or ['none'], most)}"


def longest_of(gaps: Sequence[Gap], most: Optional[int]) -> Iterator[str]:
    """The longest time without an application up to its next start, and the longest one at the end of a plan."""
    names = MOST_LONGEST if most is not None else None
    over, open_ended = [gap for gap in gaps if gap.is_over], [gap for gap in gaps if not gap.is_over]
    yield f"  longest time without it {longest(over, names)}" if over else "  it never ended and started again"
    if open_ended:
        yield f"  without it to the end of the plan, for at least {longest(open_ended, names)}"


def longest(gaps: Sequence[Gap], most: Optional[int]) -> str:
    """The longest of some times, with its plans."""
    length = max(gap.length for gap in gaps)
    return f"{length} ms: {some(list(dict.fromkeys(gap.plan for gap in gaps if gap.length == length)), most)}"


def failures(swept: Swept, wanted: Sequence[str]) -> Iterator[str]:
    """What --fail-if names: for each of its words that applies, a line."""
    base = swept.courses.base.apps if swept.courses is not None else {}
    counts: dict[str, Counter[str]] = {"nowhere": Counter(), "moved": Counter(), "refused": Counter()}
    counts["refused"]["an event"] = swept.tally.refused.number
    for app, stood in swept.tally.stood.items():
        for standing, each in stood.items():
            counts["nowhere"][app] += each.count.number * (not standing.is_running)
            counts["moved"][app] += each.count.number * (standing.is_running and app in base and base[app].is_running
                                                         and standing != base[app])
    for word, counter in counts.items():
        found = [f"{name} in {plural(number, 'plan')}" for name, number in counter.items() if number]
        if found and word in wanted:
            yield f"--fail-if {word}: {some(found, MOST_NAMES)}"


def swept_of(line: CommandLine, given: Namespace, chunks: Iterable[bytes]) -> Swept:
    """What is known of the sweep that a command line names, by what it told."""
    source, most = called(given.output), None if given.all else MOST_NAMES
    if given.of is None:
        return Swept(tally_of(chunks, source, most))
    output = b"".join(chunks)
    tally = tally_of([output], source, most)
    program, text = line.program(given), read_text(given.of)
    program.check_script(text, called(given.of))
    parts = split_input(text)
    tried = paired(outcomes_in(lines_of(to_text(output)), source), parts.plans, source, called(given.of))
    findings = program.linted(before_plans(text), called(given.of))
    return Swept(tally, courses_of(program, parts, tried, called(given.of)), notice_of(findings, given.of, bool(parts.plans)))


def summary(swept: Swept, is_least: bool, most: Optional[int]) -> Iterator[str]:
    """All that is told of a sweep."""
    tally = swept.tally
    if swept.notice:
        yield as_called(swept.notice)
    yield f"{plural(tally.plans, 'plan')}, {plural(len(tally.apps), 'distributed application')}"
    if tally.refused.number:
        yield f"{plural(tally.refused.number, 'plan')} ended at an event that was refused: {tally.refused}"
    for app in tally.apps:
        yield ""
        yield from lines_about(app, swept, is_least, most)


def summed(line: CommandLine, given: Namespace, chunks: Iterable[bytes]) -> tuple[str, list[str]]:
    """What is told of a sweep by the manual's rules, and what of it may not be."""
    swept = swept_of(line, given, chunks)
    return text_of(summary(swept, given.least, None if given.all else MOST_NAMES)), list(failures(swept, given.fail_if))


def summed_live(given: Namespace, chunks: Iterable[bytes]) -> tuple[str, list[str]]:
    """The same of a sweep on live nodes."""
    tally = live_tally_of(chunks, called(given.output), None if given.all else MOST_NAMES)
    return text_of(live_summary(tally)), list(live_failures(tally, given.fail_if))


def main(words: Sequence[str]) -> None:
    """Sums up a sweep."""
    line = command_line()
    given = line.parse_args(words)
    for word, is_wanted in (("--least", given.least), ("--fail-if moved", "moved" in given.fail_if)):
        if is_wanted and given.of is None:
            line.error(f"{word} needs --of INPUT")
    is_live, chunks = parted(read_chunks(given.output))
    if is_live and given.of is not None:
        line.error("--of doesn't go with a sweep on live nodes, of which no times are told")
    told, failed = summed_live(given, chunks) if is_live else summed(line, given, chunks)
    write_out(told)
    for why in failed:
        tell("survey", why)
    if failed:
        sys.exit(FAILED)
