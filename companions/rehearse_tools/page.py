"""Draws a rehearsal as one HTML file, which needs nothing else: where each application ran, waited and was lost, step by step.

  companions/page examples/repaired-node.txt > repaired-node.html
  companions/page --sweep examples/five-nodes-sweep.txt -o five-nodes.html

FILE is what `rehearse run` reads, a cluster file, a line === and a script; `-` or nothing is standard input. The page has a
chart, with the nodes as rows and the steps as columns; a slider that goes through the steps, with the command, its answer and
the report of that moment; and all steps with their answers as a table. It can be printed, and read without colour.

With --sweep the script has plans, as for `rehearse sweep`. A table tells for each plan what became of each distributed
application; it can be sorted by each column, and boxes leave only the plans that end with an application nowhere, that moved
one, or that were refused. A plan that is clicked is shown as a chart of its own steps, else the base is.

In the browser: the slider, a click into the chart, or the keys Left, Right, Page Up, Page Down (10 steps), Home and End; N and
P go to the next and the previous step in which an application was lost, + and - make the columns wider and narrower, F fits
them all in, and B goes back from a plan to the base. An address that ends in #step=12 opens the page at step 12, one that ends
in #plan=NAME at a plan. A comment of the script is shown with the command below it.

Exit status: 0 done, 1 a wrong command line, 2 FILE is refused, or PAGE can't be written.
"""
import os
from argparse import Namespace
from collections.abc import Iterator, Mapping, Sequence
from typing import Any, Optional

from rehearse_tools.command_line import CommandLine, workers
from rehearse_tools.endings import Refused
from rehearse_tools.findings import KINDS
from rehearse_tools.inputs import before_plans, called, is_command, read_text, split_input, words_of, write_page
from rehearse_tools.page_data import Step, data_of
from rehearse_tools.page_names import names_of
from rehearse_tools.page_plans import Event, plans_told, timelines
from rehearse_tools.page_tables import story, table_of, time_of
from rehearse_tools.program import Program
from rehearse_tools.templates import rendered
from rehearse_tools.words import plural

MOST_COMMANDS = 10_000


def command_line() -> CommandLine:
    """The command line of this tool."""
    line = CommandLine("page", __doc__)
    line.add_argument("file", metavar="FILE", nargs="?", default="-", help="the input (default: standard input)")
    line.add_argument("-o", "--output", metavar="PAGE", help="the file to write (default: standard output)")
    line.add_argument("--title", help="the title of the page (default: the name of FILE)")
    line.add_argument("--sweep", action="store_true", help="the script has plans: try them, and add the table of what came of each")
    line.add_argument("--workers", metavar="N", type=workers, default="1", help="as for `rehearse sweep`, 1 to 16 (default: 1)")
    line.add_program()
    return line


def noted(lines: Sequence[str]) -> Iterator[Event]:
    """The commands of a base, each with the comments between it and the one above."""
    notes: list[str] = []
    for line in lines:
        if line.startswith("#"):
            notes.append(line[1:].strip())
        elif is_command(line):
            yield line, notes
            notes = []


def rehearsed(program: Program, cluster: str, base: Sequence[Event], source: str) -> list[Step]:
    """The steps of a base: one run of the program, with `show` in front of the first command and behind each."""
    if len(base) > MOST_COMMANDS:
        raise Refused(f"{source}: the script has {len(base)} commands; a page shows at most {MOST_COMMANDS}")
    script = ["show"] + [line for command, _ in base for line in (command, "show")]
    # One CR at the end of a line is dropped: so a line keeps its own.
    first, *rest = program.answers(cluster, [f"{line}\r" for line in script], source)
    steps = [Step("", [], [], first.report)]
    for (line, notes), answer, shown in zip(base, rest[::2], rest[1::2]):
        words = words_of(line)
        # The report that a script asks for is that of its moment, which is shown once.
        steps.append(Step(" ".join(words), notes, [answer.first] if words == ["show"] else answer.lines, shown.report))
    return steps


def page_of(given: Namespace, program: Program) -> bytes:
    """The page for what a command line asks."""
    source, text = called(given.file), read_text(given.file)
    title = given.title or ("A rehearsal" if given.file == "-" else os.path.basename(given.file))
    return rendered("page.html.j2", title=title, maker="companions/page",
                    **values_of(program, text, source, given.workers if given.sweep else None))


def values_of(program: Program, text: str, source: str, workers_of_sweep: Optional[str], linted: Optional[str] = None,
              live: Optional[Mapping[str, str]] = None) -> dict[str, Any]:
    """What the template of a page shows of an input, with the plans where there are workers to sweep them. Where another text is to be
    linted than what stands before the plans, it is given; and so is what live nodes do in each plan, where they were asked."""
    parts = split_input(text)
    is_sweep = workers_of_sweep is not None
    if is_sweep and not parts.plans:
        raise Refused(f"{source}: it has no plans, which --sweep needs: companions/plans writes some")
    # A run of the input as it stands would tell nothing more, but for what is wrong with it.
    outcomes = program.swept(text, source, workers_of_sweep) if workers_of_sweep is not None else []
    try:
        steps = rehearsed(program, parts.cluster, list(noted(parts.lines)), source)
    except Refused:
        if not is_sweep:
            program.check_run(text, source)
        raise
    if parts.plans and not is_sweep:
        program.check_run(text, source)
    last = steps[-1].report
    names = names_of(list(last.nodes))
    plans = plans_told(outcomes, parts.plans) if is_sweep else []
    courses = timelines(program, parts.cluster, parts.base, last, plans, source)
    front = before_plans(text) if linted is None else linted
    findings = program.linted(front, source)
    facts = (f"{plural(len(names.all), 'node')}, profile {program.names(parts.cluster, source).profile}, {plural(len(steps) - 1, 'step')}, "
             f"{time_of(last.now)}")
    return {"facts": facts, "lacks": names.lacks, "steps": story(steps), "plans": table_of(plans, last.apps, names, live or {}),
            "is_sweep": is_sweep, "data": data_of(steps, courses, names),
            "found": findings.rows(front), "found_headline": findings.headline(KINDS)}


def main(words: Sequence[str]) -> None:
    """Writes a page."""
    line = command_line()
    given = line.parse_args(words)
    write_page(given.output, page_of(given, line.program(given)))
