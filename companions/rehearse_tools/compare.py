"""Compares two cluster files: the same failures on both, and only what comes out otherwise.

  companions/compare old.txt new.txt
  companions/compare old.txt new.txt --plans plans.txt

OLD and NEW are cluster files; what they have behind a line === isn't read. In each of them every node boots, and then every node
of OLD crashes in a plan of its own, and every two of them in one, as companions/plans writes it. With --plans the plans are those
of FILE, an input of `rehearse sweep` (its own cluster file isn't read), and its base is made on both sides in place of the boots.

  $ companions/compare old.txt new.txt
  --- old.txt
  +++ new.txt
  - node c@host3

  plan a@host1
  - billing running b@host2, without it 5000 ms
  + billing running b@host2, without it 8000 ms

  1 of 3 plans differs

First comes what only one of both files has: the profile, nodes, applications, and which of these are distributed. Then what differs
behind the base, and in each plan: the event at which it was refused; else how nodes end, where each application stands, and how long
it was away in all; and where all that is the same, how many failovers and takeovers there were. Plans in which the same differs stand
in one line.

Colours are for a terminal alone, and not where NO_COLOR is set.

Exit status: 0 nothing differs, 1 something does, 2 what was read is refused, 4 a wrong command line.
"""
import sys
from collections.abc import Iterator, Sequence
from typing import Optional

from rehearse_tools.colours import BOLD, GREEN, RED, coloured, shows_colours
from rehearse_tools.command_line import CommandLine
from rehearse_tools.comparing import Row, Side, base_rows, groups_of, least_rows, name_rows, side_of
from rehearse_tools.endings import Refused
from rehearse_tools.inputs import Plan, called, commands_of, read_text, split_input, text_of, write_out
from rehearse_tools.plan_making import Crashes, boots_of, crash_plans, longest_wait
from rehearse_tools.program import Program
from rehearse_tools.words import plural, some

SAME, DIFFERENT = 0, 1
MOST_NAMES = 10
HEADS = ("plan ", "plans ", "behind ", "least ", "--- ", "+++ ")
COLOURS = {**{head: BOLD for head in HEADS}, "-": RED, "+": GREEN}


def command_line() -> CommandLine:
    """The command line of this tool."""
    line = CommandLine("compare", __doc__, wrong=4)
    line.add_argument("old", metavar="OLD", help="a cluster file")
    line.add_argument("new", metavar="NEW", help="another one; one of both may be - for standard input")
    line.add_argument("--plans", metavar="FILE", help="the plans, as companions/plans writes them (default: every node of OLD, and every "
                      "two of them)")
    line.add_argument("--least", action="store_true", help="tells too, where they differ, the least sets of lost nodes that leave an "
                      "application `wanted`, those of which no part does so")
    line.add_argument("--all", action="store_true", help=f"names every plan (else at most {MOST_NAMES} in a line)")
    line.add_program()
    return line


def script_of(program: Program, path: str) -> tuple[list[str], list[Plan]]:
    """The base and the plans of a file. It may have plans alone, as `companions/plans --plans-only` writes them."""
    source, text = called(path), read_text(path)
    if text.startswith("plan "):
        text = "===\n" + text
    program.check_script(text, source)
    parts = split_input(text)
    if not parts.plans:
        raise Refused(f"{source}: it has no plans")
    return commands_of(parts.base), parts.plans


def made_plans(program: Program, clusters: Sequence[tuple[str, str]]) -> list[Plan]:
    """The plans of the first of some cluster files, with the longest wait of all of them behind the crashes."""
    every = [(source, cluster, program.names(cluster, source).nodes) for source, cluster in clusters]
    after = max(longest_wait(program, cluster, boots_of(nodes), nodes, source) for source, cluster, nodes in every)
    return list(crash_plans(every[0][2], Crashes(), after))


def lines_of_rows(rows: Sequence[Row]) -> Iterator[str]:
    """Rows as lines."""
    yield from (f"{mark} {text}" for mark, text in rows)


def told(old: Side, new: Side, is_least: bool, most: Optional[int]) -> tuple[list[str], bool]:
    """What is told of both sides, and whether something differs."""
    names, base, groups = list(name_rows(old, new)), list(base_rows(old, new)), groups_of(old, new)
    lines = [f"--- {old.source}", f"+++ {new.source}", *lines_of_rows(names)]
    if base:
        lines += ["", "behind the base", *lines_of_rows(base)]
    for rows, plans in groups.items():
        lines += ["", f"{'plan' if len(plans) == 1 else 'plans'} {some(plans, most)}", *lines_of_rows(rows)]
    least = list(least_rows(old, new)) if is_least else []
    if least:
        lines += ["", "least losses that leave it wanted", *lines_of_rows(least)]
    number = sum(map(len, groups.values()))
    lines += ["", f"{number or 'none'} of {plural(len(old.courses), 'plan')} {'differs' if number < 2 else 'differ'}"]
    return lines, bool(names or base or groups)


def main(words: Sequence[str]) -> None:
    """Compares two cluster files."""
    line = command_line()
    given = line.parse_args(words)
    if [given.old, given.new, given.plans].count("-") > 1:
        line.error("only one of the files can be standard input")
    program = line.program(given)
    clusters = [(called(path), split_input(read_text(path)).cluster) for path in (given.old, given.new)]
    base, plans = script_of(program, given.plans) if given.plans is not None else ([], made_plans(program, clusters))
    if not plans:
        raise Refused(f"{clusters[0][0]}: it has no node to crash")
    old, new = (side_of(program, source, cluster, base, plans) for source, cluster in clusters)
    lines, differs = told(old, new, given.least, None if given.all else MOST_NAMES)
    write_out(text_of((coloured(line, COLOURS) for line in lines) if shows_colours() else lines))
    sys.exit(DIFFERENT if differs else SAME)
