"""Writes plans for a sweep: which nodes crash, one by one or several, and what is done about it.

  companions/plans cluster.txt | ./rehearse sweep --json --workers 4 | companions/survey

FILE is a cluster file, with or without a script behind it; `-` or nothing is standard input. What is written is the whole
input of `rehearse sweep`: FILE as it stands, then the base, then the plans. A script of FILE is the base, and plans that it
has stay in front; a line of theirs that is no event is refused, as one of the base that is no command. Where FILE has no
command, the base boots each node in the order of the file. A node that is down behind the base isn't crashed.

Without other words: every node crashes, and every pair of nodes, one right after the other; then time passes until the
longest failover is over, and the longest wait of a booting node, as the program tells them.

  companions/plans cluster.txt --crashes 3 --only 'edge*'    every set of up to three of the edge nodes
  companions/plans cluster.txt --orders --between 0,2000     every order of two, at once and 2 s apart
  companions/plans cluster.txt --back reverse                and the nodes boot again, the last one first
  companions/plans cluster.txt --rolling                     each node is restarted, one after the other, in every order
  companions/plans cluster.txt --rolling --drain             and before that its applications are sent away by permit

A plan's name tells what is in it: a+b crash at once, a+2000ms+b with time between them, `back:` leads the nodes that boot
again, `rolling:` those that are restarted, `drained:` those that are restarted when their applications are away. A line on standard
error says first how many errors and warnings `rehearse lint` has for FILE, if any. Exit status: 0 done, 1 a wrong command line, 2 FILE
is refused.
"""
import fnmatch
import math
from argparse import Namespace
from collections.abc import Sequence

from rehearse_tools.command_line import CommandLine, as_called, count, milliseconds, several_milliseconds
from rehearse_tools.endings import tell
from rehearse_tools.findings import notice_of
from rehearse_tools.inputs import before_plans, called, read_text, split_input, text_of, to_bytes, write_out
from rehearse_tools.plan_making import (BACK, INPUT_LIMIT, Crashes, boots_of, crash_count, crash_plans, drained_in, longest_wait,
                                        report_behind, rolling_plans, text_of_plans)
from rehearse_tools.program import Program


def command_line() -> CommandLine:
    """The command line of this tool."""
    line = CommandLine("plans", __doc__)
    line.add_argument("file", metavar="FILE", nargs="?", default="-", help="a cluster file (default: standard input)")
    line.add_argument("--crashes", metavar="K", type=count, default=2, help="up to so many nodes crash in a plan (default: 2)")
    line.add_argument("--orders", action="store_true", help="they crash in every order (else: in that of the file)")
    line.add_argument("--between", metavar="MS,..", type=several_milliseconds, default=[0],
                      help="time between one crash and the next; plans for each that is named (default: 0)")
    line.add_argument("--after", metavar="MS", type=milliseconds,
                      help="time behind the last crash, and behind the boots (default: the longest timeout)")
    line.add_argument("--back", choices=BACK, default="no",
                      help="the nodes boot again, in the order of the crashes, its reverse, or every order (default: no)")
    line.add_argument("--rolling", action="store_true",
                      help="in place of the crashes: each node crashes, time passes, it boots, time passes; then the next one")
    line.add_argument("--drain", action="store_true",
                      help="with --rolling: each distributed application that is started at the node and may run there is "
                      "forbidden there before the node crashes, and permitted again when it is back")
    line.add_argument("--only", metavar="PATTERN", action="append",
                      help="only nodes of such names, as a shell matches them; may be repeated")
    line.add_argument("--most", metavar="N", type=count, default=10_000,
                      help="at most so many plans (default: 10000). Of the orders of a rolling restart so many are taken, "
                      "evenly spread; too many plans of crashes are a wrong command line")
    line.add_argument("--count", action="store_true", help="writes only how many plans there are without --most")
    line.add_argument("--plans-only", action="store_true", help="writes the new plans alone, without FILE and the base")
    line.add_program()
    return line


def chosen_nodes(line: CommandLine, given: Namespace, alive: Sequence[str]) -> list[str]:
    """Those of the nodes that are alive behind the base whose crash is asked for."""
    chosen = [node for node in alive if any(fnmatch.fnmatchcase(node, pattern) for pattern in given.only or ["*"])]
    if not chosen:
        are = "is" if len(alive) < 2 else "are"
        names = f"{', '.join(alive) or 'none'} {are} alive"
        line.error(f"no node that is alive behind the base has a name of --only {' or '.join(given.only)}: {names}"
                   if alive else f"no node is left to crash: behind the base {names}")
    return chosen


def number_of_plans(line: CommandLine, given: Namespace, chosen: Sequence[str], crashes: Crashes) -> int:
    """How many plans there will be, where they aren't too many."""
    wanted = math.factorial(len(chosen)) if given.rolling else crash_count(len(chosen), crashes)
    most: int = given.most
    if given.count or wanted <= most:
        return wanted
    if not given.rolling:
        line.error(f"{wanted} plans are more than --most {most}: raise that, or take fewer nodes by --only")
    tell("plans", f"{most} of {wanted} orders, evenly spread (--most)")
    return most


def parsed(line: CommandLine, words: Sequence[str]) -> Namespace:
    """What a command line asks for."""
    given = line.parse_args(words)
    if given.rolling and (given.orders or given.back != "no" or given.between != [0]):
        line.error("--rolling goes with none of --orders, --back and --between")
    if given.drain and not given.rolling:
        line.error("--drain goes with --rolling")
    return given


def tell_findings(program: Program, text: str, path: str) -> None:
    """Tells on standard error that lint has errors or warnings for what stands before the plans of an input."""
    front = before_plans(text)
    notice = notice_of(program.linted(front, called(path)), path, front != text)
    if notice:
        tell("plans", as_called(notice))


def main(words: Sequence[str]) -> None:
    """Writes plans."""
    line = command_line()
    given = parsed(line, words)
    program, source, text = line.program(given), called(given.file), read_text(given.file)
    parts = split_input(text)
    nodes = program.names(parts.cluster, source).nodes
    program.check_script(text, source)
    tell_findings(program, text, given.file)
    boots = [] if parts.base or parts.plans else boots_of(nodes)
    base = parts.base + boots
    report = report_behind(program, parts.cluster, base, source)
    chosen = chosen_nodes(line, given, report.alive)
    crashes = Crashes(given.crashes, given.orders, given.between, given.back)
    number = number_of_plans(line, given, chosen, crashes)
    if given.count:
        write_out(f"{number}\n")
        return
    if not report.apps:
        tell("plans", "warning: no application is distributed, so none fails over: is a name in the file misspelt?")
    after = longest_wait(program, parts.cluster, base, nodes, source) if given.after is None else given.after
    drained = drained_in(report) if given.drain else None
    made = text_of_plans(rolling_plans(chosen, number, after, drained) if given.rolling else crash_plans(chosen, crashes, after))
    front = text if text.endswith("\n") else text + "\n"
    front += ("" if parts.has_script else "===\n") + text_of(boots)
    written = made if given.plans_only else front + made
    if len(to_bytes(written)) > INPUT_LIMIT:
        tell("plans", "that is more than one run of the program reads: companions/spread shares it out")
    write_out(written)
