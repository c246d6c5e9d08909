"""Tells what live nodes of OTP 25.2.3 would do otherwise than the rules say.

  companions/live FILE                          FILE is what `rehearse run` reads; `-` or nothing is standard input
  companions/live --plans plans.txt             FILE is what `rehearse sweep` reads: which plans come out otherwise

Below each command stands what the rules say, as `rehearse run` prints it, and what live nodes show for it. A line that only the
rules have is marked by <, one of the live nodes alone by >, in the words of companions/replay. A line that begins with ! tells
why, with the place in docs/LIVE_OTP.md, and what hangs: who waits for whom, and what else that blocks.

  $ companions/live rehearsal.txt
  < by the rules, > live nodes of OTP 25.2.3
  boot n3@lab
    ok
    up n3@lab
  > pending d1 n3@lab
  < waits d1 n3@lab
  ! why: it runs outside the best group that can run it, .. (docs/LIVE_OTP.md#runs-at-a-worse-node)
  ! hangs: n3@lab: dist_ac waits for n1@lab to start d1 (it never will: d1 runs at n2@lab)
  !   this blocks the boot script of n3@lab, which stands at d1, behind it l1

Nothing is started: the answers are those of a model of the processes of OTP (rehearse_tools/otp25). It was written from the sources
of one release and measured against its nodes. Where what happens depends on the order of messages, several orders are tried, and
each outcome is told with how many gave it. Live nodes can't go back: undo and redo are answered as by the rules, and take the model
back.

Exit status: 0 nothing differs, 1 some command (or plan) differs, 2 what was read is refused, 3 something hangs, or two nodes send
each other messages for ever; 4 a wrong command line.
"""
import sys
from collections.abc import Sequence

from rehearse_tools.command_line import CommandLine, thousand
from rehearse_tools.endings import Refused
from rehearse_tools.inputs import called, end_of_cluster, is_command, lines_of, read_text, split_input, text_of, words_of, write_out
from rehearse_tools.live_sides import BACK_AND_FORTH, Answer, Sides, rules_of
from rehearse_tools.live_text import as_json, last_line, live_lines, status_of, texts_of
from rehearse_tools.otp25.cluster import cluster_of
from rehearse_tools.otp25.release import MEASURED, compared_with
from rehearse_tools.program import Program


def command_line() -> CommandLine:
    # 1 is the status where something differs.
    line = CommandLine("live", __doc__, wrong=4, epilog=f"Measured on: {MEASURED.told}")
    line.add_argument("file", metavar="FILE", nargs="?", default="-", help="a rehearsal, or with --plans a sweep's input")
    line.add_argument("--orders", metavar="N", type=thousand, default=8,
                      help="so many orders of messages are tried, the first one that in which they are sent (default: 8)")
    line.add_argument("--only-live", action="store_true", help="only each command, and what live nodes show for it")
    line.add_argument("--json", action="store_true", help="all of it as one JSON object")
    line.add_argument("--plans", action="store_true", help="for each plan of a sweep's input whether it differs, hangs or burns")
    line.add_argument("--jobs", metavar="N", type=thousand,
                      help="with --plans: so many processes (default: one for each processor)")
    line.add_argument("--sources", metavar="DIR", help="first tells whether the modules of OTP in DIR, a folder of sources or of an "
                      "installed kernel, are those that were measured; without FILE nothing else is done. It needs escript")
    line.add_program()
    return line


def answered(program: Program, cluster: str, lines: list[str], orders: int) -> tuple[list[Answer], str]:
    """The answers to the commands among lines, and what `run` prints behind them where it refuses one, or ""."""
    numbered = [(number, line) for number, line in enumerate(lines, 1) if is_command(line)]
    run, ruled = rules_of(program, cluster, [line for _, line in numbered])
    bad = ""
    if run.bad_line is not None:
        # Each command has a `show` behind it.
        place = (run.bad_line - 1) // 2
        bad = f"bad line {numbered[place][0]}"
        numbered = numbered[:place]
        run, ruled = rules_of(program, cluster, [line for _, line in numbered])
    if run.why:
        return [], run.why
    if run.status != 0:
        raise Refused(program.ended(run))
    goes_back = any(words_of(line)[0] in BACK_AND_FORTH for _, line in numbered)
    sides = Sides(cluster_of(cluster), orders, goes_back)
    return [sides.answer(number, line, rules) for (number, line), rules in zip(numbered, ruled)], bad


def told(answers: list[Answer], lines: list[str], orders: int, bad: str) -> str:
    """All answers as a text, and what `run` prints where it refuses a line."""
    return text_of(texts_of(answers, lines, orders)) + (f"{bad}\n" if bad else last_line(answers))


def told_live(answers: list[Answer], bad: str) -> str:
    """Only what live nodes show."""
    return text_of(line for answer in answers for line in live_lines(answer)) + (f"{bad}\n" if bad else "")


def main(words: Sequence[str]) -> None:
    """Tells what live nodes would do otherwise."""
    line = command_line()
    given = line.parse_args(words)
    if given.only_live and (given.json or given.plans):
        line.error("--only-live goes with none of --json and --plans")
    if given.sources is not None:
        sources, is_same = compared_with(given.sources)
        write_out(sources)
        if given.file == "-":
            sys.exit(0 if is_same else 1)
    program, source, text = line.program(given), called(given.file), read_text(given.file)
    if given.plans:
        # It starts processes, which others need not wait for.
        from rehearse_tools.live_plans import judge_plans
        sys.exit(judge_plans(program, source, text, given))
    parts = split_input(text)
    lines = lines_of(text)[end_of_cluster(lines_of(text)) + 1:] if parts.has_script else []
    answers, bad = answered(program, parts.cluster, lines, given.orders)
    if bad.startswith("cluster refused"):
        write_out(bad + "\n")
        sys.exit(2)
    if given.json:
        write_out(as_json(answers, given.orders, bad))
    else:
        write_out(told_live(answers, bad) if given.only_live else told(answers, lines, given.orders, bad))
    sys.exit(2 if bad else 0 if given.only_live else status_of(answers))
