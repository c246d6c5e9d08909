"""Makes a rehearsal on real OTP nodes of this machine.

  companions/replay examples/boot-order.txt
  companions/replay --compare both --factor 0.2 rehearsal.txt

FILE is what `rehearse run` reads. Each node of it becomes an OTP node, an OS process that listens on 127.0.0.1 alone, with its kernel
parameters and its boot list; each application gets code that does nothing. A crash is a kill of the process, an exit the end of the
application's top process, a tick real time; start_all and stop_all are the calls at all nodes of the application's list that are up, at
once. Below each command stands what the program says, and beside it what the nodes do, in its words. A line that only the program has
is marked by <, one of the nodes alone by >. A permission that is given back pulls an application back, as in a file that begins with
{profile, 2}.

Words of the nodes alone: `failed A N WHY`, A wasn't started by N's boot script; `pending A N`, N's boot script waits for the start of
A; `no answer`, the call hasn't returned; `answered COMMAND: ..`, it has now; `error WHY`, an error that the program has no word for. Of a
`show` what is compared are the nodes, and what runs and waits there. What isn't compared: where something doesn't answer, in which
function the nodes' dist_ac and application_controller stand, with how many messages in their queues; and which nodes are busy though
nothing is asked of them. Behind the first difference stands a line #~, where more commands follow.

The nodes end with this program, by whatever it ends. undo and redo are refused: real nodes can't go back.

Exit status: 0 all agrees; 1 a wrong command line; 2 what was read is refused, or it has no commands; 3 something differs; 4 no nodes, no
time, or standard output can't be written.
"""
import argparse
import os
import re
from collections.abc import Sequence

from rehearse_tools.command_line import CommandLine, thousand
from rehearse_tools.erlang import become

MOST = 1_000_000
NUMBER = re.compile(r"[0-9]+(\.[0-9]+)?")


def positive(text: str) -> str:
    """A number above 0, as Erlang writes it."""
    if not NUMBER.fullmatch(text) or not 0 < float(text) <= MOST:
        raise argparse.ArgumentTypeError(f"'{text}' is no number above 0, up to {MOST}")
    return text


def command_line() -> CommandLine:
    """The command line of this tool."""
    line = CommandLine("replay", __doc__)
    line.add_argument("file", metavar="FILE", help="a rehearsal")
    line.add_argument("--compare", metavar="WHAT", choices=("rules", "live", "both"), default="rules",
                      help="what stands on the left: rules, what the program says; live, what the tool live tells of live nodes, where "
                      "several outcomes are possible the one that the nodes take; both, the former, and at the end how many commands "
                      "agree with which of the two (default: rules)")
    line.add_argument("--orders", metavar="N", type=thousand, default=8, help="so many orders of messages are tried by live (default: 8)")
    line.add_argument("--json", action="store_true",
                      help="a line of JSON for each command, and one at the end: docs/TOOLS.md has their members")
    line.add_argument("--factor", metavar="F", type=positive, default="1",
                      help="all times of the nodes and all ticks are multiplied by F: 0.2 for long ones (default: 1)")
    line.add_argument("--patience", metavar="MS", type=positive, default="4000",
                      help="how long what is expected is waited for where it doesn't happen, in real time (default: 4000)")
    line.add_argument("--most", metavar="SECONDS", type=positive, default="600", help="all ends after so long (default: 600)")
    line.add_program()
    return line


def main(words: Sequence[str]) -> None:
    """Becomes the script in Erlang, on words that are options and values."""
    line = command_line()
    given = line.parse_args(words)
    options = {"--compare": given.compare, "--orders": str(given.orders), "--factor": given.factor, "--patience": given.patience,
               "--most": given.most, "--pick": given.pick, "--rehearse": line.path(given)}
    become("replay", [*(word for option in options.items() for word in option), *(["--json"] if given.json else []),
                      os.path.abspath(given.file) if given.file.startswith("-") else given.file])
