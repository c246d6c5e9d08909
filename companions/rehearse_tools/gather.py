"""Writes a cluster file for rehearse from your own files. Erlang reads them, so that any term may stand there.

  companions/gather --release /srv/shop --node a@host1 --node b@host2 --node c@host3 > cluster.txt
  companions/gather --release shop-1.2.tar.gz --env FAILOVER_MS=5000 --node a@host1 --node b@host2 > cluster.txt
  companions/gather --lib _build/default/lib --node a@host1 --config a/sys.config --rel a/shop.rel \\
                    --node b@host2 --config b/sys.config --rel b/shop.rel > cluster.txt

Options in front of the first --node hold for all nodes, those behind a --node for that one. What is rehearsed (--profile, --needed,
--platform, --rehearse) holds for all nodes, wherever it stands.

Only what a rehearsal reads is written; comments say what was left out or replaced. A name that may be misspelt, a kernel parameter
distribted say, is warned of on standard error. So is what `rehearse lint` warns of in what was written, with its lines. Then:
rehearse check < cluster.txt

Exit status: 0 done; 1 a wrong command line; 2 something that was read is refused, or standard output can't be written: standard error
names it; 9 with --strict, where lint warns of something.
"""
import argparse
import difflib
import re
import sys
from collections.abc import Sequence
from typing import Any, NoReturn, Optional, Union

from rehearse_tools.command_line import CommandLine
from rehearse_tools.endings import REFUSED, Refused, tell, write_bytes
from rehearse_tools.erlang import output_of
from rehearse_tools.findings import FOUND, Findings
from rehearse_tools.inputs import to_text
from rehearse_tools.program import Program

LACKS_VALUE = re.compile("argument ([^:]*): expected one argument")
# Each option with what stands for its value (None: it has none) and what it is for, under these heads.
OPTIONS: dict[str, dict[str, tuple[Optional[str], str]]] = {
    "what is started": {
        "--release": ("DIR", "a release, unpacked or as NAME.tar.gz: its boot script (else its .rel and lib/*/ebin/*.app), sys.config and "
                      "vm.args, or those that end in .src"),
        "--version": ("VSN", "which version of the release (else that of releases/start_erl.data, or the only one)"),
        "--boot": ("FILE", "a boot script, NAME.boot or NAME.script, which also holds the keys of the .app files"),
        "--rel": ("FILE", "a release resource file, in place of a boot script: it is sorted as systools does"),
        "--lib": ("DIR", "for --rel: where .app files are, as DIR/*.app, DIR/ebin/*.app, DIR/*/ebin/*.app; again for more"),
        "--bare": (None, "there is no release: nothing is started")},
    "with which configuration": {
        "--config": ("FILE", "as the -config of erl; again for more; in place of the release's own sys.config"),
        "--args": ("FILE", "a vm.args, of which -config and -kernel are read; in place of the release's own"),
        "--env": ("NAME=VALUE", "for ${NAME} and ${NAME:-DEFAULT} in files that end in .src; else the environment has it. ${NODE_NAME} "
                  "is what --node says")},
    "at which nodes": {
        "--node": ("NAME", "a node; again for each"),
        "--named": (None, "in place of --node: all nodes that the configuration names")},
    "what is rehearsed": {
        "--profile": ("N", "the profile 1 or 2, which is written as the first term (2: twice as many nodes and applications, and a "
                      "permission that is given back pulls back, as in a live OTP)"),
        "--needed": (None, "only what is distributed and what that needs; all else is a platform name"),
        "--platform": ("APP", "this is a platform name: it runs, and isn't rehearsed. OTP's and Elixir's are, without a word"),
        "--rehearse": ("APP", "rehearse this one of OTP's")}}


class Line(CommandLine):
    """A command line, whose faults are told as those that Erlang finds."""
    # Its --rehearse names an application.
    program_option = "--program"

    def error(self, message: str) -> NoReturn:
        told = LACKS_VALUE.sub(r"\1 needs a value", message)
        self.exit(self.wrong, f"{self.name}: {told}\nTry {self.name} --help\n")


class InOrder(argparse.Action):
    """Keeps an option with its value in the order of the command line, as the words for Erlang."""

    def __call__(self, parser: argparse.ArgumentParser, given: argparse.Namespace, values: Union[str, Sequence[Any], None],
                 option: Optional[str] = None) -> None:
        given.words += [option, *([values] if isinstance(values, str) else [])]


def command_line() -> Line:
    """The command line of this tool."""
    line = Line("gather", __doc__, allow_abbrev=False)
    line.set_defaults(words=[])
    for head, options in OPTIONS.items():
        group = line.add_argument_group(head)
        for option, (value, does) in options.items():
            kept: dict[str, Any] = {"nargs": 0} if value is None else {"metavar": value}
            group.add_argument(option, action=InOrder, help=does, **kept)
    line.add_argument("--strict", action="store_true", help="ends with status 9 where lint warns of something in what was written")
    line.add_path()
    return line


def meant(word: str) -> str:
    """A question for the option that is nearly called so."""
    every = [*(option for options in OPTIONS.values() for option in options), "--strict", Line.program_option]
    near = difflib.get_close_matches(word, every, 1)
    return f": is {near[0]} meant?" if near else ""


def status_of(found: Findings, is_strict: bool) -> int:
    """Tells what lint warns of, and gives the status."""
    for finding in found.counting:
        tell("gather", str(finding))
    return FOUND if is_strict and found.counting else 0


def linted(line: Line, given: argparse.Namespace, written: str) -> int:
    """Asks lint about what was written, and gives the status. Where it can't be asked nothing else is lost."""
    try:
        found = Program(line.found_path(given), "first").linted(written, "what was written")
    except Refused as fault:
        tell("gather", f"lint tells nothing: {fault}")
        return REFUSED if given.strict else 0
    return status_of(found, given.strict)


def main(words: Sequence[str]) -> None:
    """Runs the script in Erlang on words that are options and values, and lint on what it wrote."""
    line = command_line()
    given, others = line.parse_known_args(words)
    for word in others:
        option = word.partition("=")[0]
        line.error(f"there is no option {option}{meant(option)}")
    status, written = output_of("gather", given.words)
    if status == 0:
        write_bytes(written)
        status = linted(line, given, to_text(written))
    sys.exit(status)
