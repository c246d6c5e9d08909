"""The command lines of the tools, by argparse, and what their values may be."""
import argparse
import os
import re
import sys
from typing import Any, NoReturn, Optional

from rehearse_tools.endings import Refused
from rehearse_tools.program import Program

TOP = os.path.dirname(os.path.dirname(os.path.dirname(os.path.realpath(__file__))))
COMMAND = "rehearse-tools"
LONGEST = 10**12
MOST_WORKERS = 16
# A package has no sources of the program.
IS_INSTALLED = not os.path.exists(os.path.join(TOP, "crates.txt"))
# How the texts call the commands from the top of the repository, and how they are called where they are installed.
CALLS = ((r"companions/rehearse-tools\b", COMMAND), (r"companions/(?=\w)", f"{COMMAND} "), (r"\./rehearse\b", "rehearse"))


def as_installed(text: str) -> str:
    """A text with the commands as they are called where they are installed."""
    for pattern, name in CALLS:
        text = re.sub(pattern, name, text)
    return text


def as_called(text: str) -> str:
    """A text with the commands as they are called here."""
    return as_installed(text) if IS_INSTALLED else text


class CommandLine(argparse.ArgumentParser):
    """A command line: one that is wrong ends the tool, of itself with status 1."""
    # The option that names the program.
    program_option = "--rehearse"

    def __init__(self, name: str, told: Optional[str], wrong: int = 1, **options: Any):
        is_whole = os.path.basename(sys.argv[0]) == COMMAND
        super().__init__(prog=f"{COMMAND} {name}" if is_whole else name, description=told,
                         formatter_class=argparse.RawDescriptionHelpFormatter, **options)
        self.name = name
        self.wrong = wrong

    def format_help(self) -> str:
        return as_called(super().format_help())

    def error(self, message: str) -> NoReturn:
        self.print_usage(sys.stderr)
        self.exit(self.wrong, f"{self.name}: {message}\n")

    def add_pick(self) -> None:
        """The option that tells how the program picks."""
        self.add_argument("--pick", choices=("first", "last"), default="first",
                          help="which of equally good nodes gets an application, as for the program (default: first)")

    def add_program(self) -> None:
        """The options with which each tool that asks the program is told about it."""
        self.add_path()
        self.add_pick()

    def add_path(self) -> None:
        """The option with its path."""
        self.add_argument(self.program_option, dest="path_of_program", metavar="PATH",
                          help="the program (else the environment's REHEARSE, else rehearse beside the folder companions)")

    def found_path(self, given: argparse.Namespace) -> str:
        """The path of the program that the options tell, if it is there."""
        path = given.path_of_program or os.environ.get("REHEARSE") or os.path.join(TOP, "rehearse")
        if not os.access(path, os.X_OK) or os.path.isdir(path):
            raise Refused(f"there is no program {path}: tell it by {self.program_option} PATH")
        return os.path.abspath(path)

    def path(self, given: argparse.Namespace) -> str:
        """The same, where a tool can't do without it: else the command line is wrong."""
        try:
            return self.found_path(given)
        except Refused as fault:
            self.error(str(fault))

    def program(self, given: argparse.Namespace) -> Program:
        """The program that the options tell, which has shown that it is the program."""
        program = Program(self.path(given), given.pick)
        program.greet()
        return program


def number(least: int, most: int, what: str, text: str) -> int:
    """A number of a command line between two others."""
    if not (text.isascii() and text.isdigit() and least <= int(text) <= most):
        raise argparse.ArgumentTypeError(f"'{text}' is no {what}")
    return int(text)


def milliseconds(text: str) -> int:
    """A number of milliseconds."""
    return number(0, LONGEST, "number of milliseconds", text)


def several_milliseconds(text: str) -> list[int]:
    """Several of them."""
    return [milliseconds(part) for part in text.split(",")]


def count(text: str) -> int:
    """A number from 1 on."""
    return number(1, sys.maxsize, "number from 1 on", text)


def thousand(text: str) -> int:
    """A number from 1 to 1000."""
    return number(1, 1000, "number from 1 to 1000", text)


def workers(text: str) -> str:
    """The number of workers of a sweep."""
    return str(number(1, MOST_WORKERS, f"number from 1 to {MOST_WORKERS}", text))
