"""The command lines that people type, read where they are written: those of the program in its texts of help, which stand in
docs/help with those of the script in front of it, those of the tools in their parsers, and the commands of a script in their table."""
import argparse
import json
import re
import sys
from collections.abc import Iterator
from dataclasses import dataclass
from functools import cache
from importlib import import_module

from commands import JSON
from tree import TOP, BadSource, read, shown

sys.path.insert(0, str(TOP / "companions"))
from rehearse_tools.__main__ import TOOLS as TOOLS_TOLD, USAGE  # noqa: E402
from rehearse_tools.command_line import as_installed  # noqa: E402

HELP = TOP / "docs" / "help"
PROGRAM, TOOLS = "rehearse", "rehearse-tools"
# A line of clap's about an option: its names, what stands for its value, what it is for.
OPTION = re.compile(r" +((?:-\w, )?--[\w-]+)(?: <([^>]+)>|=<([^>]+)>)?(?:\.\.\.)? +(\S.*)")
# What the script in front takes itself, by the subcommand behind which it stands: the text of its help, and the option.
OWN = {"lint": ("explain.txt", "      --explain <code>  Prints what a code says, and what live nodes do there, and reads no input")}
# Which values it may have: clap's own words, or ours where a number may stand, too, which is written N.
VALUES = re.compile(r" ?\[(?:possible )?values: ([^]]*)\]")


@dataclass(frozen=True)
class Option:
    """An option of a command: its names, what stands for its value (nothing: it has none), which values it may have (none: any), and
    what it is for."""

    names: tuple[str, ...]
    value: str
    choices: tuple[str, ...]
    does: str


@dataclass(frozen=True)
class Section:
    """Options under a head."""

    head: str
    options: tuple[Option, ...]


@dataclass(frozen=True)
class Command:
    """A command: its words, what it is in one line, how it is called, what its help says below that, and its options."""

    words: tuple[str, ...]
    about: str
    usage: str
    text: str
    sections: tuple[Section, ...]
    # What stands for files among its words; nothing where it takes none.
    files: str

    @property
    def page(self) -> str:
        """The name of its page."""
        return "-".join(self.words)

    @property
    def options(self) -> list[Option]:
        """All its options."""
        return [option for section in self.sections for option in section.options]


def program_option(line: str) -> Option:
    """An option of the program, of its line of help."""
    found = OPTION.fullmatch(line)
    if not found:
        raise BadSource(f"docs/help: this is no option: {line}")
    values = VALUES.search(found[4])
    names = tuple(found[1].split(", "))
    choices = tuple(value for value in values[1].split(", ") if value != "N") if values else ()
    return Option(names, found[2] or found[3] or "", choices, VALUES.sub("", found[4]))


def program_command(name: str) -> Command:
    """A command of the program: itself, or one of its subcommands."""
    path = HELP / f"{name}.txt"
    found = re.fullmatch(r"(?s)([^\n]+)\n\nUsage: ([^\n]+)\n\n(.*?)Options:\n(.*?)\n\n(.*)", read(path))
    if not found:
        raise BadSource(f"{shown(path)} isn't a text of help as clap prints it")
    about, usage, before, options, text = found.groups()
    files, lines = read(HELP / "files.txt"), options.splitlines()
    if name in OWN:
        own, line = OWN[name]
        text, lines = f"{text}\n\n{read(HELP / own)}", [*lines, line]
    section = Section("Options", tuple(map(program_option, lines)))
    if name != PROGRAM:
        return Command((PROGRAM, name), about, f"{as_installed(usage)} [FILE]..", as_installed(f"{text}\n\n{files}"), (section,), "FILE")
    # The script in front has statuses of its own, and tells of all in place of the program.
    text = text.partition("\n\nExit status")[0]
    told = "\n\n".join([text, before.strip(), files, read(HELP / "statuses.txt")])
    return Command((PROGRAM,), about, as_installed(usage), as_installed(told), (section,), "")


@cache
def program_commands() -> tuple[Command, ...]:
    """The program, and its subcommands in the order in which its help lists them."""
    whole = program_command(PROGRAM)
    names = re.findall(r"(?m)^  (\w+)  +\w", whole.text.partition("\nCommands:\n")[2].partition("\n\n")[0])
    return (whole, *(program_command(name) for name in names if name != "help"))


def tool_option(action: argparse.Action, parser: argparse.ArgumentParser) -> Option:
    """An option of a tool, or one of its words."""
    value = "" if action.nargs == 0 else str(action.metavar or action.dest.upper())
    choices = tuple(map(str, action.choices or ()))
    does = as_installed(parser._get_formatter()._expand_help(action)) if action.help else ""
    return Option(tuple(action.option_strings), "" if choices and not action.metavar else value, choices, does)


def tool_command(name: str, about: str) -> Command:
    """A tool, as its parser has it."""
    parser: argparse.ArgumentParser = import_module(f"rehearse_tools.{name}").command_line()
    parser.prog = f"{TOOLS} {name}"
    sections, files = [], ""
    for group in parser._action_groups:
        options = tuple(tool_option(action, parser) for action in group._group_actions)
        if options:
            sections.append(Section(str(group.title), options))
        files = files or " ".join(option.value for option in options if not option.names)
    usage = " ".join(parser.format_usage().split()).removeprefix("usage: ")
    text = "\n\n".join(part.strip("\n") for part in (parser.description, parser.epilog) if part)
    return Command((TOOLS, name), about, usage, as_installed(text), tuple(sections), files)


@cache
def tool_commands() -> tuple[Command, ...]:
    """The command of the tools, and all tools."""
    rows = "\n".join(f"  {name:10}{does}" for name, does in TOOLS_TOLD.items())
    text = f"{TOOLS} starts one of these tools, each of which has a page of its own and --help:\n\n{rows}"
    whole = Command((TOOLS,), "the companions of rehearse", USAGE.removeprefix("usage: "), text, (), "")
    return (whole, *(tool_command(name, does) for name, does in TOOLS_TOLD.items()))


def all_commands() -> Iterator[Command]:
    """All commands that have a page."""
    yield from program_commands()
    yield from tool_commands()


@cache
def script_words() -> tuple[tuple[str, str], ...]:
    """The commands of a script, each with what it does."""
    return tuple((row["word"], row["help"]) for row in json.loads(read(JSON)))
