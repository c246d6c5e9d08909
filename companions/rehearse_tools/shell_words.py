"""The commands of a script, by the table that docs/make writes of the program's own, and those of the shell alone: what stands behind
each, what is told of it, and which word was meant."""
import difflib
import json
from collections.abc import Sequence
from pathlib import Path
from typing import Optional, TypedDict, Union

# What may stand there: something of the cluster that this word names, or one of these words.
Kind = Union[str, tuple[str, ...]]


class Command(TypedDict):
    """A command of a script: its word, how it is written, the kinds of its arguments, and what is said of it."""
    word: str
    usage: str
    arguments: list[str]
    help: str
    example: str
    refusals: list[str]
    notices: list[str]


# What may stand for an argument of each kind, apart from names and times.
WORDS: dict[str, Kind] = {
    "restart": ("permanent", "transient", "temporary"), "truth": ("true", "false"), "ending": ("normal", "abnormal")}
# How an argument of each kind is written in a line of help.
LETTERS = {"node": "N", "app": "A", "milliseconds": "D", "restart": "T", "truth": "true|false", "ending": "normal|abnormal"}


def commands() -> list[Command]:
    """The commands of a script, in their order."""
    found: list[Command] = json.loads((Path(__file__).parent / "commands.json").read_text(encoding="utf-8"))
    return found


def kinds_of(command: Command) -> Sequence[Kind]:
    """What stands behind the word of a command. One that names no node is for a distributed application."""
    named: dict[str, Kind] = {"milliseconds": "time", "app": "app" if "node" in command["arguments"] else "distributed", **WORDS}
    return tuple(named.get(kind, kind) for kind in command["arguments"])


def help_of(command: Command) -> str:
    """The line of help of a command."""
    return f"{' '.join([command['word'], *(LETTERS[kind] for kind in command['arguments'])]):<27} {command['help']}"


TABLE = commands()
# What stands behind each command of a script.
COMMANDS: dict[str, Sequence[Kind]] = {command["word"]: kinds_of(command) for command in TABLE}
# What only the shell knows.
OWN: dict[str, Sequence[Kind]] = {
    "save": ("path", ("all",)), "live": (("on", "off"),), "names": (), "help": ("command",), "quit": ()}
HELP = "\n".join([*map(help_of, TABLE), "T is permanent, transient, temporary",
                  "save PATH [all], live [on|off], names, help [COMMAND], quit", "docs/SCRIPTS.md tells more."])
OWN_HELP = {
    "save": "save PATH writes the steps that stand as a story, which `rehearse verify` holds to; save PATH all all that you entered",
    "live": "live tells what live nodes do otherwise at the last command; live on tells it beside each answer, live off no longer",
    "names": "names lists the nodes and the applications",
    "help": "help lists the commands; help COMMAND tells of one",
    "quit": "quit ends, as exit and Ctrl-D do"}
# A word was meant where it is as near as this.
NEAR = 0.7


def topic(word: str) -> str:
    """What is told of a command."""
    if word in OWN_HELP:
        return OWN_HELP[word]
    command = next((command for command in TABLE if command["word"] == word), None)
    if command is None:
        return f"there is no command {word}{suggestion(meant(word, [*COMMANDS, *OWN]))}: help lists them"
    told = [f"{form_of(word)}: {command['help']}", f"as: {command['example']}"]
    if command["notices"]:
        told.append(f"what follows from it: {', '.join(command['notices'])}")
    if command["refusals"]:
        told.append(f"it is refused as: {', '.join(command['refusals'])} (`./rehearse help {command['refusals'][0]}` tells more)")
    return "\n".join(told)


def form_of(word: str) -> str:
    """How a command is written."""
    names = {"node": "N", "app": "A", "distributed": "A", "time": "MILLISECONDS"}
    return " ".join([word, *(names[kind] if isinstance(kind, str) else "|".join(kind) for kind in COMMANDS[word])])


def meant(word: str, words: Sequence[str]) -> Optional[str]:
    """That of some words which is nearly the same as a word."""
    return next(iter(difflib.get_close_matches(word, words, 1, NEAR)), None) if word not in words else None


def suggestion(word: Optional[str]) -> str:
    """A question for what was meant, if anything."""
    return f" (did you mean {word}?)" if word is not None else ""


def no_command(words: Sequence[str]) -> str:
    """What is told of the words of a line that is no command: how it is written, and what was meant."""
    word, *rest = words
    if word not in COMMANDS:
        return f"that is no command{suggestion(meant(word, [*COMMANDS, *OWN]))}: help lists them"
    found = [meant(given, kind) for given, kind in zip(rest, COMMANDS[word]) if not isinstance(kind, str)]
    return f"that is no command: {form_of(word)}{suggestion(next((one for one in found if one is not None), None))}"
