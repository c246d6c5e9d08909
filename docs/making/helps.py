"""The texts of help as the program prints them, made of its table of subcommands, its options and the texts that stand in its
source, and what the script in front of it has to know of these: the words of the subcommands, and which options take a value."""
import re
from dataclasses import dataclass
from functools import cache
from pathlib import Path

from commands import EXPLORE_HELP, HELP_SOURCE, with_help
from tree import CRATES, TOP, BadSource, read, shown

SOURCES = CRATES / "rh_command_line" / "src"
TABLE, BUILDING, NAMES = SOURCES / "table.rt", SOURCES / "building.rt", SOURCES / "command_line.rt"
HELP, FRONT = TOP / "docs" / "help", TOP / "shipped" / "front.sh"
PROGRAM, HELP_OPTION, VERSION_OPTION = "rehearse", ("  -h, --help", "Print help"), ("  -V, --version", "Print version")
# A string of the source: one line, or lines behind a backslash.
STRING = r'"(?:\\\n)?((?:[^"\\]|\\.)*)"'
# Where the script in front has the words of the subcommands, and the options that take a value.
WORDS_IN_FRONT = re.compile(r'(?m)(^is_subcommand\(\) \{\n  case "\$\{1-\}" in\n    )[^)]*(\) ;;$)')
OPTIONS_IN_FRONT = re.compile(r"(?m)^(      )--[^)]*(\)\n        words\+=\(\"\$\{@:1:2\}\"\)$)")


@dataclass(frozen=True)
class Subcommand:
    """A row of the table: its word, the names of its options, and its texts."""

    word: str
    settings: tuple[str, ...]
    about: str
    text: str


def one(pattern: str, text: str, what: str) -> str:
    """What the pattern finds."""
    found = re.search(pattern, text)
    if not found:
        raise BadSource(f"the sources of rh_command_line have no {what}")
    return found[1]


@cache
def texts() -> dict[str, str]:
    """The texts of help.rt and explore_help.rt, by their names."""
    sources = with_help(read(HELP_SOURCE)) + read(EXPLORE_HELP)
    found = re.findall(r"(?s)pub static (\w+): &str =\s+" + STRING + ";", sources)
    wrong = [name for name, text in found if "\\" in text]
    if wrong:
        raise BadSource(f"{shown(HELP_SOURCE)}: {wrong[0]} has a backslash, which isn't read here")
    return dict(found)


@cache
def subcommands() -> tuple[Subcommand, ...]:
    """The rows of the table, in the order in which help lists them."""
    source = read(TABLE)
    lists = {name: tuple(re.findall(r"Setting::(\w+(?:\(Flag::\w+\))?)", body))
             for name, body in re.findall(r"(?s)static (\w+): \[Setting; \d+\] = \[(.*?)\];", source)}
    row = r'Subcommand::(\w+) => (?:\{\s*)?entry_of\(\s*"(\w+)",\s*(?:(\w+)\.as_slice\(\)|&\[\]),\s*(\w+),\s*(\w+),?\s*\)'
    rows = {name: Subcommand(word, lists[given] if given else (), texts()[about], texts()[text])
            for name, word, given, about, text in re.findall(row, source)}
    order = re.findall(r"Subcommand::(\w+)", one(r"(?s)static SUBCOMMANDS: [^=]*= \[(.*?)\];", source, "list of subcommands"))
    if sorted(order) != sorted(rows):
        raise BadSource(f"{shown(TABLE)}: not each subcommand has a row: {', '.join(sorted(set(order) ^ set(rows)))}")
    return tuple(rows[name] for name in order)


def names_of(field: str) -> list[str]:
    """The names that an option takes, by their field among all names."""
    source = read(NAMES)
    table = one(rf"{field}: (\w+)\.as_slice\(\)", source, f"names {field}")
    return re.findall(STRING, one(rf"static {table}: [^=]*= \[(.*?)\];", source, f"table {table}"))


@cache
def valued() -> dict[str, tuple[str, str]]:
    """The options that take a value, by their names in the table: how each is written, and what help says of it."""
    found = {}
    for setting, maker in re.findall(r"Setting::(\w+) => (\w+)\(parts\),", read(BUILDING)):
        body = one(rf"(?s)\nfn {maker}<.*?\n\{{\n(.*?)\n\}}", read(BUILDING), maker)
        name = one(r'\.long\("(\w+)"\)', body, f"name in {maker}")
        told = one(r"(?s)\.help\(\s*" + STRING, body, f"help in {maker}") + f" [default: {one(STRING, body.partition('.default_value(')[2], maker)}]"
        told += "".join(f" [possible values: {', '.join(names_of(field))}]" for field in re.findall(r"ValueParser::Names\(parts\.names\.(\w+)\)", body))
        found[setting] = (name, told)
    return found


def option(setting: str) -> tuple[str, str]:
    """An option as help writes it, and what it says of it."""
    if not setting.startswith("Flag("):
        name, told = valued()[setting]
        return f"      --{name} <{name}>", told
    variant = setting[len("Flag(") : -1]
    word, told = (one(rf"{variant} => {STRING}", part, f"words of {variant}") for part in read(TABLE).split("pub fn help<")[:2])
    return f"      --{word}", told


def options(rows: list[tuple[str, str]]) -> str:
    """Options, each in its line, with what they are for in one column."""
    width = max(len(name) for name, _ in rows) + 2
    return "Options:\n" + "\n".join(f"{name:{width}}{told}" for name, told in rows)


def page(it: Subcommand) -> str:
    """What the program says to `NAME --help`."""
    rows = [*map(option, it.settings), HELP_OPTION]
    usage = f"Usage: {PROGRAM} {it.word}" + (" [OPTIONS]" if it.settings else "")
    return "\n\n".join([it.about, usage, options(rows), it.text]) + "\n"


def whole_page() -> str:
    """What it says to `--help`."""
    rows = [*((it.word, it.about) for it in subcommands()), ("help", "Print this message or the help of the given subcommand(s)")]
    width = max(len(word) for word, _ in rows) + 2
    listed = "Commands:\n" + "\n".join(f"  {word:{width}}{about}" for word, about in rows)
    given = options([HELP_OPTION, VERSION_OPTION])
    return "\n\n".join([texts()["ABOUT"], f"Usage: {PROGRAM} <COMMAND>", listed, given, texts()["AFTER_HELP"]]) + "\n"


def front() -> str:
    """The script in front, with the words of the table."""
    words = " | ".join(it.word for it in subcommands())
    names = " | ".join(dict.fromkeys(f"--{name}" for name, _ in valued().values()))
    text = read(FRONT)
    for pattern, told in ((WORDS_IN_FRONT, words), (OPTIONS_IN_FRONT, names)):
        text, count = pattern.subn(lambda found, told=told: found[1] + told + found[2], text)
        if count != 1:
            raise BadSource(f"{shown(FRONT)}: {told} has no place there, or more than one")
    return text


def helps() -> dict[Path, str]:
    """Each text of help, by its file, and the script in front."""
    pages = {HELP / f"{it.word}.txt": page(it) for it in subcommands()}
    return pages | {HELP / f"{PROGRAM}.txt": whole_page(), FRONT: front()}
