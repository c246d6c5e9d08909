"""The table of commands, as rh_script/src/forms.rt has it: a row for each command with its word, what stands behind it, and what
is said of it. The reasons for which an event is refused stand in a definition of rh_rules."""
import json
import re
from collections.abc import Iterator
from dataclasses import dataclass
from functools import cache

from tree import CRATES, TOP, BadSource, read, shown

FORMS = CRATES / "rh_script" / "src" / "forms.rt"
REFUSALS = CRATES / "rh_rules" / "specs" / "Refusals.antt"
HELP_SOURCE = CRATES / "rh_command_line" / "src" / "help.rt"
EXPLORE_HELP = CRATES / "rh_command_line" / "src" / "explore_help.rt"
JSON = TOP / "companions" / "rehearse_tools" / "commands.json"
# How an argument of each kind is written in texts of help.
LETTERS = {"Node": "N", "App": "A", "Restart": "T", "Truth": "B", "Ending": "R", "Milliseconds": "D"}
ITEMS = ("Needs", "Tells", "Help", "Example")
# In the texts of help the table stands between these lines.
HELP_TABLE = re.compile(r"(?s)(behind it is a command, is blank, or begins with `#`:\n\n).*?(\n\nN and A are names)")


@dataclass(frozen=True)
class Command:
    """A row of the table."""

    verb: str
    word: str
    arguments: tuple[str, ...]
    does: str
    needs: str
    tells: tuple[str, ...]
    help: str
    example: str
    refusals: tuple[str, ...]

    @property
    def usage(self) -> str:
        """The command as texts of help write it."""
        return " ".join([self.word, *(LETTERS[kind] for kind in self.arguments)])


def told_of(verb: str, lines: list[str]) -> tuple[str, dict[str, str]]:
    """What a comment says of a command: its first paragraph, and its items."""
    does, items = "", {}
    for line in lines:
        item = re.match(r"- (\w+): ", line)
        if item:
            name = item[1]
            items[name] = line[item.end():]
        elif items and line:
            items[name] += " " + line.strip()
        else:
            does = f"{does} {line}".strip()
    if any(name not in ITEMS for name in items) or "Help" not in items or "Example" not in items or not does.endswith("."):
        raise BadSource(f"{shown(FORMS)}: {verb} isn't told of by a sentence and by items of {', '.join(ITEMS)}")
    return does, items


@cache
def words_of_refusals() -> dict[str, tuple[str, str]]:
    """The code and the word of each refusal, by its variant."""
    found = re.findall(r'^refusal_words (?:\()?(\w+)[^=]*= codes "(S\d+) (\w+)', read(REFUSALS), re.M)
    return {name: (code, word) for name, code, word in found}


def codes_in(text: str) -> list[str]:
    """The codes of the refusals that a definition names, in their order."""
    names = words_of_refusals()
    return [names[name][0] for name in re.findall(r"\b[A-Z]\w+", text) if name in names]


@cache
def refusals() -> dict[str, tuple[str, ...]]:
    """The codes for which each event is refused, in the order in which they are tested."""
    text = read(REFUSALS)
    shared = {name: codes_in(body) for name, body in re.findall(r"(?ms)^(dep_tests|tests_by_hand)\b[^:=\n]*= (.*?)(?=^$)", text)}
    shared["dep_tests"] = codes_in("".join(re.findall(r"(?m)^dep_tests .*= (.*)$", text)))
    found = {}
    for verb, body in re.findall(r"(?ms)^tests s \((\w+)[^)]*\) =(.*?)(?=^tests |^$)", text):
        codes = shared["tests_by_hand"] if "tests_by_hand" in body else []
        found[verb] = (*codes, *codes_in(body), *(shared["dep_tests"] if "dep_tests" in body else []))
    return found


@cache
def commands() -> tuple[Command, ...]:
    """All rows of the table."""
    text = read(FORMS)
    lists = dict(re.findall(r"(?ms)^static (\w+): \[Argument; \d+\] = \[(.*?)\];$", text))
    forms = {verb: (word, tuple(re.findall(r"Argument::(\w+)", lists[name])))
             for verb, word, name in re.findall(r'Verb::(\w+) => form_of\("(\w+)", (\w+)\.as_slice\(\)\)', text)}
    body = re.search(r"(?ms)^pub enum Verb \{\n(.*?)^\}", text)
    found = []
    for comment, verb in re.findall(r"(?m)((?:^    ///.*\n)+)^    (\w+),$", body[1] if body else ""):
        does, items = told_of(verb, [line.strip().removeprefix("///").strip() for line in comment.splitlines()])
        word, arguments = forms[verb]
        tells = tuple(filter(None, items.get("Tells", "").split(", ")))
        found.append(Command(verb, word, arguments, does, items.get("Needs", ""), tells, items["Help"], items["Example"],
                             refusals().get(verb, ())))
    if not found or set(forms) != {command.verb for command in found}:
        raise BadSource(f"{shown(FORMS)}: not each command has a row and a comment")
    return tuple(found)


def json_page() -> str:
    """The table as companions and tests read it."""
    rows = [{"word": it.word, "usage": it.usage, "arguments": [kind.lower() for kind in it.arguments], "help": it.help,
             "example": it.example, "refusals": list(it.refusals), "notices": list(it.tells)} for it in commands()]
    return "[\n" + ",\n".join(f"  {json.dumps(row)}" for row in rows) + "\n]\n"


def help_table() -> str:
    """The table as the help of `run` has it."""
    lines = [f"  {it.usage:<15} {it.help:<33} {it.example}" for it in commands()]
    long = [line for line in lines if len(line) > 80]
    if long:
        raise BadSource(f"{shown(FORMS)}: a line of help is longer than 80 columns: {long[0].strip()}")
    return "\n".join(lines)


def with_help(text: str) -> str:
    """A text of help with its table made."""
    made, count = HELP_TABLE.subn(lambda found: found[1] + help_table() + found[2], text)
    if count != 1:
        raise BadSource("a text of help hasn't one table of commands")
    return made


def made_commands(_words: str) -> Iterator[str]:
    """The table of commands as a page has it."""
    yield from ("| Command | Does | Needs, else it is refused |", "|---|---|---|")
    for it in commands():
        does = (it.does if it.does.startswith(("A,", "`")) else it.does[0].lower() + it.does[1:]).rstrip(".")
        yield f"| `{it.usage}` | {does} | {it.needs + ' ' if it.needs else ''}|"


def made_refusals(_words: str) -> Iterator[str]:
    """For which reasons each command is refused, in the order of the tests. A reason is named in full where it comes first."""
    words = dict(words_of_refusals().values())
    yield from ("| Command | Tested in this order |", "|---|---|")
    for it in commands():
        if it.refusals:
            told = ", ".join(f"{code} {words.pop(code)}" if code in words else code for code in it.refusals)
            yield f"| `{it.usage}` | {told} |"
