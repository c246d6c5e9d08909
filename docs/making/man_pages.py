"""Manual pages, one for each command, out of the texts of its help."""
import re
from collections.abc import Iterator, Sequence

from command_lines import Command, Option, all_commands

SECTION = 1
MANUAL = "Rehearsals of Erlang clusters"
# A line that begins a section of a text of help.
HEAD = re.compile(r"([A-Z][a-z]+(?: [a-z]+)?):")
# What is a section of its own, a paragraph or the rest of one.
STATUS = re.compile(r"\bExit\s+status: ?")
# Where the files lie that the pages name, seen from the folder that holds bin.
FOLDER = "share/doc/rehearse"
NAMES = "Files that begin with docs/ or examples/ lie in /usr/share/doc/rehearse, or in share/doc/rehearse of the archive."
ROFF = {"\\": r"\e", "-": r"\-", "'": r"\(aq", "`": r"\(ga", "^": r"\(ha", "~": r"\(ti"}


def escaped(text: str) -> str:
    """A text as roff prints it unchanged. A line may not begin with a dot."""
    text = "".join(ROFF.get(letter, letter) for letter in text)
    return re.sub(r"(?m)^\.", r"\\&.", text)


def prose(text: str) -> str:
    """A paragraph: what stands in backquotes is bold."""
    parts = re.split(r"`([^`\n]+)`", " ".join(text.split()))
    shown = "".join(f"\\fB{escaped(part)}\\fR" if place % 2 else escaped(part) for place, part in enumerate(parts))
    return r"\&" + shown if shown.startswith((".", r"\(aq")) else shown


def is_kept(block: str) -> bool:
    """Whether the line breaks of a block matter: an example, a table."""
    first = block.split("\n", 1)[0]
    return first.startswith("  ") or "<< 'EOF'" in first


def blocks(text: str) -> Iterator[str]:
    """A text of help in blocks. An input behind a << is one, whatever stands in it, and so are lines that are indented."""
    block: list[str] = []
    is_input = False
    for line in text.strip("\n").splitlines():
        is_change = bool(block) and bool(line) and not is_input and line.startswith("  ") != block[0].startswith("  ")
        if block and (is_change or not line and not is_input):
            yield "\n".join(block)
            block = []
        if line or is_input:
            block.append(line)
            is_input = is_input and line != "EOF" or line.endswith("<< 'EOF'")
    if block:
        yield "\n".join(block)


def kept(block: str) -> list[str]:
    """A block with its line breaks."""
    lines = block.splitlines()
    least = min(len(line) - len(line.lstrip()) for line in lines if line)
    return [".PP", ".nf", ".RS 2", *(escaped(line[least:]) or "\\&" for line in lines), ".RE", ".fi"]


def body(text: str) -> Iterator[str]:
    """What a text of help says, under its heads."""
    statuses: list[str] = []
    for block in blocks(text):
        head = HEAD.fullmatch(block.split("\n", 1)[0])
        before, *told = [block] if head else STATUS.split(block, maxsplit=1)
        statuses += told
        if head:
            yield f".SH {head[1].upper()}"
            yield from kept(block.split("\n", 1)[1]) if "\n" in block else ()
        elif is_kept(block):
            yield from kept(block)
        elif before:
            yield from (".PP", prose(before))
    for status in statuses:
        yield from (".SH EXIT STATUS", prose(status))


def option_lines(option: Option) -> list[str]:
    """An option, or a word that is no option, with what it is for."""
    value = "|".join(option.choices) if option.choices else option.value
    shown = ", ".join(f"\\fB{escaped(name)}\\fR" for name in option.names)
    shown += f" \\fI{escaped(value)}\\fR" if value and option.names else f"\\fI{escaped(value)}\\fR"
    return [".TP", shown, prose(option.does)]


def described(command: Command) -> list[str]:
    """What a command is, in its line of names: it has no capital and no dot."""
    about = command.about.rstrip(".")
    return [".SH NAME", f"{escaped(command.page)} \\- {escaped(about[0].lower() + about[1:])}"]


def beside(command: Command, every: Sequence[Command]) -> str:
    """The other pages of the same program, and the first of each."""
    others = [other for other in every if other != command and (other.words[0] == command.words[0] or len(other.words) == 1)]
    return ", ".join(f"\\fB{escaped(other.page)}\\fR({SECTION})" for other in others)


def man_page(command: Command, every: Sequence[Command], version: str, date: str) -> str:
    """The page of a command."""
    lines = [f'.TH {escaped(command.page.upper())} {SECTION} "{date}" "rehearse {version}" "{MANUAL}"', ".nh", ".ad l", *described(command)]
    lines += [".SH SYNOPSIS", f"\\fB{escaped(command.usage)}\\fR", ".SH DESCRIPTION"]
    lines += body(command.text)
    for section in command.sections:
        lines += [f".SH {escaped(section.head.upper())}", *(line for option in section.options for line in option_lines(option))]
    lines += [".SH FILES", prose(NAMES), ".SH SEE ALSO", beside(command, every)]
    return "\n".join(lines) + "\n"


def man_pages(version: str, date: str) -> dict[str, str]:
    """All pages, by the names of their files."""
    every = list(all_commands())
    return {f"{command.page}.{SECTION}": man_page(command, every, version, date) for command in every}
