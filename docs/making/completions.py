"""What shells complete of the commands, for bash, zsh and fish: subcommands, tools, options and their values, the commands of a script
behind `rehearse help`, and files."""
import re
from collections.abc import Iterator, Sequence

from command_lines import PROGRAM, TOOLS, Command, Option, program_commands, script_words, tool_commands

# Where each text is installed, seen from the folder that holds bin.
BASH = "share/bash-completion/completions"
ZSH = "share/zsh/vendor-completions/_rehearse"
FISH = "share/fish/vendor_completions.d"
FIRST = "Made of the texts of help of the commands."
HELP = ("help", "print what a command is for")


def split() -> tuple[tuple[str, Sequence[Command]], ...]:
    """Each of the two programs, with its commands."""
    return (PROGRAM, program_commands()[1:]), (TOOLS, tool_commands()[1:])


def one_line(text: str) -> str:
    """What an option is for, as a line that fits beside it."""
    first = re.split(r"(?<=\w)[.;:] | \(default| \[default", " ".join(text.split()))[0]
    return first[:80].rstrip(" .")


def quoted(text: str) -> str:
    """A text as one word of a shell."""
    return "'" + text.replace("'", "'\\''") + "'"


def own_options(command: Command) -> list[Option]:
    """Its options, without its other words."""
    return [option for option in command.options if option.names]


# For bash.

def bash_case(command: Command) -> Iterator[str]:
    """What comes behind the word of a command."""
    name = command.words[-1]
    options = own_options(command)
    for option in options:
        if option.choices:
            yield f"    {name}:{'|'.join([*option.names]).replace('|', f'|{name}:')}) words='{' '.join(option.choices)}' ;;"
    takes = [option for option in options if option.value and not option.choices]
    if takes:
        yield f"    {'|'.join(f'{name}:{one}' for option in takes for one in option.names)}) words= ;;"
    names = " ".join(one for option in options for one in option.names)
    yield f"    {name}:*) [[ $cur != -* ]] || words='{names}' ;;"


def bash_function(program: str, commands: Sequence[Command]) -> Iterator[str]:
    """The function that completes a program."""
    function = f"_{program.replace('-', '_')}"
    first = " ".join(command.words[-1] for command in commands)
    helped = f"{first} {' '.join(word for word, _ in script_words())}" if program == PROGRAM else first
    options = "--help --version" if program == PROGRAM else "--help"
    yield from (f"{function}() {{", "  local cur=${COMP_WORDS[COMP_CWORD]} before=${COMP_WORDS[COMP_CWORD-1]} words=", "  COMPREPLY=()")
    yield from ("  if ((COMP_CWORD == 1)); then", f"    COMPREPLY=($(compgen -W '{first} help {options}' -- \"$cur\"))", "    return", "  fi")
    yield "  case ${COMP_WORDS[1]}:$before in"
    yield f"    help:*) ((COMP_CWORD > 2)) || words='{helped}' ;;"
    for command in commands:
        yield from bash_case(command)
    yield from ("  esac", '  if [ -n "$words" ]; then', '    COMPREPLY=($(compgen -W "$words" -- "$cur"))', "  else")
    yield from ("    compopt -o filenames 2> /dev/null", '    mapfile -t COMPREPLY < <(compgen -f -- "$cur")', "  fi", "}")
    yield from (f"complete -F {function} {program}", "")


def bash(program: str, commands: Sequence[Command]) -> str:
    """The text for bash."""
    return "\n".join([f"# {FIRST}", *bash_function(program, commands)])


# For zsh.

def zsh_text(text: str) -> str:
    """A text inside of a description of zsh."""
    return one_line(text).replace("\\", "\\\\").replace("[", "\\[").replace("]", "\\]").replace(":", "\\:").replace("'", "'\\''")


def zsh_option(option: Option) -> str:
    """An option as _arguments has it."""
    names = "{" + ",".join(option.names) + "}" if len(option.names) > 1 else option.names[0]
    value = f":{zsh_text(option.value or option.names[-1].lstrip('-'))}:" if option.value or option.choices else ""
    if option.choices:
        value += f"({' '.join(option.choices)})"
    elif value:
        value += "_files"
    return f"'*'{names}'[{zsh_text(option.does)}]{value}'"


def zsh_list(name: str, rows: Sequence[tuple[str, str]]) -> Iterator[str]:
    """A list of words, each with what it is for."""
    yield f"  local -a {name}"
    yield f"  {name}=("
    yield from (f"    {quoted(word + ':' + one_line(does).replace(':', ' '))}" for word, does in rows)
    yield "  )"


def zsh_function(program: str, commands: Sequence[Command]) -> Iterator[str]:
    """The function that completes a program."""
    rows = [(command.words[-1], command.about) for command in commands]
    yield f"_{program.replace('-', '_')}_words() {{"
    yield from zsh_list("first", [*rows, HELP])
    yield from zsh_list("helped", [*rows, *(script_words() if program == PROGRAM else ())])
    yield from ("  if ((CURRENT == 2)); then", "    _describe command first", "    return", "  fi")
    yield from ("  local name=${words[2]}", "  shift words", "  ((CURRENT--))", "  case $name in")
    yield "    help) ((CURRENT > 2)) || _describe command helped ;;"
    for command in commands:
        yield f"    {command.words[-1]})"
        yield " \\\n".join(["      _arguments", *(f"        {zsh_option(option)}" for option in own_options(command)), "        '*:file:_files'"])
        yield "      ;;"
    yield from ("  esac", "}", "")


def zsh() -> str:
    """The text for zsh, of both programs."""
    lines = [f"#compdef {PROGRAM} {TOOLS}", f"# {FIRST}"]
    lines += [line for program, commands in split() for line in zsh_function(program, commands)]
    lines += ["case $service in", f"  {TOOLS}) _rehearse_tools_words ;;", "  *) _rehearse_words ;;", "esac", ""]
    return "\n".join(lines)


# For fish.

def fish_option(program: str, name: str, option: Option) -> str:
    """A line about an option of a command."""
    flags = [f"-l {one[2:]}" if one.startswith("--") else f"-s {one[1:]}" for one in option.names]
    value = f" -x -a {quoted(' '.join(option.choices))}" if option.choices else " -r" if option.value else ""
    return f"complete -c {program} -n '__fish_seen_subcommand_from {name}' {' '.join(flags)}{value} -d {quoted(one_line(option.does))}"


def fish(program: str, commands: Sequence[Command]) -> str:
    """The text for fish."""
    lines = [f"# {FIRST}"]
    rows = [(command.words[-1], command.about) for command in commands]
    for word, does in [*rows, HELP]:
        lines.append(f"complete -c {program} -f -n __fish_use_subcommand -a {word} -d {quoted(one_line(does))}")
    for word, does in [*rows, *(script_words() if program == PROGRAM else ())]:
        is_next = "__fish_seen_subcommand_from help; and test (count (commandline -opc)) -eq 2"
        lines.append(f"complete -c {program} -f -n {quoted(is_next)} -a {word} -d {quoted(one_line(does))}")
    lines += [fish_option(program, command.words[-1], option) for command in commands for option in own_options(command)]
    return "\n".join(lines) + "\n"


def completions() -> dict[str, str]:
    """All texts, by the paths where they are installed."""
    found = {ZSH: zsh()}
    for program, commands in split():
        found |= {f"{BASH}/{program}": bash(program, commands), f"{FISH}/{program}.fish": fish(program, commands)}
    return found
