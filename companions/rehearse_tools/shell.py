"""A prompt on a cluster file: each command of a script is answered at once, and can be taken back.

  companions/shell cluster.txt

FILE is a cluster file. Where it has a script, that is made first, up to a line `plan`, and you go on behind it. The prompt
shows the clock. The TAB key completes commands, nodes, applications and restart types, and behind `tick` the times to the
next timers. Besides the commands of a script (`help` lists them) there are:

  save PATH      writes FILE and, as its script, the story so far: the steps that stand, each with its answer as comments, and
                 your own lines that begin with #. What was refused, shown or taken back is left out
  save PATH all  the same with all that you entered
  live           what live nodes of OTP 25.2.3 do otherwise at the last command, as companions/live tells it
  live on        that beside each answer from now on; live off ends it
  names          the nodes and the applications
  help           the commands; help COMMAND tells of one
  quit           ends, as `exit` and Ctrl-D do

With --rules otp25 live nodes of OTP 25.2.3 answer, as by `rehearse run --rules otp25`: a call can stay open (`no answer`), and `show`
tells what hangs. Then `live` has nothing to tell.

What is saved is what `rehearse story` writes: an input of `rehearse run`, of `rehearse verify` (which tells what comes otherwise), and
of this companion. One process of the program (`rehearse run --interactive`) answers all commands, each as fast behind many as behind
few. A line that is no command ends it: it is begun anew then, on all that was entered so far.

At a terminal answers have colours, unless NO_COLOR is set, and what you enter is kept for the next time, the last 1,000 lines of it,
in $XDG_STATE_HOME/rehearse/shell-history (~/.local/state, if that isn't set).

Exit status: 0 done, 1 a wrong command line, 2 FILE is refused.
"""
import io
import os
import sys
from collections.abc import Sequence
from dataclasses import dataclass
from typing import TYPE_CHECKING, Optional

from rehearse_tools.colours import CYAN, GREEN, RED, YELLOW, coloured, shows_colours
from rehearse_tools.command_line import CommandLine
from rehearse_tools.conversing import LIVE, MANUAL, Conversation
from rehearse_tools.endings import Refused
from rehearse_tools.inputs import Input, called, commands_of, is_command, joined, read_text, split_input, words_of
from rehearse_tools.program import BadLine
from rehearse_tools.reading import Answer
from rehearse_tools.shell_words import COMMANDS, HELP, OWN, meant, no_command, suggestion, topic
from rehearse_tools.words import plural

if TYPE_CHECKING:
    from rehearse_tools.shell_history import History
    from rehearse_tools.shell_live import Beside

# By which rules is answered, as the option has it.
RULES = {"manual": MANUAL, "otp25": LIVE}
# What moves in a story, and is no step of it.
MOVES = ("undo", "redo", "undo_all", "redo_all")
# Which lines have which colour.
COLOURS = {"refused ": RED, "that is no command": RED, "started ": GREEN, "up ": GREEN, "stopped ": YELLOW, "ended ": YELLOW,
           "waits ": CYAN, "no answer": YELLOW, "error ": RED, "endless": RED, "failed ": RED, "pending ": YELLOW, "answered ": GREEN,
           "  blocked ": RED, "open ": YELLOW, "< ": RED, "> ": YELLOW, "! ": YELLOW, "? ": YELLOW}
LIVE_HEAD = "beside each answer what live nodes do otherwise: < by the rules, > live nodes, ! why"


@dataclass(frozen=True)
class Step:
    """A command with the comments before it."""
    notes: list[str]
    command: str

    @property
    def lines(self) -> list[str]:
        return [*self.notes, self.command]


class Session:
    """A rehearsal at a prompt: all lines that were entered and the answers to those that are commands."""

    def __init__(self, talk: Conversation):
        self.talk = talk
        self.lines: list[str] = []
        self.told: list[Answer] = []
        self.saved: set[str] = set()
        # Live nodes, once they were asked for, and whether they stand beside each answer.
        self.live: Optional["Beside"] = None
        self.is_live = False
        self.ask([])
        self.names = talk.names

    def ask(self, lines: list[str]) -> list[Answer]:
        """Makes these lines too, and gives their answers. Where one of them is no command, nothing is done."""
        new, self.report = self.talk.ask(commands_of(lines))
        self.lines += lines
        self.told += new
        return new

    def times(self) -> list[str]:
        """The times to the next timers."""
        return [str(timer.due - self.report.now) for timer in self.report.timers]

    def fitting(self, words: Sequence[str]) -> list[str]:
        """What the word may be that stands behind these words of a line."""
        if not words:
            return [*COMMANDS, *OWN]
        kinds = {**COMMANDS, **OWN}.get(words[0], ())
        kind = kinds[len(words) - 1] if len(words) <= len(kinds) else ()
        if words[0] in ("boot", "crash"):
            return [node.name for node in self.report.nodes.values() if node.is_alive == (words[0] == "crash")]
        if not isinstance(kind, str):
            return list(kind)
        known: dict[str, list[str]] = {"node": self.names.nodes, "app": self.names.apps, "distributed": list(self.report.apps),
                                       "time": self.times(), "path": [], "command": [*COMMANDS, *OWN]}
        return known[kind]

    def meant(self, answer: Answer, words: Sequence[str]) -> list[str]:
        """A line for the name that was meant in place of one that isn't there."""
        names = {"unknown_node": self.names.nodes, "unknown_app": self.names.apps}.get(answer.refusal.partition(" ")[2])
        found = next((name for name in (meant(word, names) for word in words[1:3]) if name is not None), None) if names else None
        return [suggestion(found).strip(" ()")] if found is not None else []

    def beside(self) -> list[str]:
        """What live nodes do otherwise at the last command."""
        if not self.told:
            return ["there is no command yet"]
        # The model takes some time to load.
        from rehearse_tools.shell_live import Beside
        self.live = self.live or Beside(self.talk.program, self.talk.cluster)
        return self.live.follow(self.talk.made, self.told[-1], self.report)


def story(lines: Sequence[str], told: Sequence[Answer]) -> tuple[list[Step], list[str]]:
    """The steps that stand at the end of a script, each with the comments before it; and the comments behind the last one."""
    answers = iter(told)
    steps: list[Step] = []
    cursor, notes = 0, []
    for line in lines:
        if not is_command(line):
            notes.append(line)
            continue
        answer, word = next(answers), words_of(line)[0]
        if not answer.is_ok or word == "show":
            continue
        if word in MOVES:
            cursor += answer.steps if word.startswith("redo") else -answer.steps
        else:
            steps[cursor:] = [Step(notes, line)]
            cursor, notes = cursor + 1, []
    return steps[:cursor], notes


def saved(session: Session, is_all: bool) -> bytes:
    """The input that is saved: the cluster file and its script, with the answers as the program tells a story."""
    steps, notes = story(session.lines, session.told)
    lines = session.lines if is_all else [line for step in steps for line in step.lines] + notes
    return session.talk.program.story(session.talk.cluster, lines, session.talk.source, session.talk.rules.words)


def save(session: Session, words: Sequence[str]) -> str:
    """Writes what is saved, and tells so. A file that this session didn't write stays."""
    if len(words) not in (2, 3) or list(words[2:]) not in ([], ["all"]):
        return "save PATH, or save PATH all"
    path = os.path.abspath(os.path.expanduser(words[1]))
    try:
        text = saved(session, len(words) == 3)
        with open(path, "wb" if path in session.saved else "xb") as file:
            file.write(text)
    except OSError as fault:
        return f"{words[1]}: {fault.strerror}"
    session.saved.add(path)
    return f"saved: {' '.join(['rehearse verify', *session.talk.rules.words])} < {words[1]}"


def set_live(session: Session, words: Sequence[str]) -> str:
    """Tells of live nodes, now, or from now on beside each answer."""
    if session.talk.rules is LIVE:
        return "live nodes answer here; without --rules otp25 the manual's rules do, and live tells where they differ"
    if list(words[1:]) not in ([], ["on"], ["off"]):
        return "live, live on, or live off"
    if len(words) == 1:
        return "\n".join(session.beside())
    session.is_live = words[1] == "on"
    return LIVE_HEAD if session.is_live else "without live nodes"


def answer_to(session: Session, line: str) -> str:
    """What is told for a line at the prompt."""
    words = words_of(line)
    if words[0] == "save":
        return save(session, words)
    if words == ["names"]:
        return f"nodes: {' '.join(session.names.nodes)}\napplications: {' '.join(session.names.apps)}"
    if words[0] == "live":
        return set_live(session, words)
    if words[0] == "help":
        return HELP if len(words) == 1 else topic(words[1]) if len(words) == 2 else "help, or help COMMAND"
    try:
        answer = session.ask([line])[-1]
        return "\n".join([*answer.lines, *session.meant(answer, words), *(session.beside() if session.is_live else [])])
    except BadLine:
        return no_command(words)
    except Refused as fault:
        return str(fault)


def set_up_keys(session: Session) -> None:
    """Lets TAB complete."""
    import readline

    def complete(_: str, number: int) -> Optional[str]:
        front = readline.get_line_buffer()[:readline.get_begidx()]
        begun = readline.get_line_buffer()[readline.get_begidx():readline.get_endidx()]
        found = [word + " " for word in session.fitting(words_of(front)) if word.startswith(begun)]
        return found[number] if number < len(found) else None

    readline.set_completer(complete)
    readline.set_completer_delims(" ")
    readline.parse_and_bind("tab: complete")


def serve(session: Session, history: Optional["History"]) -> bool:
    """Answers one line of the prompt, and tells whether another one is to come."""
    text = input(f"{session.report.now} ms> " if sys.stdin.isatty() else "")
    if history is not None:
        history.keep()
    if words_of(text) in (["quit"], ["exit"]):
        return False
    if is_command(text):
        told = answer_to(session, text)
        print("\n".join(coloured(line, COLOURS) for line in told.split("\n")) if shows_colours() else told)
    elif text:
        session.lines.append(text)
    return True


def opened(talk: Conversation, parts: Input) -> tuple[Session, str]:
    """A session behind the script of a file, and what is told of it."""
    session = Session(talk)
    talk.program.check_script(joined(parts.cluster, parts.lines), talk.source)
    session.ask(parts.lines)
    behind = f", behind {plural(len(parts.base), 'command')} of the script" if parts.base else ""
    names = session.names
    counts = f"{plural(len(names.nodes), 'node')}, {plural(len(names.apps), 'application')}"
    who = ", live nodes of OTP 25" if talk.rules is LIVE else ""
    return session, f"{counts}, profile {names.profile}{who}{behind}; help lists the commands"


def command_line() -> CommandLine:
    """The command line of this tool."""
    line = CommandLine("shell", __doc__)
    line.add_argument("file", metavar="FILE", help="a cluster file, with a script or without one")
    line.add_argument("--rules", choices=tuple(RULES), default="manual",
                      help="who answers: the manual's rules, or live nodes of OTP 25.2.3 (default: manual)")
    line.add_program()
    return line


def main(words: Sequence[str]) -> None:
    """Answers the lines of a prompt."""
    line = command_line()
    given = line.parse_args(words)
    if sys.stdin is None or sys.stdout is None:
        raise Refused(f"standard {'input' if sys.stdin is None else 'output'}: it is closed")
    program, parts = line.program(given), split_input(read_text(given.file))
    with Conversation(program, parts.cluster, called(given.file), RULES[given.rules]) as talk:
        session, told = opened(talk, parts)
        print(told)
        converse(session)


def converse(session: Session) -> None:
    """Answers the lines of the prompt, at a terminal with its keys."""
    if sys.stdin.isatty():
        set_up_keys(session)
    for stream in (sys.stdin, sys.stdout):
        if isinstance(stream, io.TextIOWrapper):
            stream.reconfigure(errors="surrogateescape")
    history = None
    if sys.stdin.isatty():
        # Only a terminal needs what reads lines with keys.
        from rehearse_tools.shell_history import History
        history = History()
    serve_all(session, history)


def serve_all(session: Session, history: Optional["History"]) -> None:
    """Answers the lines of the prompt, up to the last one."""
    while True:
        try:
            if not serve(session, history):
                return
        except EOFError:
            print(end="\n" if sys.stdin.isatty() else "")
            return
        except KeyboardInterrupt:
            print()
