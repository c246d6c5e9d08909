"""The program in a conversation: one process of `rehearse run --interactive --json`, which is asked line by line.

All that it owes to the lines that it has read is written when it waits for more. So an answer takes as long behind many commands as
behind few.
"""
import os
import signal
import subprocess
import tempfile
from collections.abc import Callable, Sequence
from contextlib import suppress
from dataclasses import dataclass
from itertools import islice
from threading import Thread
from typing import Optional

from rehearse_tools.endings import Refused, why_of
from rehearse_tools.inputs import joined, to_bytes, to_text
from rehearse_tools.program import NO_SUBCOMMAND, BadLine, Program, hand_on
from rehearse_tools.reading import Answer, JsonRun, Names, Report
from rehearse_tools.reading_live import LiveAnswer

SHOW = "show"
# Once nothing more comes the process has so many seconds for its end.
LAST_SECONDS = 2.0


class Child:
    """A process that is asked. It has a session of its own: what Ctrl-C at a terminal ends isn't there."""

    def __init__(self, words: Sequence[str]):
        try:
            self.errors = tempfile.TemporaryFile()
            self.process = subprocess.Popen(words, stdin=subprocess.PIPE, stdout=subprocess.PIPE, stderr=self.errors,
                                            start_new_session=True)
        except OSError as fault:
            raise Refused(f"{words[0]} can't be run: {why_of(fault)}") from None
        assert self.process.stdin is not None and self.process.stdout is not None
        self.questions, self.answers = self.process.stdin, self.process.stdout

    def answered(self, text: str, count: int) -> list[str]:
        """Writes a text, and gives as many lines of what comes, or fewer where the process ended. A pipe holds little, so that a long
        text is written while its answers are read."""
        writer = Thread(target=self.write, args=(to_bytes(text),), daemon=True)
        writer.start()
        lines = [to_text(line.removesuffix(b"\n")) for line in islice(self.answers, count)]
        writer.join()
        return lines

    def write(self, data: bytes) -> None:
        """Writes some bytes. Where nobody reads them any more, or the pipe was closed, what is answered tells it."""
        with suppress(OSError, ValueError):
            self.questions.write(data)
            self.questions.flush()

    def kill(self) -> None:
        """Kills the process, with all that it started."""
        if self.process.poll() is None:
            with suppress(ProcessLookupError):
                os.killpg(self.process.pid, signal.SIGKILL)

    def end(self) -> tuple[int, str]:
        """Waits until the process has ended, to which nothing more is written, and gives its status and what it wrote to standard
        error."""
        with suppress(OSError):
            self.questions.close()
        try:
            self.process.wait(LAST_SECONDS)
        except subprocess.TimeoutExpired:
            self.kill()
        status = self.process.wait()
        self.answers.close()
        with self.errors:
            self.errors.seek(0)
            return status, to_text(self.errors.read())


@dataclass(frozen=True)
class Rules:
    """By which rules is answered: the words that say so to the program, and how its answers are read."""
    words: tuple[str, ...]
    answer: Callable[[str], Answer]


MANUAL = Rules((), Answer)
LIVE = Rules(("--rules", "otp25"), LiveAnswer)


class Conversation:
    """A rehearsal that goes on: the commands that were made, and the process that made them. Where that has ended, as it does at a line
    that is no command, the next question begins it anew behind these commands."""

    def __init__(self, program: Program, cluster: str, source: str, rules: Rules = MANUAL):
        self.program, self.cluster, self.source, self.rules = program, cluster, source, rules
        self.made: list[str] = []
        self.child: Optional[Child] = None
        self.first = ""

    def __enter__(self) -> "Conversation":
        return self

    def __exit__(self, *_: object) -> None:
        self.end()

    @property
    def names(self) -> Names:
        """The names in the cluster file, once something was asked."""
        return JsonRun(0, [self.first]).names

    def ask(self, commands: Sequence[str]) -> tuple[list[Answer], Report]:
        """The answers to some more commands, and the report behind them. Where one of these lines is no command, none is made."""
        again = [] if self.child else list(self.made)
        *answers, shown = (self.rules.answer(answer.line) for answer in self.run([*again, *commands, SHOW]).answers)
        if "report" not in shown.fields:
            self.end()
            raise Refused(f"{self.program.path} isn't the program: it doesn't answer each command")
        self.made += commands
        return answers[len(again):], shown.report

    def run(self, lines: Sequence[str]) -> JsonRun:
        """What is told of some more lines, each of which is owed an answer; a new process is given the cluster file first."""
        is_new = self.child is None
        child = self.child = self.child or Child([self.program.path, "run", "--interactive", "--json", *self.rules.words,
                                                  "--pick", self.program.pick])
        # One CR at the end of a line is dropped: so a line keeps its own.
        text = (joined(self.cluster, []) if is_new else "") + "".join(f"{line}\r\n" for line in lines)
        try:
            told = child.answered(text, len(lines) + is_new)
        except BaseException:
            # What comes now would be taken for the answer to something else.
            child.kill()
            self.end()
            raise
        if len(told) < len(lines) + is_new:
            raise self.fault(told, lines[len(told) - is_new - 1:])
        if is_new:
            self.first = told.pop(0)
        return JsonRun(0, [self.first, *told])

    def fault(self, told: list[str], left: Sequence[str]) -> Refused:
        """Why the process ended when it had told so much; the first line that is left is that of which it told last."""
        status, error = self.end()
        if status == NO_SUBCOMMAND:
            asked = " ".join(["--interactive", *self.rules.words])
            return Refused(f"{self.program.path} is older than this tool: its `run` has no {asked}")
        hand_on(error)
        run = JsonRun(status, told)
        if run.bad_line is not None:
            return BadLine(f"{self.source}: this line is no command: {left[0]}")
        return Refused(f"{self.source}: {self.program.ended(run)}")

    def end(self) -> tuple[int, str]:
        """Ends the process, if there is one, and gives its status and what it wrote to standard error."""
        child, self.child = self.child, None
        return child.end() if child else (0, "")
