"""The program, as the tools ask it."""
import subprocess
import sys
from collections.abc import Sequence
from dataclasses import dataclass
from typing import Optional

from rehearse_tools.endings import Refused, why_of
from rehearse_tools.findings import FOUND, NOTHING, Findings, findings_in
from rehearse_tools.inputs import APART, Plan, commands_of, joined, lines_of, to_bytes, to_text, words_of
from rehearse_tools.outcomes import Outcome, outcomes_in
from rehearse_tools.reading import Answer, JsonRun, Names, PlainRun, Run

# A cluster file of one node that no script knows, and what is told of that: by that the program is.
NOBODY = "{node, nobody, []}.\n"
GREETED = ['{"profile":1,"nodes":["nobody"],"applications":[]}']
MOST_OF_A_FAULT = 300
# How the program ends where it hasn't a subcommand or an option, and how explore does: all is so, something isn't, or it couldn't look
# at all.
NO_SUBCOMMAND = 1
EXPLORED = (0, 9, 10)
# What the program wrote to standard error, and was handed on: nothing is told twice.
handed_on: set[str] = set()


class BadLine(Refused):
    """A line of a script is no command."""


@dataclass(frozen=True)
class Program:
    """The program, and how it picks."""
    path: str
    pick: str

    def asked(self, words: Sequence[str], text: str) -> tuple[PlainRun, str]:
        """A run of the program on a whole input, whose lines are for people, and what it writes to standard error."""
        done = self.done(words, text)
        return PlainRun(done.returncode, lines_of(to_text(done.stdout))), to_text(done.stderr)

    def done(self, words: Sequence[str], text: str) -> "subprocess.CompletedProcess[bytes]":
        """A finished run of the program on a whole input, as its bytes."""
        try:
            return subprocess.run([self.path, *words], input=to_bytes(text), capture_output=True, check=False)
        except OSError as fault:
            raise Refused(f"{self.path} can't be run: {why_of(fault)}") from None

    def greet(self) -> None:
        """Refuses what isn't the program."""
        run, error = self.asked(["check", "--json"], NOBODY)
        if run.lines != GREETED or run.status != 0:
            why = " ".join(error.split()) or "it doesn't answer as that does"
            raise Refused(f"{self.path} isn't the program: {why[:MOST_OF_A_FAULT]}")
        hand_on(error)

    def told(self, words: Sequence[str], text: str) -> JsonRun:
        """A run of the program on a whole input, whose lines are JSON."""
        run, error = self.asked([*words, "--json"], text)
        hand_on(error)
        return JsonRun(run.status, run.lines)

    def linted(self, text: str, source: str) -> Findings:
        """What lint finds in a cluster file, with or without a script behind it; nothing where the program is older and hasn't lint as
        JSON."""
        run, error = self.asked(["lint", "--json", "--pick", self.pick], text)
        if run.status == NO_SUBCOMMAND:
            return Findings()
        hand_on(error)
        if run.status not in (NOTHING, FOUND):
            raise Refused(f"{source}: lint: {self.ended(JsonRun(run.status, run.lines))}")
        return findings_in(run.lines)

    def explored(self, text: str, limits: Sequence[str], source: str) -> Optional[list[str]]:
        """The lines of explore for an input, as JSON, within some limits; None where the program is older and hasn't them."""
        run, error = self.asked(["explore", "--json", "--pick", self.pick, *limits], text)
        if run.status == NO_SUBCOMMAND:
            return None
        hand_on(error)
        if run.status not in EXPLORED:
            raise Refused(f"{source}: explore: {self.ended(JsonRun(run.status, run.lines))}")
        return run.lines

    def run(self, cluster: str, script: Sequence[str]) -> JsonRun:
        """A run of the program on a cluster file and the lines of a script."""
        return self.told(["run", "--pick", self.pick], joined(cluster, script))

    def ended(self, run: Run) -> str:
        """Why the program didn't answer all of an input: by the line that tells it, or else by its status."""
        how = f"ended with status {run.status}" if run.status >= 0 else f"was ended by signal {-run.status}"
        return run.why or f"{self.path} {how}"

    def check_run(self, text: str, source: str) -> None:
        """Refuses a whole input as it stands where `run` refuses it. `source` names the file for which an error is told."""
        self.check_ended(self.told(["run", "--pick", self.pick], text), text, source, True)

    def check_ended(self, run: JsonRun, text: str, source: str, is_run: bool) -> None:
        """Refuses an input of which a run didn't answer all."""
        if run.bad_line is not None:
            raise Refused(bad_line(source, lines_of(text), run.bad_line, is_run))
        if run.status != 0:
            raise Refused(f"{source}: {self.ended(run)}")

    def answers(self, cluster: str, script: Sequence[str], source: str) -> list[Answer]:
        """The answers to the commands among the lines of a script."""
        run = self.run(cluster, script)
        if run.bad_line is not None:
            raise BadLine(f"{source}: this line is no command: {script[run.bad_line - 1]}")
        if run.status != 0:
            raise Refused(f"{source}: {self.ended(run)}")
        return self.complete(run, len(commands_of(script)))

    def complete(self, run: JsonRun, count: int) -> list[Answer]:
        """The answers of a run, which are as many as there were commands."""
        answers = run.answers
        if len(answers) != count:
            raise Refused(f"{self.path} isn't the program: it doesn't answer each command")
        return answers

    def story(self, cluster: str, script: Sequence[str], source: str, rules: Sequence[str] = ()) -> bytes:
        """A script told as a story, behind its cluster file: an input again, with each answer as comments. Some words may say by which
        rules."""
        done = self.done(["story", "--whole", *rules, "--pick", self.pick], joined(cluster, script))
        if done.returncode != 0:
            raise Refused(f"{source}: {self.ended(PlainRun(done.returncode, lines_of(to_text(done.stdout))))}")
        return done.stdout

    def swept(self, text: str, source: str, workers: str = "1") -> list[Outcome]:
        """The outcomes of the plans of an input."""
        run = self.told(["sweep", "--workers", workers, "--pick", self.pick], text)
        self.check_ended(run, text, source, False)
        return outcomes_in(run.lines, source)

    def outcomes(self, cluster: str, base: Sequence[str], plans: Sequence[Plan], source: str) -> list[Outcome]:
        """The outcomes of some plans."""
        return self.swept(joined(cluster, [*base, *(line for plan in plans for line in plan.lines)]), source)

    def names(self, cluster: str, source: str) -> Names:
        """The names in a cluster file, which the program has to accept."""
        run = self.told(["check"], cluster)
        if run.status != 0:
            raise Refused(f"{source}: {self.ended(run)}")
        return run.names

    def check_script(self, text: str, source: str) -> None:
        """Refuses an input for the first line of its script that is no command, or in a plan no event. A sweep reads all lines
        before it does anything; this one has a cluster that the script knows nothing of, so each plan ends at once."""
        whole = lines_of(text)
        place = whole.index(APART) if APART in whole else len(whole)
        script = "\n".join(text.split("\n")[place + 1:])
        run = self.told(["sweep"], f"{NOBODY}{APART}\n{script}")
        if run.bad_line is not None:
            raise Refused(bad_line(source, whole, run.bad_line))


def hand_on(error: str) -> None:
    """Hands on what the program wrote to standard error, as that it is older than its sources: each text once."""
    if error and error not in handed_on and sys.stderr is not None:
        handed_on.add(error)
        sys.stderr.write(error.encode("utf-8", "replace").decode())
        sys.stderr.flush()


def bad_line(source: str, whole: Sequence[str], number: int, is_run: bool = False) -> str:
    """What is told of the line with this number behind ===, which is no command, and where it stands among the lines of the whole
    input. By `run` a plan is none either."""
    place = whole.index(APART) + number
    why = "plans need --sweep" if is_run and words_of(whole[place])[:1] == ["plan"] else "it is no command here"
    return f"{source} line {place + 1} (line {number} behind {APART}): {why}: {whole[place]}"
