"""Stories of rehearsals on live nodes, `story --rules otp25`, and `verify --rules otp25`.

Of a rehearsal the story has the answers of `run --rules otp25`, command by command, each line behind `#= `, and behind them what hangs
since the command: the `blocked` lines of the report behind it that the one before it hasn't, of each node (`#- `). A story of a story is
itself, and `verify` finds nothing to differ in it. With one line of an answer left out, changed or put behind another command `verify`
tells it; so it does of a line that the report hasn't.
"""
import os
import random
from collections.abc import Iterable, Iterator
from typing import Optional

from groups import Group
from live_rules import SCRIPTS, in_random_ones, in_scripts, split_answers
from stories import ANSWER, differing, is_command, verified, woven
from support import fault_of, read, run

LIVE = ["--rules", "otp25"]
HANGS = b"#- "
# Seeds of random rehearsals, and how many are taken at once.
FIRST, COUNT, AT_ONCE = 95_000, 80, 20

Test = tuple[str, Optional[str]]


def commands_of(text: bytes) -> list[bytes]:
    """The commands of a rehearsal."""
    return [line for line in text.partition(b"===\n")[2].splitlines() if is_command(line)]


def answers_of(program: str, text: bytes, options: list[str]) -> list[list[bytes]]:
    """The answers to a rehearsal's commands, each as its lines."""
    done = run(program, ["run", *LIVE, *options], input=text)
    return [[line.encode() for line in answer] for answer in split_answers(done.stdout.decode())]


def hangs_in(report: list[bytes]) -> list[bytes]:
    """What hangs by a report, with the names of the nodes."""
    found, node = [], b""
    for line in report:
        node = line.split()[1] if line.startswith(b"node ") else node
        if line.startswith(b"  blocked "):
            found.append(b"%s %s" % (node, line.strip()))
    return found


def owed_story(program: str, text: bytes, options: list[str]) -> bytes:
    """The story of a rehearsal, by its answers and the reports before and behind each command."""
    head, apart, script = text.partition(b"===\n")
    shown = head + apart + b"show\n" + b"".join(b"%s\nshow\n" % command for command in commands_of(text))
    answers = answers_of(program, shown, options)
    reports, told = answers[::2], answers[1::2]
    lines = []
    for line in script.splitlines():
        lines.append(line)
        if is_command(line):
            before, behind = hangs_in(reports.pop(0)), hangs_in(reports[0])
            lines += [ANSWER + one for one in told.pop(0)] + [HANGS + hang for hang in behind if hang not in before]
    return head + apart + b"".join(line + b"\n" for line in lines)


def wrong_with(program: str, text: bytes, options: list[str]) -> Iterator[tuple[str, Optional[str]]]:
    """What is tested of a rehearsal, and what is wrong."""
    story = ["story", *LIVE, *options, "--whole"]
    verify = ["verify", *LIVE, *options]
    owed = owed_story(program, text, options)
    count = len(commands_of(text))
    yield "story", fault_of(run(program, story, input=text), 0, owed)
    yield "its script alone", fault_of(run(program, [word for word in story if word != "--whole"], input=text), 0, owed.partition(b"===\n")[2])
    yield "story of the story", fault_of(run(program, story, input=owed), 0, owed)
    yield "verify the story", fault_of(run(program, verify, input=owed), 0, verified(count))
    for mistake, wrong in differing(answers_of(program, text, options)) if count > 1 else ():
        done = run(program, verify, input=woven(text, wrong))
        is_told = done.returncode == 9 and done.stdout.endswith(b"\ndiffers 1 of %d\n" % count)
        yield f"verify {mistake}", None if is_told else f"status {done.returncode}: {done.stdout[-200:]!r}"


def of_scripts(program: str) -> Iterator[Test]:
    """The scripts that real nodes made."""
    return in_scripts(program, wrong_with)


def of_random_ones(program: str, seeds: Iterable[int]) -> Iterator[Test]:
    """Random rehearsals."""
    return in_random_ones(program, seeds, wrong_with)


def wanted_in_reports(program: str) -> Iterator[Test]:
    """A line of the report, and one that it hasn't."""
    for path in random.Random(5).sample(SCRIPTS, 20):
        text = read(path)
        report = answers_of(program, text + b"show\n", [])[-1][1:]
        wanted = b"".join(b"#? %s\n" % line.strip() for line in report)
        count = 1
        done = run(program, ["verify", *LIVE], input=text + wanted)
        total = len(commands_of(text))
        yield f"report of {os.path.basename(path)}", fault_of(done, 0, b"ok %d of %d commands checked\n" % (count, total))
        done = run(program, ["verify", *LIVE], input=text + wanted + b"#? app nobody nowhere\n")
        is_told = done.returncode == 9 and done.stdout.endswith(b"  wanted in the report app nobody nowhere\ndiffers 1 of 1\n")
        yield f"a line that isn't of it, {os.path.basename(path)}", None if is_told else f"status {done.returncode}: {done.stdout[-200:]!r}"


TESTS = (of_scripts, Group(of_random_ones, [range(seed, seed + AT_ONCE) for seed in range(FIRST, FIRST + COUNT, AT_ONCE)], is_long=True), wanted_in_reports)
