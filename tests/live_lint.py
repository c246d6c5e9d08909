"""What lint finds on live nodes, `lint --rules otp25`.

Of a rehearsal it is what `lint` finds in the file and in the lines as such, and of each command what its answer by `run --rules otp25` and
the reports before and behind it tell: a call that isn't answered, an answer other than `ok`, a start of a boot script that has failed,
`blocked` lines of a node and applications at several nodes that the report before hasn't. The lines of JSON have the same.
"""
import json
import re
from collections.abc import Iterable, Iterator
from typing import Optional

from groups import Group
from live_rules import in_random_ones, in_scripts
from live_stories import LIVE, answers_of
from stories import is_command
from support import fault_of, run

# A finding: its line, if it is known, its kind, its code and its words.
Finding = tuple[Optional[int], str, str, str]
Test = tuple[str, Optional[str]]

KINDS = ("error", "warning", "hint")
FOUND = re.compile(r"(?:(\d+): )?(error|warning|hint) (\w+): (.*)")
# Commands that lead where a script has been, and one that changes nothing.
NO_STEPS = ("undo", "redo", "undo_all", "redo_all", "show")
# Seeds of random rehearsals, and how many are taken at once.
FIRST, COUNT, AT_ONCE = 96_000, 80, 20


def of_file_and_lines(program: str, text: bytes, last: int) -> list[Finding]:
    """What `lint` finds in a file, whose last line has this number, and in the lines behind it as such."""
    found = []
    for line in run(program, ["lint", "--all"], input=text).stdout.decode().splitlines()[:-1]:
        told = FOUND.fullmatch(line)
        if told is None:
            raise ValueError(f"lint wrote {line}")
        number, kind, code, words = told.groups()
        if not number or int(number) <= last or kind == "error":
            found.append((int(number) if number else None, kind, code, words))
    return found


def of_answer(line: int, command: str, answer: list[str]) -> Iterator[Finding]:
    """What is found of the answer to a command on this line."""
    if answer[0] == "no answer":
        yield line, "warning", "no_answer", f"{command} isn't answered: a call of it is still open"
    elif answer[0] == "endless":
        yield line, "warning", "endless", f"{command} has no end: all isn't quiet after a million moves; nothing has changed"
    elif answer[0].split()[:2] not in (["refused", "S1"], ["refused", "S2"]) and answer[0].split()[0] in ("refused", "error"):
        yield line, "hint", "refused_step", f"run --rules otp25 answers {command}: {answer[0]}"
    for told in answer:
        if told.startswith("failed "):
            _, app, node, why = told.split(" ", 3)
            yield line, "hint", "start_fails", f"{app} fails to start at {node}: {why}"


def hangs_in(report: list[str]) -> dict[str, list[str]]:
    """What hangs by a report, by the names of the nodes."""
    found: dict[str, list[str]] = {}
    node = ""
    for line in report:
        node = line.split()[1] if line.startswith("node ") else node
        if line.startswith("  blocked "):
            found.setdefault(node, []).append(line.strip())
    return found


def several_in(report: list[str]) -> dict[str, list[str]]:
    """The applications that run at several nodes by a report, with these."""
    apps = [line.split() for line in report if line.startswith("app ")]
    return {words[1]: words[3:] for words in apps if len(words) > 4}


def of_reports(line: int, before: list[str], behind: list[str]) -> Iterator[Finding]:
    """What is new in the report behind a step on this line."""
    hung, ran = hangs_in(before), several_in(before)
    for node, blocks in hangs_in(behind).items():
        new = [block for block in blocks if block not in hung.get(node, [])]
        if new:
            yield line, "warning", "hangs", ", ".join([f"at {node}", *new])
    for app, nodes in several_in(behind).items():
        if app not in ran:
            yield line, "warning", "runs_twice", f"{app} runs at several nodes: {' '.join(nodes)}"


def of_steps(program: str, text: bytes, options: list[str], first: int) -> Iterator[Finding]:
    """What comes of the commands of a rehearsal, whose script begins on this line."""
    head, apart, script = text.partition(b"===\n")
    commands = [(number, line) for number, line in enumerate(script.splitlines(), first) if is_command(line)]
    shown = head + apart + b"show\n" + b"".join(b"%s\nshow\n" % line for _, line in commands)
    answers = [[line.decode() for line in answer] for answer in answers_of(program, shown, options)]
    reports, told = answers[::2], answers[1::2]
    for (number, line), answer, before, behind in zip(commands, told, reports, reports[1:]):
        yield from of_answer(number, line.decode(), answer)
        if line.decode().split()[0] not in NO_STEPS:
            yield from of_reports(number, before, behind)


def owed_findings(program: str, text: bytes, options: list[str]) -> list[Finding]:
    """What lint owes, in its order."""
    last = text.partition(b"===\n")[0].count(b"\n")
    found = [*of_file_and_lines(program, text, last), *of_steps(program, text, options, last + 2)]
    return sorted(found, key=lambda finding: (finding[0] or 0, KINDS.index(finding[1])))


def owed_lint(found: list[Finding]) -> bytes:
    """The text that lists findings."""
    lines = [f"{line}: {kind} {code}: {words}" if line else f"{kind} {code}: {words}" for line, kind, code, words in found]
    counts = ", ".join(f"{sum(1 for finding in found if finding[1] == kind)} {kind}s" for kind in KINDS)
    return "".join(f"{line}\n" for line in [*lines, counts]).encode()


def in_json(text: bytes) -> list[Finding]:
    """The findings that lines of JSON tell."""
    told = [json.loads(line) for line in text.decode().splitlines()[:-1]]
    return [(one.get("line"), one["kind"], one["code"], one["words"]) for one in told]


def wrong_with(program: str, text: bytes, options: list[str]) -> Iterator[tuple[str, Optional[str]]]:
    """What is tested of a rehearsal, and what is wrong."""
    lint = ["lint", *LIVE, *options]
    found = owed_findings(program, text, options)
    counts = {finding[1] for finding in found} & {"error", "warning"}
    yield "lint", fault_of(run(program, lint, input=text), 9 if counts else 0, owed_lint(found))
    yield "lint --strict", fault_of(run(program, [*lint, "--strict"], input=text), 9 if found else 0, owed_lint(found))
    told = in_json(run(program, [*lint, "--json"], input=text).stdout)
    yield "lint --json", None if told == found else f"{[one for one in told if one not in found][:3]}"


def of_scripts(program: str) -> Iterator[Test]:
    """The scripts that real nodes made."""
    return in_scripts(program, wrong_with)


def of_random_ones(program: str, seeds: Iterable[int]) -> Iterator[Test]:
    """Random rehearsals."""
    return in_random_ones(program, seeds, wrong_with)


TESTS = (of_scripts, Group(of_random_ones, [range(seed, seed + AT_ONCE) for seed in range(FIRST, FIRST + COUNT, AT_ONCE)], is_long=True))
