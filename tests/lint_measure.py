"""How often lint tells beforehand where live nodes do otherwise than the rules: what it finds in rehearsals, beside what live nodes do in
them. In random rehearsals (random_live.py) these are the nodes of companions/live, the model; in the scripts of tests/live real nodes,
which made them. That the rules refuse a command says nothing of live nodes, so it isn't counted, and only compared with the second way.

A rehearsal differs at its first command at which some order of messages gives other lines than the rules, or at which nodes begin to
send one another messages for ever; from there on live nodes have another past. It is told beforehand if lint has a finding of the file,
or of a step up to that command. Of a rehearsal in which nothing differs any finding is a false alarm.
"""
import glob
import os
import re
import sys
from collections import Counter
from collections.abc import Iterable, Iterator
from dataclasses import dataclass, field
from typing import Optional

import lint_model
from groups import Group
from random_live import KINDS, rehearsal
from support import TOP

sys.path.append(os.path.join(TOP, "companions"))
from rehearse_tools.findings import Finding  # noqa: E402
from rehearse_tools.inputs import APART, is_command, lines_of, split_input  # noqa: E402
from rehearse_tools.live import answered  # noqa: E402
from rehearse_tools.program import Program  # noqa: E402

# So many random rehearsals, from a seed on that no record of real nodes has.
FIRST, COUNT = 2_000, 1_000
ORDERS = 8
AT_ONCE = 40
PAGE = os.path.join(TOP, "docs", "LIVE_OTP.md")
SCRIPTS = os.path.join(TOP, "tests", "live")
REAL = "real"

Test = tuple[str, Optional[str]]


@dataclass(frozen=True)
class Told:
    """A finding of a rehearsal, and the place of its command, from 0 on; None where it is one of the file."""
    place: Optional[int]
    finding: Finding

    @property
    def is_of_step(self) -> bool:
        return self.place is not None


@dataclass(frozen=True)
class Measured:
    """A rehearsal: its name, its kind, the place of the first command that differs, if one does, what lint tells, and what is wrong with
    that beside the second way (lint_model.py)."""
    name: str
    kind: str
    first: Optional[int]
    told: list[Told]
    wrong: Optional[str]

    @property
    def before(self) -> list[Told]:
        """What is told of the file and of the steps up to the first that differs; all of it where nothing does."""
        return [told for told in self.told if self.first is None or told.place is None or told.place <= self.first]

    @property
    def is_step_warned(self) -> bool:
        """Whether lint warns of a step beforehand."""
        return any(told.finding.kind == "warning" and told.is_of_step for told in self.before)

    @property
    def is_warned(self) -> bool:
        """Whether it warns of a step or of the file."""
        return any(told.finding.kind == "warning" for told in self.before)

    @property
    def is_told(self) -> bool:
        """Whether it warns, or has a hint of a step."""
        return self.is_warned or any(told.is_of_step for told in self.before)


# ---- One rehearsal


def numbers_of(text: str) -> list[int]:
    """The numbers of the lines that are commands."""
    lines = text.split("\n")
    begin = lines.index(APART) + 1
    return [number for number, line in enumerate(lines, 1) if number > begin and is_command(line)]


def told_of(program: Program, text: str) -> list[Told]:
    """What lint tells of a rehearsal."""
    numbers = numbers_of(text)
    places = {number: place for place, number in enumerate(numbers)}
    return [Told(places.get(one.line) if one.line is not None else None, one) for one in program.linted(text, "a rehearsal").all]


def wrong_with(told: list[Told], text: str) -> Optional[str]:
    """What is told otherwise than the second way has it, or None."""
    kinds = lint_model.kinds_told()
    file, steps = lint_model.found_in(text)
    told = [one for one in told if one.finding.kind != "error"]
    have = sorted(one.finding.code for one in told if not one.is_of_step and one.finding.kind == "warning")
    if have != file:
        return f"of the file {have}, want {file}"
    for place, owed in enumerate(steps):
        there = sorted(one.finding.code for one in told if one.place == place)
        if there != owed:
            return f"of command {place + 1} {there}, want {owed}"
    refused = [one for one in told if one.finding.code == lint_model.REFUSED_STEP]
    words = dict(enumerate(lint_model.refusals_in(text))) if refused else {}
    for one in refused:
        if one.finding.words != words.get(one.place):
            return f"it is told that {one.finding.words}, want {words.get(one.place)}"
    return next((f"{one.finding.code} is a {one.finding.kind}, and docs/LINT.md says {kinds[one.finding.code][0]}"
                 for one in told if kinds[one.finding.code][0] != one.finding.kind), None)


def measured(program: Program, name: str, kind: str, text: str, first: Optional[int]) -> Measured:
    """A rehearsal of which it is known where it differs."""
    told = told_of(program, text)
    of_live_nodes = [one for one in told if one.finding.code != lint_model.REFUSED_STEP]
    return Measured(name, kind, first, of_live_nodes, wrong_with(told, text))


def differs_by_model(program: Program, text: str) -> Optional[int]:
    """The place of the first command at which the model differs from the rules."""
    parts, lines = split_input(text), lines_of(text)
    answers, _ = answered(program, parts.cluster, lines[lines.index(APART) + 1:], ORDERS)
    return next((place for place, answer in enumerate(answers) if not answer.agrees or answer.burns), None)


def differs_really(text: str) -> Optional[int]:
    """The place of the first command at which real nodes differ, by the marks below it."""
    place = -1
    for line in text.split(f"\n{APART}\n", 1)[1].split("\n"):
        if line.startswith(("#< ", "#> ")):
            return place
        place += is_command(line)
    return None


def random_one(path: str, seed: int) -> Measured:
    """A random rehearsal, by the model."""
    program, one = Program(path, "first"), rehearsal(seed)
    return measured(program, str(seed), one.kind, one.text, differs_by_model(program, one.text))


def real_one(path: str, script: str) -> Measured:
    """A script that real nodes made. Nodes that send one another messages for ever show no line of it: of these the model tells."""
    program = Program(path, "first")
    with open(script, encoding="utf-8") as file:
        text = file.read()
    first = differs_really(text)
    if first is None and re.search(r"(?m)^# LIVE_OTP\.md: ", text):
        first = differs_by_model(program, text)
    return measured(program, os.path.basename(script), REAL, text, first)


# ---- Counting


@dataclass
class Counts:
    """So many rehearsals differ, and of how many of these lint warns of a step beforehand, of a step or the file, or has a warning or a
    hint; and the same of those in which nothing differs."""
    differ: int = 0
    differ_step: int = 0
    differ_warned: int = 0
    differ_told: int = 0
    agree: int = 0
    agree_step: int = 0
    agree_warned: int = 0
    agree_told: int = 0

    def add(self, one: Measured) -> None:
        """Counts a rehearsal."""
        word = "agree" if one.first is None else "differ"
        for name, counts in ((word, True), (f"{word}_step", one.is_step_warned), (f"{word}_warned", one.is_warned),
                             (f"{word}_told", one.is_told)):
            setattr(self, name, getattr(self, name) + counts)


@dataclass
class Figures:
    """The counts of each kind of rehearsals, and of each code of a step how often it was told at a command that is the first to differ,
    before that, and in a rehearsal in which nothing differs."""
    kinds: dict[str, Counts] = field(default_factory=dict)
    codes: dict[str, Counter[str]] = field(default_factory=dict)


def figures_of(found: Iterable[Measured]) -> Figures:
    """The figures of some rehearsals."""
    figures = Figures()
    for one in found:
        figures.kinds.setdefault(one.kind, Counts()).add(one)
        for told in one.before:
            if told.is_of_step and told.finding.code != lint_model.ANOTHER_PAST:
                when = "never" if one.first is None else "first" if told.place == one.first else "before"
                figures.codes.setdefault(told.finding.code, Counter())[when] += 1
    return figures


# ---- What the page shows


def wilson(count: int, whole: int) -> tuple[float, float]:
    """The 95 % interval of a share (Wilson)."""
    squared = 1.96 ** 2
    middle, share = count + squared / 2, whole + squared
    around = 1.96 * (count * (whole - count) / whole + squared / 4) ** 0.5
    return (middle - around) / share, (middle + around) / share


ROWS = (("Live nodes do otherwise somewhere", "differ"), ("up to there lint warns of a step", "differ_step"),
        ("of a step, or of the file", "differ_warned"), ("it warns, or has a hint of a step", "differ_told"),
        ("Live nodes agree in every command", "agree"), ("lint warns of a step all the same", "agree_step"),
        ("of a step, or of the file", "agree_warned"), ("it warns, or has a hint of a step", "agree_told"))
# What was counted when the codes were chosen, on 160 rehearsals of real nodes: of 82 that differ lint warned in 60; of those that agree
# by a step in none of 47 sane ones, and in 1 of 31 wild ones. Here it may not be worse than the ends of the 95 % intervals of these.
LEAST_WARNED = wilson(60, 82)[0]
MOST_FALSE = {"sane": wilson(0, 47)[1], "wild": wilson(1, 31)[1]}


def shown(count: int, whole: int) -> str:
    """A count, with its share where it is one of a row's."""
    return f"{count} ({100 * count / whole:.0f} %)" if whole else str(count)


def summed(figures: Figures) -> Counts:
    """The counts of all kinds."""
    return Counts(*(sum(getattr(counts, name) for counts in figures.kinds.values()) for name in vars(Counts())))


def rows_of(columns: list[Counts]) -> Iterator[str]:
    """The lines of a table of rehearsals."""
    for text, name in ROWS:
        whole = name.partition("_")[0]
        cells = [shown(getattr(counts, name), getattr(counts, whole) if name != whole else 0) for counts in columns]
        yield f"| {text} | {' | '.join(cells)} |"


def code_rows(figures: Figures) -> Iterator[str]:
    """The lines of the table of codes: warnings before hints, in the order of docs/LINT.md."""
    kinds = lint_model.kinds_told()
    for code in sorted(kinds, key=lambda one: kinds[one][0] != "warning"):
        when = figures.codes.get(code)
        if when is not None:
            yield f"| `{code}` | {kinds[code][0]} | {when['first']} | {when['before']} | {when['never']} |"


# ---- The tests


def tests_of(found: list[Measured]) -> Iterator[Test]:
    """What lint tells is what the second way has, of each rehearsal."""
    for one in found:
        yield f"lint of rehearsal {one.name}", one.wrong


def random_ones(program: str, seeds: range) -> Iterator[Test]:
    """Some random rehearsals."""
    found = [random_one(program, seed) for seed in seeds]
    yield from tests_of(found)
    return found


def real_ones(program: str, begin: int) -> Iterator[Test]:
    """Some of the scripts of tests/live."""
    found = [real_one(program, script) for script in scripts()[begin:begin + AT_ONCE]]
    yield from tests_of(found)
    return found


def scripts() -> list[str]:
    """All of them."""
    return sorted(glob.glob(os.path.join(SCRIPTS, "*.txt")))


def is_in_page(rows: Iterable[str]) -> Optional[str]:
    """The rows that docs/LIVE_OTP.md hasn't, or None."""
    with open(PAGE, encoding="utf-8") as file:
        lines = file.read().split("\n")
    missing = [row for row in rows if row not in lines]
    return "it lacks\n" + "\n".join(missing) if missing else None


def of_random(parts: list[list[Measured]]) -> Iterator[Test]:
    """The figures of the random ones."""
    figures = figures_of(one for part in parts for one in part)
    columns = [*(figures.kinds[kind] for kind in KINDS), summed(figures)]
    yield "lint beside the model: the page", is_in_page([*rows_of(columns), *code_rows(figures)])
    share = columns[-1].differ_warned / columns[-1].differ
    yield "lint beside the model: differences", None if share >= LEAST_WARNED else f"{share:.3f} is less than {LEAST_WARNED:.3f}"
    for kind, most in MOST_FALSE.items():
        false = figures.kinds[kind].agree_step / figures.kinds[kind].agree
        yield f"lint beside the model: false alarms, {kind}", None if false <= most else f"{false:.3f} is more than {most:.3f}"


def of_real(parts: list[list[Measured]]) -> Iterator[Test]:
    """The figures of the real ones."""
    figures = figures_of(one for part in parts for one in part)
    yield "lint beside real nodes: the page", is_in_page(rows_of([summed(figures)]))


TESTS = (Group(random_ones, [range(begin, begin + AT_ONCE) for begin in range(FIRST, FIRST + COUNT, AT_ONCE)], end=of_random),
         Group(real_ones, range(0, len(scripts()), AT_ONCE), end=of_real))
