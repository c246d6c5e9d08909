"""Where both sets of rules answer alike: random rehearsals (random_live.py) by `run` and by `run --rules otp25`, beside what `lint` finds.

A command is answered alike if the first line is the same, if the same happened (in any order, but for the starts and stops of one
application that moves), if the same applications wait, and if both reports behind it tell the same: of each node its mode and how often
it booted, what runs there, with restart type and start kind, and what waits there, and where each distributed application runs. By the
rules of OTP 25 nothing hangs then: no process of a node stands in the middle of something, nothing is being started, no call is open.

A rehearsal is judged up to the first command that isn't answered alike: from there on both have another past. Where lint tells nothing
they can part all the same. The conditions below say where they don't, in what an operator sees in the file and in a report by the rules of
`run`. Within all of them no rehearsal may part, and enough have to be within them. Each condition is needed: where lint warns or has a
hint, some of the random rehearsals part within all others; each other condition has its small rehearsal tests/parting/NAME.txt, which
breaks it alone, and parts at its last command. The careful rehearsals of live_conditions.py, which keep to other conditions, may part
where lint warns of a step alone.

Of some kinds of commands less is asked (agreed_calls.py): it is proved that both answer them by the same text, or the same lines, under more
conditions than are asked there.
"""
import os
import sys
from collections import Counter
from collections.abc import Callable, Iterable, Iterator
from dataclasses import dataclass, field
from typing import Optional

import agreed_calls
import lint_model
from agreed_calls import HANGS
from groups import Group
from lint_measure import is_in_page, shown, told_of
from live_conditions import (Condition, State, Step, careful, has_other_platforms, has_other_profile, is_weighed_in_another_order,
                             lacks_lists, may_be_lost_together, needs_a_distributed_one, state_of)
from live_rules import split_answers
from random_live import CAREFUL, KINDS, Rehearsal, rehearsal
from random_spread import gathering, gathering_apart, loss, loss_of_several, moving, returning
from support import COMMANDS, TOP, fault_of, run

sys.path.append(os.path.join(TOP, "companions"))
from rehearse_tools.inputs import is_command, joined, split_input, words_of  # noqa: E402
from rehearse_tools.live_sides import agree, doubled  # noqa: E402
from rehearse_tools.otp25.cluster import ClusterFile, cluster_of  # noqa: E402
from rehearse_tools.program import Program  # noqa: E402

# Seeds at which nobody looked while the conditions were looked for.
FIRST, COUNT, AT_ONCE = 40_000, 2_000, 100
CAREFUL_COUNT, CAREFUL_AT_ONCE = 80, 10
# Seeds of rehearsals in which nodes gather, and distributed applications are lost, permitted, forbidden and taken over (random_spread.py),
# and of which kinds there have to be so many among them.
SPREAD_FIRST, SPREAD_COUNT, SPREAD_AT_ONCE = 45_000, 400, 50
LEAST_SPREAD = {"failover": 200, "permit that starts": 50, "permit that calls back": 20, "takeover": 100, "permission": 100,
                agreed_calls.LAST_BOOT: 2_000}
# How they are made.
MADE_SPREAD = (gathering, gathering_apart, loss, loss_of_several, moving, returning)
# At least such shares of the sane rehearsals, and of their commands, have to be within the conditions.
LEAST_REHEARSALS, LEAST_COMMANDS = 0.1, 0.2
PARTING = os.path.join(TOP, "tests", "parting")
# These findings say nothing of live nodes.
OF_RULES_ALONE = (lint_model.REFUSED_STEP, lint_model.ANOTHER_PAST)

Test = tuple[str, Optional[str]]


# ---- Both answers


def told_by(program: str, rules: str, text: str) -> list[list[str]]:
    """The answers to each command of a rehearsal by a set of rules, each with a report behind it; in front stands the first report."""
    parts = split_input(text)
    commands = [line for line in parts.lines if is_command(line)]
    done = run(program, ["run", "--rules", rules], input=joined(parts.cluster, ["show", *doubled(commands)]).encode())
    wrong, answers = fault_of(done, 0, None), split_answers(done.stdout.decode())
    if wrong is not None or len(answers) != 1 + 2 * len(commands):
        raise ValueError(f"--rules {rules}: {wrong}, {len(answers)} answers to {1 + 2 * len(commands)} commands")
    return answers


def standing(report: list[str]) -> list[str]:
    """What both sets of rules report of a state, and what hangs."""
    found, node = [], ""
    for line in report[1:]:
        word, *rest = words_of(line)
        if word == "node":
            node = rest[0]
        if word in ("node", "running", "waiting", *HANGS) or word == "app" and rest[1] == "running":
            found.append(f"{node} {line}" if line.startswith("  ") else line)
    return sorted(found)


def are_alike(command: str, manual: list[list[str]], live: list[list[str]]) -> bool:
    """Whether an answer and the report behind it are alike. Of a `show` the reports alone count."""
    return (command == "show" or agree(manual[0], live[0])) and standing(manual[1]) == standing(live[1])


# ---- The conditions


def has_tuple(cluster: ClusterFile) -> bool:
    """A list has a tuple of two nodes or more."""
    return any(isinstance(group, tuple) and len(group) > 1 for entry in cluster.entries.values() for group in entry.groups)


def weighs_by_platforms(cluster: ClusterFile) -> bool:
    """There is a tuple, and nodes have different platform names."""
    return has_tuple(cluster) and has_other_platforms(cluster)


def needs_beside_a_tuple(cluster: ClusterFile) -> bool:
    """There is a tuple, and an application needs a distributed one."""
    return has_tuple(cluster) and needs_a_distributed_one(cluster)


def acts_while_a_node_waits(step: Step) -> bool:
    """Anything but a boot or a tick while a node waits for others."""
    return "waiting" in step.before.mode.values() and step.word not in ("boot", "tick", "show")


def acts_on_a_local_one(step: Step) -> bool:
    """A takeover or a permission of an application that isn't distributed."""
    return step.word in ("takeover", "permit") and not step.is_spread


def acts_while_one_is_lost(step: Step) -> bool:
    """Anything but ticks and crashes while an application is lost and its timer set."""
    return bool(step.before.lost) and step.word not in ("tick", "crash", "show")


def is_taken_beside_unlisted_nodes(step: Step) -> bool:
    """A permission is taken away where the application runs, and a node is up that isn't in its list."""
    if step.word != "permit" or step.words[3] != "false" or not step.is_spread or step.app not in step.before.running[step.words[1]]:
        return False
    return any(step.before.is_up(node) and node not in step.cluster.entries[step.app].nodes for node in step.cluster.nodes)


def starts_where_it_is_forbidden(step: Step) -> bool:
    """A start where it is forbidden, or at all nodes, and it is forbidden at one."""
    if step.word not in ("start", "start_all"):
        return False
    nodes = step.words[1:2] if step.word == "start" else list(step.before.forbidden)
    return any(step.app in step.before.forbidden[node] for node in nodes)


def is_permitted_where_it_ended(step: Step) -> bool:
    """A permission of an application that was stopped or has ended."""
    return step.word == "permit" and step.is_spread and step.before.standing[step.app] == ("quiet",)


def ends_for_want_of_a_node(step: Step) -> bool:
    """A node's wait ends while a mandatory one isn't there."""
    return step.word == "tick" and any(mode == "waiting" and step.after.mode[node] == "down" for node, mode in step.before.mode.items())


def is_started_beside_a_holder(step: Step) -> bool:
    """What was stopped or has ended is started, its list has a tuple, and a node holds it ready."""
    if step.word not in ("start", "start_all") or not step.is_spread or step.before.standing[step.app] != ("quiet",):
        return False
    has_one = any(isinstance(group, tuple) and len(group) > 1 for group in step.cluster.entries[step.app].groups)
    return has_one and any(step.app in apps for apps in step.before.waiting.values())


CONDITIONS = (
    Condition("profile-2", "The file has `{profile, 2}`", has_other_profile),
    Condition("boot-order", "With a tuple in a list, boot lists name the local applications first, and then the distributed ones in the "
              "order of the file", is_weighed_in_another_order),
    Condition("needs", "With a tuple in a list, no application needs a distributed one", needs_beside_a_tuple),
    Condition("platforms", "With a tuple in a list, all nodes have the same platform names", weighs_by_platforms),
    Condition("own-timeouts", "Applications whose lists share nodes have different timeouts, or plain lists of one order",
              may_be_lost_together),
    Condition("sync-lists", "Each node waits for all others, with a `sync_nodes_timeout` of 1 or more", lacks_lists),
    Condition("waits-alone", "While a node waits for others, nodes boot and time passes, and nothing else is done",
              step=acts_while_a_node_waits),
    Condition("mandatory-ones", "No node ends for want of a mandatory one", step=ends_for_want_of_a_node),
    Condition("lost-alone", "While a failover time runs, nodes crash and time passes, and nothing else is done",
              step=acts_while_one_is_lost),
    Condition("local-ones", "No `takeover` and no `permit` of an application that isn't distributed", step=acts_on_a_local_one),
    Condition("listed-nodes", "Where an application runs it is forbidden only while no node is up that isn't in its list",
              step=is_taken_beside_unlisted_nodes),
    Condition("permitted-starts", "`start` and `start_all` only where it is permitted", step=starts_where_it_is_forbidden),
    Condition("stopped-tuple", "With a tuple in its list, what was stopped is started again only while no node holds it ready",
              step=is_started_beside_a_holder),
    Condition("permit-after-the-end", "No `permit` of an application that was stopped, or has ended", step=is_permitted_where_it_ended))


# What lint tells: it warns of nothing in the file, and tells nothing of the steps so far, neither warnings nor hints.
FILE, STEP, HINT, FILE_HINT = "lint-file", "lint-step", "lint-hint", "lint-file-hint"
SILENT = (FILE, STEP, HINT)
WITHIN = (*SILENT, *(condition.name for condition in CONDITIONS))


# ---- One rehearsal


@dataclass(frozen=True)
class Judged:
    """A rehearsal: the words of its commands, what each of them breaks, and the place of the first that isn't answered alike. Of those up
    to there that are of a kind of agreed_calls.py, the kinds, and whether both answers are what `agreed_calls.are_same` asks."""
    name: str
    kind: str
    commands: list[str]
    broken: list[set[str]]
    first: Optional[int]
    proved: list[tuple[str, bool]]

    def within(self, names: Iterable[str]) -> int:
        """So many commands, from the first one on, break none of these."""
        kept = set(names)
        return next((place for place, broken in enumerate(self.broken) if broken & kept), len(self.commands))

    def parts_within(self, names: Iterable[str]) -> bool:
        """Whether it parts at a command that breaks none of these, nor does any before it."""
        return self.first is not None and self.first < self.within(names)


def found_by_lint(program: str, text: str, count: int) -> list[set[str]]:
    """What lint tells of each command of so many: what it has of the file stands at the first one."""
    broken: list[set[str]] = [set() for _ in range(count)]
    for told in told_of(Program(program, "first"), text):
        is_warning = told.finding.kind == "warning"
        if told.place is None:
            broken[0].add(FILE if is_warning else FILE_HINT)
        elif told.finding.code not in OF_RULES_ALONE:
            broken[told.place].add(STEP if is_warning else HINT)
    return broken


def steps_of(cluster: ClusterFile, commands: list[str], manual: list[list[str]]) -> list[Step]:
    """The commands with what the rules of `run` report before and behind them."""
    states: list[State] = [state_of(report) for report in manual[::2]]
    return [Step(cluster, words_of(line), answer, before, after)
            for line, answer, before, after in zip(commands, manual[1::2], states, states[1:])]


def judged(program: str, one: Rehearsal) -> Judged:
    """A rehearsal by both sets of rules."""
    parts = split_input(one.text)
    commands = [line for line in parts.lines if is_command(line)]
    manual, live = (told_by(program, rules, one.text) for rules in ("manual", "otp25"))
    cluster = cluster_of(parts.cluster)
    broken = found_by_lint(program, one.text, len(commands))
    broken[0] |= {condition.name for condition in CONDITIONS if condition.file(cluster)}
    steps = steps_of(cluster, commands, manual)
    for told, step in zip(broken, steps):
        told |= {condition.name for condition in CONDITIONS if condition.step(step)}
    first = next((place for place, command in enumerate(commands)
                  if not are_alike(command, manual[2 * place + 1:2 * place + 3], live[2 * place + 1:2 * place + 3])), None)
    common = len(commands) if first is None else first + 1
    kinds = [agreed_calls.kind_of(step, live[2 * place], state_of(live[2 * place])) for place, step in enumerate(steps[:common])]
    proved = [(kind, agreed_calls.are_same(kind, manual[2 * place + 1], live[2 * place + 1]))
              for place, kind in enumerate(kinds) if kind is not None]
    return Judged(str(one.seed), one.kind, commands, broken, first, proved)


# ---- Counting


@dataclass
class Counts:
    """Rehearsals that are within some conditions throughout, commands that are within them, and rehearsals that part there."""
    rehearsals: int = 0
    commands: int = 0
    parted: int = 0

    def add(self, one: Judged, names: Iterable[str]) -> None:
        """Counts a rehearsal."""
        within = one.within(names)
        self.rehearsals += within == len(one.commands)
        self.commands += within
        self.parted += one.parts_within(names)


def counts_of(found: Iterable[Judged], names: Iterable[str]) -> Counts:
    """The counts of some rehearsals."""
    counts, kept = Counts(), tuple(names)
    for one in found:
        counts.add(one, kept)
    return counts


@dataclass
class Answered:
    """How often a command was made behind a common past, and answered alike; and the same of those of which lint was silent so far."""
    made: Counter[str] = field(default_factory=Counter)
    alike: Counter[str] = field(default_factory=Counter)
    made_silent: Counter[str] = field(default_factory=Counter)
    alike_silent: Counter[str] = field(default_factory=Counter)

    def add(self, one: Judged) -> None:
        """Counts the commands of a rehearsal, up to the first that isn't answered alike."""
        silent = one.within(SILENT)
        for place, command in enumerate(one.commands[:len(one.commands) if one.first is None else one.first + 1]):
            word = words_of(command)[0]
            is_alike, is_silent = place != one.first, place < silent
            self.made[word] += 1
            self.alike[word] += is_alike
            self.made_silent[word] += is_silent
            self.alike_silent[word] += is_alike and is_silent


# ---- What the page shows


ROWS: tuple[tuple[str, tuple[str, ...]], ...] = (
    ("all", ()), ("`lint` has no warning", (FILE, STEP)), ("nor a hint of a step", SILENT),
    ("nor a hint of the file", (*SILENT, FILE_HINT)), ("no warning, no hint of a step, and the conditions below", WITHIN))


def rows_of(found: list[Judged]) -> Iterator[str]:
    """The lines of the table of conditions: of each kind the rehearsals within them and those that part there."""
    for text, names in ROWS:
        cells = []
        for kind in KINDS:
            counts = counts_of((one for one in found if one.kind == kind), names)
            cells.append(f"{counts.rehearsals} | {counts.commands:,} | {counts.parted}")
        yield f"| {text} | {' | '.join(cells)} |"


def needed_rows(found: list[Judged]) -> Iterator[str]:
    """The lines of the table of the conditions: in how many rehearsals both sets part within all others."""
    for condition in CONDITIONS:
        yield f"| {condition.text} | {counts_of(found, without(condition.name)).parted} |"


def without(name: str) -> tuple[str, ...]:
    """All conditions but one."""
    return tuple(one for one in WITHIN if one != name)


def command_rows(found: list[Judged]) -> Iterator[str]:
    """The lines of the table of commands."""
    told = Answered()
    for one in found:
        told.add(one)
    for word in (command["word"] for command in COMMANDS if command["word"] in told.made and command["refusals"]):
        yield (f"| `{word}` | {told.made[word]} | {shown(told.alike[word], told.made[word])} | {told.made_silent[word]} "
               f"| {shown(told.alike_silent[word], told.made_silent[word])} |")


# ---- The tests


def parting(one: Judged, names: Iterable[str]) -> Optional[str]:
    """At which command a rehearsal parts within some conditions, or None."""
    return f"command {one.first + 1}, {one.commands[one.first]}" if one.first is not None and one.parts_within(names) else None


def random_ones(program: str, seeds: range) -> Iterator[Test]:
    """Random rehearsals don't part within the conditions."""
    found = [judged(program, rehearsal(seed)) for seed in seeds]
    for one in found:
        yield f"both rules alike, rehearsal {one.name}", parting(one, WITHIN)
        other = next((kind for kind, is_alike in one.proved if not is_alike), None)
        yield f"both rules alike, agreed kinds in rehearsal {one.name}", None if other is None else f"{other} is answered otherwise"
    return found


def of_random(parts: list[list[Judged]]) -> Iterator[Test]:
    """Enough of them are within the conditions, what lint tells is needed, and the page has the counts."""
    found = [one for part in parts for one in part]
    sane = [one for one in found if one.kind == "sane"]
    within, whole = counts_of(sane, WITHIN), counts_of(sane, ())
    for what, count, of, least in (("rehearsals", within.rehearsals, whole.rehearsals, LEAST_REHEARSALS),
                                   ("commands", within.commands, whole.commands, LEAST_COMMANDS)):
        yield f"both rules alike: enough {what}", None if count >= least * of else f"{count} of {of} are within the conditions"
    proved = Counter(kind for one in found for kind, _ in one.proved)
    for kind, (_, least) in agreed_calls.KINDS.items():
        yield f"both rules alike: enough of {kind}", None if proved[kind] >= least else f"{proved[kind]}"
    for name in SILENT:
        is_needed = counts_of(found, without(name)).parted > 0
        yield f"both rules alike: {name} is needed", None if is_needed else "no rehearsal parts without it"
    yield "both rules alike: the page", is_in_page([*rows_of(found), *needed_rows(found), *command_rows(found)])


def small_ones(program: str) -> Iterator[Test]:
    """Each condition has its small rehearsal, and each of these is one of a condition."""
    names = {condition.name for condition in CONDITIONS}
    files = {os.path.splitext(name)[0] for name in os.listdir(PARTING)}
    yield "tests/parting", None if files == names else f"it has {sorted(files)}, want {sorted(names)}"
    for name in sorted(names & files):
        with open(os.path.join(PARTING, f"{name}.txt"), encoding="utf-8") as file:
            one = judged(program, Rehearsal(0, name, file.read()))
        broken = set().union(*one.broken).intersection(WITHIN)
        is_so = broken == {name} and one.first == len(one.commands) - 1
        yield f"tests/parting/{name}.txt", None if is_so else f"it breaks {sorted(broken)}, and parts at {one.first} of {len(one.commands)}"


def spread_ones(program: str, seeds: range) -> Iterator[Test]:
    """Rehearsals in which nodes gather, and distributed applications are lost and move: what is of an agreed kind is answered alike."""
    found = [judged(program, make(seed)) for seed in seeds for make in MADE_SPREAD]
    for one in found:
        other = next((kind for kind, is_alike in one.proved if not is_alike), None)
        yield f"both rules alike, agreed kinds, cluster {one.name}", None if other is None else f"{other} is answered otherwise"
    return found


def of_spread(parts: list[list[Judged]]) -> Iterator[Test]:
    """There are enough of these kinds."""
    proved = Counter(kind for part in parts for one in part for kind, _ in one.proved)
    for kind, least in LEAST_SPREAD.items():
        yield f"both rules alike: enough of {kind} in such clusters", None if proved[kind] >= least else f"{proved[kind]}"


def careful_ones(program: str, seeds: range) -> Iterator[Test]:
    """Rehearsals that keep to the conditions of live_conditions.py are answered alike, up to a step of which lint warns."""
    for seed in seeds:
        one = judged(program, careful(seed))
        yield f"both rules alike, {CAREFUL} rehearsal {seed}", parting(one, (STEP,))


def ranges(first: int, count: int, at_once: int) -> list[range]:
    """The seeds, so many at once."""
    return [range(seed, min(seed + at_once, first + count)) for seed in range(first, first + count, at_once)]


TESTS: tuple[Group | Callable[[str], Iterable[Test]], ...] = (
    Group(random_ones, ranges(FIRST, COUNT, AT_ONCE), end=of_random),
    Group(spread_ones, ranges(SPREAD_FIRST, SPREAD_COUNT, SPREAD_AT_ONCE), end=of_spread),
    Group(careful_ones, ranges(0, CAREFUL_COUNT, CAREFUL_AT_ONCE)), small_ones)
