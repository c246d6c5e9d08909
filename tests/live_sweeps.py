"""Plans on live nodes, `sweep --rules otp25`, beside the model of companions/live, which tries each plan from a copy of the state
behind the base: random rehearsals (random_live.py) with plans cut of them, and plans that lead where live nodes hang.

A plan's text is compared line by line, for several numbers of workers; the lines of JSON are written again as text. The base is
answered as `run --rules otp25` answers it (live_rules.py compares that).
"""
import json
import os
import random
import sys
from collections.abc import Iterable, Iterator
from typing import Any, Optional

from groups import Group
from json_lines import check_text, words
from live_json import answer_text, block_words, call_words, places_line
from live_rules import SCRIPTS, report_of
from random_live import rehearsal
from support import TOP, fault_of, read, run

sys.path.append(os.path.join(TOP, "companions"))
from rehearse_tools.inputs import is_command, split_input, words_of  # noqa: E402
from rehearse_tools.otp25.cluster import cluster_of  # noqa: E402
from rehearse_tools.otp25.rehearsal import Rehearsal  # noqa: E402
from rehearse_tools.otp25.system import System  # noqa: E402

# Seeds of random rehearsals, and how many are taken at once.
FIRST, COUNT, AT_ONCE = 90_000, 120, 20
# Numbers of workers, of which each rehearsal has one.
WORKERS = ("2", "3", "16")
# What is no event: a plan has none of these.
NO_EVENTS = ("show", "undo", "redo", "undo_all", "redo_all")
SWEEP = ["sweep", "--rules", "otp25"]

Test = tuple[str, Optional[str]]


# ---- What is owed


def lines_behind(state: Rehearsal) -> list[str]:
    """What is told of the state behind a plan: where each distributed application runs, what hangs at which node, and which calls are
    open."""
    apps, hangs, opened, node = [], [], [], ""
    for line in report_of(state):
        node = line.split()[1] if line.startswith("node ") else node
        if line.startswith("app "):
            apps.append(line)
        elif line.startswith("  blocked "):
            hangs.append(f"blocked {node} {line.removeprefix('  blocked ')}")
        elif line.startswith("open "):
            opened.append(line)
    return [*apps, *hangs, *opened]


def plan_lines(base: Rehearsal, name: str, events: list[str]) -> list[str]:
    """The lines of a plan, by the model."""
    state, accepted, told = base.copy(), 0, []
    for number, event in enumerate(events, 1):
        why = state.refusal(words_of(event))
        if why is not None:
            told.append(f"refused {number} {why}")
            break
        answer = state.do(words_of(event))[0]
        accepted += 1
        told += [f"answer {number} {answer}"] if answer != "ok" else []
    return [f"plan {name} accepted {accepted}", *told, *lines_behind(state)]


def owed_for(cluster: str, base: list[str], plans: list[tuple[str, list[str]]]) -> list[str]:
    """The lines of all plans."""
    state = Rehearsal(System(cluster_of(cluster), None))
    for event in base:
        if state.refusal(words_of(event)) is None:
            state.do(words_of(event))
    return [line for name, events in plans for line in plan_lines(state, name, events)]


def input_of(cluster: str, base: list[str], plans: list[tuple[str, list[str]]]) -> bytes:
    """An input with this base and these plans."""
    lines = [*base, *(line for name, events in plans for line in (f"plan {name}", *events))]
    return (f"{cluster}===\n" + "".join(f"{line}\n" for line in lines)).encode()


# ---- Plans


def events_of(text: str) -> tuple[str, list[str]]:
    """The cluster file of a rehearsal, and its events."""
    parts = split_input(text)
    return parts.cluster, [line for line in parts.lines if is_command(line) and line.split()[0] not in NO_EVENTS]


def cut_into_plans(text: str, chance: random.Random) -> tuple[str, list[str], list[tuple[str, list[str]]]]:
    """A rehearsal as a base and plans: its first events are the base; plans are its other events, fronts of them, and some of them in
    another order."""
    cluster, events = events_of(text)
    at = chance.randrange(len(events) + 1)
    base, left = events[:at], events[at:]
    plans = [("rest", left), ("nothing", [])]
    for number in range(6):
        kept = chance.sample(left, chance.randrange(len(left) + 1)) if left else []
        plans.append((f"p{number}", kept if number % 2 else left[:len(kept)]))
    return cluster, base, plans


# ---- Comparing


def told_of(program: str, text: bytes, base: list[str], *options: str) -> tuple[Optional[str], list[str]]:
    """What is wrong with the end of a sweep, or with what its base is answered, and the lines of its plans."""
    done = run(program, [*SWEEP, *options], input=text)
    alone = run(program, ["run", "--rules", "otp25"], input=text.partition(b"===\n")[0] + b"===\n" + "".join(f"{line}\n" for line in base).encode())
    wrong = fault_of(done, 0, None)
    if wrong is None and not done.stdout.startswith(alone.stdout):
        wrong = "its base is answered otherwise than by `run`"
    return wrong, done.stdout[len(alone.stdout):].decode().splitlines()


def hang_lines(hang: dict[str, Any]) -> list[str]:
    """What hangs at a node, in words."""
    lines = [words("blocked", hang["node"], "dist_ac", block_words(hang["dist_ac"]))] if "dist_ac" in hang else []
    return lines + ([words("blocked", hang["node"], "boot", hang["boot"])] if "boot" in hang else [])


def plan_text(told: dict[str, Any]) -> str:
    """The lines of a plan, from its line of JSON."""
    lines = [words("plan", told["plan"], "accepted", told["accepted"])]
    lines += [words("answer", it["event"], it["answer"]) for it in told["answers"]]
    if "refused" in told:
        lines.append(words("refused", told["refused"]["event"], told["refused"]["answer"].removeprefix("refused ")))
    if "endless" in told:
        lines.append(words("endless", told["endless"]))
    lines += map(places_line, told["applications"])
    lines += [line for hang in told["blocked"] for line in hang_lines(hang)]
    lines += [words("open", call_words(call)) for call in told["open"]]
    return "".join(lines)


def json_fault(program: str, text: bytes) -> Optional[str]:
    """What is wrong with the lines of JSON: they tell what the other output tells."""
    plain, ended = run(program, SWEEP, input=text), run(program, [*SWEEP, "--json"], input=text)
    try:
        lines = [json.loads(line) for line in ended.stdout.decode().splitlines()]
        assert (ended.returncode, ended.stderr) == (0, b""), f"status {ended.returncode}: {ended.stderr!r}"
        check_text(lines[0])
        shown = "".join(plan_text(told) if "plan" in told else answer_text(told) for told in lines[1:])
        assert shown == plain.stdout.decode(), f"{shown[-300:]!r} in place of {plain.stdout[-300:]!r}"
        return None
    except (AssertionError, ValueError, KeyError, IndexError) as fault:
        return f"{type(fault).__name__}: {fault}"


def difference(program: str, cluster: str, base: list[str], plans: list[tuple[str, list[str]]], *options: str) -> Optional[str]:
    """Where the program and the model part."""
    wrong, told = told_of(program, input_of(cluster, base, plans), base, *options)
    if wrong is not None:
        return wrong
    owed = owed_for(cluster, base, plans)
    for number, (one, other) in enumerate(zip(owed, told), 1):
        if one != other:
            return f"line {number}: the model tells {one!r}, the program {other!r}"
    return None if len(told) == len(owed) else f"{len(told)} lines in place of {len(owed)}"


# ---- The tests


def random_plans(program: str, seeds: Iterable[int]) -> Iterator[Test]:
    """Random rehearsals cut into plans."""
    for seed in seeds:
        cluster, base, plans = cut_into_plans(rehearsal(seed).text, random.Random(seed))
        yield f"plans of the random rehearsal {seed} on live nodes", difference(program, cluster, base, plans)
        workers = WORKERS[seed % len(WORKERS)]
        yield f"plans of the random rehearsal {seed} by {workers} workers", difference(program, cluster, base, plans, "--workers", workers)
        yield f"JSON of plans of the random rehearsal {seed} on live nodes", json_fault(program, input_of(cluster, base, plans))


def plans_of_scripts(program: str) -> Iterator[Test]:
    """The scripts that real nodes made: each one's events are a plan behind no base, and each front of them is one."""
    for path in SCRIPTS:
        cluster, events = events_of(read(path).decode())
        plans = [(f"front{count}", events[:count]) for count in range(len(events) + 1)]
        yield f"plans of {os.path.basename(path)} on live nodes", difference(program, cluster, [], plans, "--workers", "4")


def base_goes_back(program: str) -> Iterator[Test]:
    """A base that ends with steps taken back is swept by neither rules."""
    text = b"{node, a@x, []}.\n===\nboot a@x\nundo\nplan p\nboot a@x\n"
    for options in ([], ["--workers", "4"]):
        done = run(program, [*SWEEP, *options], input=text)
        yield f"a base that goes back {options}", fault_of(done, 6, b"ok\nup a@x\nok\nsweep refused V2 base_not_at_end\n")


TESTS = (Group(random_plans, [range(seed, seed + AT_ONCE) for seed in range(FIRST, FIRST + COUNT, AT_ONCE)], is_long=True), plans_of_scripts,
         base_goes_back)
