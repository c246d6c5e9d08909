"""What the benchmark's inputs (bench_inputs.py) are made for: each seed's searches find as many states as they may, and clusters whose
applications are mostly local refuse next to nothing, since a refused command costs nothing. And what bench/run says of a seed that is none."""
import os
import re
import subprocess
import sys
from collections.abc import Iterator
from typing import Optional

from bench_inputs import Chance, calls
from groups import Group, Test
from support import LONGEST_RUN, TOP, fault_of, run

SEEDS = 30
# What the line of `explore` in bench/workloads.txt has.
STATES = 80_000
# Episodes of an input, and of these inputs the number.
EPISODES, INPUTS = 2_000, 2
# So many of a hundred commands may be refused.
REFUSED = 1


def inputs(job: str, seed: int, number: int, size: int) -> Iterator[tuple[str, list[str], bytes]]:
    """Each call's name, its words and its input."""
    for name, words, text in calls(job, Chance(seed * 1_000_003 + number), number, size):
        yield name, words, (text or "").encode()


def searches(program: str, seeds: range) -> Iterator[Test]:
    """None finds all states before it has found as many as it may."""
    for seed in seeds:
        for name, words, text in inputs("explore", seed, 0, STATES):
            done = run(program, words, input=text)
            found = re.findall(rb"^explored (\d+) states", done.stdout, re.MULTILINE)
            owed = [words[-1].encode()]
            yield f"benchmark, {name}, seed {seed}", None if found == owed else f"it found {found} states in place of {owed}"


def refusals(program: str, seeds: range) -> Iterator[Test]:
    """Of the commands next to none is refused, so no plan ends before its end, and applications fail over and are taken over."""
    for seed in seeds:
        for number in range(INPUTS):
            for name, words, text in inputs("local", seed, number, EPISODES):
                yield f"benchmark, local, {name}, seed {seed}, input {number}", refusal_fault(run(program, words, input=text), name, text)


def refusal_fault(done, name: str, text: bytes) -> Optional[str]:
    """What is wrong with an answer, or None."""
    wrong = fault_of(done, 0, None)
    if wrong is not None:
        return wrong
    commands = re.findall(rb"^(?:boot|crash|tick|permit|takeover) ", text.partition(b"===\n")[2], re.MULTILINE)
    refused = re.findall(rb"^(?:#= )?refused ", done.stdout, re.MULTILINE)
    if len(refused) * 100 > len(commands) * REFUSED:
        return f"{len(refused)} of {len(commands)} commands are refused"
    if name == "sweep":
        moves = {kind: sum(map(int, re.findall(rb" %s (\d+)" % kind, done.stdout))) for kind in (b"failovers", b"takeovers")}
    else:
        moves = {b"takeovers": len(re.findall(rb"started .* takeover ", done.stdout))}
    return None if all(count > len(commands) // 100 for count in moves.values()) else f"of {len(commands)} commands came {moves}"


def no_seeds(_program: str) -> Iterator[Test]:
    """What is no seed is told by a line."""
    command = [sys.executable, os.path.join(TOP, "bench", "run"), TOP, TOP]
    for word in (str(2 ** 32), "9" * 5_000, "seven", "-1", ""):
        done = subprocess.run([*command, word], capture_output=True, timeout=LONGEST_RUN, check=False)
        is_line = re.fullmatch(rb"bench/run: a seed is a number from 0 to 4294967295, and [^\n]* isn't one\n", done.stderr)
        yield f"bench/run, seed {word[:20]!r}", fault_of(done, 1, b"") or (None if is_line else f"standard error: {done.stderr!r}")


TESTS = (Group(searches, [range(begin, begin + 5) for begin in range(1, SEEDS + 1, 5)]), Group(refusals, [range(1, 4)]), Group(no_seeds))
