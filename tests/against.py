"""How many times as long one program takes as another that has the same command line, and how many times as much memory.

`benchmark.py PROGRAM --against OTHER` prints the table. Both are run in turn on the same inputs, five times each, and the least
time and the least peak count. Where no threads are started both run on one processor alone. A pair that doesn't write the same, or
doesn't end alike, isn't compared: the row says so.
"""
import os
import subprocess
import sys
import tempfile
from collections.abc import Iterator
from dataclasses import dataclass

from hostile_texts import filled

ROUNDS = 5
# What stands in a section that is skipped: atoms with and without quotes, numbers, texts, lists, tuples, comments.
MIXED = b"{key_of_some_kind, ['quoted atom', 17, -4, \"a text\", {pair, [], [a, b, c]}]}, % a comment\n  "
# GNU's time, from which a program begins small: a peak counts that of the process that it began as.
TIMER = "/usr/bin/time"
# Runs a command whose words follow `pinned` or `free`, and tells the sum of what it wrote, its status and its seconds.
ONCE = """
import hashlib, os, subprocess, sys, time

def pin():
    os.sched_setaffinity(0, {min(os.sched_getaffinity(0))})

begin = time.monotonic()
process = subprocess.Popen(sys.argv[2:], stdout=subprocess.PIPE, stderr=subprocess.DEVNULL,
                           preexec_fn=pin if sys.argv[1] == "pinned" else None)
told = hashlib.sha256()
while chunk := process.stdout.read(1 << 20):
    told.update(chunk)
print(told.hexdigest(), process.wait(), time.monotonic() - begin)
"""


@dataclass(frozen=True)
class Workload:
    """What is run: the words of the command line, what the input is, and the input."""
    words: list[str]
    name: str
    text: bytes

    @property
    def is_pinned(self) -> bool:
        """Whether it starts no threads."""
        return self.words[0] in ("run", "check") or self.words[-1] == "1"


@dataclass
class Best:
    """What a program wrote and how it ended, its least milliseconds, and its least peak memory in MiB."""
    told: tuple[str, str]
    time: float
    peak: float


def workloads(large, steps, plans) -> Iterator[Workload]:
    """What both programs do, of a cluster of 32 nodes and 64 applications."""
    nodes, front = large()
    long = front + steps(nodes, 60_000)
    yield Workload(["run"], "five lines", b"{node, a@x, []}.\n{application, web, []}.\n===\nboot a@x\nshow\n")
    yield Workload(["run"], "60,000 steps", long)
    yield Workload(["run"], "60,000 steps, 40 times undone and redone", long + b"undo_all\nredo_all\n" * 40)
    yield Workload(["run"], "5,000 reports", front + steps(nodes, 32) + b"show\n" * 5_000)
    yield Workload(["check"], "16 MiB, nearly all of it skipped", filled(b"{node, a@x, [{skipped, [", MIXED, b"end]}]}.\n"))
    lines = steps(nodes, 60_000).splitlines()
    yield Workload(["sessions"], "8 sessions with 60,000 commands",
                   front + b"".join(b"%d %s\n" % (number % 8 + 1, line) for number, line in enumerate(lines)))
    for workers in ("1", "2", "4"):
        yield Workload(["sweep", "--workers", workers], "20,000 plans", front + steps(nodes, 100) + plans(nodes, 20_000))


def once(program: str, workload: Workload, source) -> Best:
    """One run of a program."""
    source.seek(0)
    with tempfile.NamedTemporaryFile() as peak:
        call = [sys.executable, "-c", ONCE, "pinned" if workload.is_pinned else "free",
                TIMER, "--quiet", "-o", peak.name, "-f", "%M", program, *workload.words]
        told, status, seconds = subprocess.run(call, stdin=source, stdout=subprocess.PIPE, check=True).stdout.decode().split()
        return Best((told, status), float(seconds) * 1000, int(peak.read()) / 1024)


def best_of(programs: list[str], workload: Workload) -> list[Best]:
    """The best of each program's runs, which take turns."""
    with tempfile.TemporaryFile() as source:
        source.write(workload.text)
        source.flush()
        rounds = [[once(program, workload, source) for program in programs] for _ in range(ROUNDS)]
    return [Best(runs[0].told, min(run.time for run in runs), min(run.peak for run in runs)) for runs in zip(*rounds)]


def row_of(workload: Workload, one: Best, other: Best) -> str:
    """A row of the table. What sessions answer depends on how their threads take turns, so it isn't compared."""
    name = f"| {' '.join(workload.words)} | {workload.name} |"
    if one.told[1] != other.told[1] or workload.words[0] != "sessions" and one.told != other.told:
        return f"{name} they don't answer alike | | | | | |"
    return (f"{name} {one.time:.1f} | {other.time:.1f} | {one.time / other.time:.1f} | "
            f"{one.peak:.1f} | {other.peak:.1f} | {one.peak / other.peak:.1f} |")


def print_table(program: str, other: str, chosen: list[Workload]) -> None:
    """Prints a row for each workload."""
    if not os.path.exists(TIMER):
        sys.exit(f"{TIMER} isn't there, GNU's time, which tells a program's peak (the package time in Debian)")
    print("| Command | Input | ms | ms of the other | ratio | MiB | MiB of the other | ratio |")
    print("|---|---|---|---|---|---|---|---|")
    for workload in chosen:
        print(row_of(workload, *best_of([program, other], workload)), flush=True)
