#!/usr/bin/env python3
"""Prints how long `lint` takes beside `check`, on cluster files that are made to take long: lint_cost.py [--times N] PROGRAM [WORD..]

The files are those of hostile_texts.py, of 16 MiB but for a few. Each run has one processor (taskset), and its seconds are those of the
processor, the system's among them; the least of N (5) runs is told. Where words are given, these are the rows whose text has them all.
Nothing is asserted: the times depend on the machine.
"""
import argparse
import os
import resource
import subprocess
import tempfile

import hostile_texts
from groups import program_at
from hostile_texts import MIB

PROCESSOR = max(os.sched_getaffinity(0))


def seconds(program: str, word: str, path: str) -> tuple[int, float]:
    """The status of a run, and its seconds of a processor."""
    before = resource.getrusage(resource.RUSAGE_CHILDREN)
    with open(path, "rb") as source:
        done = subprocess.run(["taskset", "-c", str(PROCESSOR), program, word], stdin=source, stdout=subprocess.DEVNULL,
                              stderr=subprocess.DEVNULL, check=False)
    after = resource.getrusage(resource.RUSAGE_CHILDREN)
    return done.returncode, after.ru_utime + after.ru_stime - before.ru_utime - before.ru_stime


def row(program: str, name: str, text: bytes, times: int) -> str:
    """The line of an input. Both commands take turns."""
    with tempfile.NamedTemporaryFile() as file:
        file.write(text)
        file.flush()
        runs = [(seconds(program, "check", file.name), seconds(program, "lint", file.name)) for _ in range(times)]
    check, lint = (min(pair[place][1] for pair in runs) for place in (0, 1))
    return f"| {name} | {len(text) / MIB:.1f} | {runs[0][0][0]} | {check:.2f} | {lint:.2f} | {lint / max(check, 0.001):.1f} |"


def main() -> None:
    line = argparse.ArgumentParser(description=__doc__, formatter_class=argparse.RawDescriptionHelpFormatter)
    line.add_argument("--times", type=int, default=5)
    line.add_argument("program", type=program_at)
    line.add_argument("words", nargs="*")
    given = line.parse_args()
    print("| Input | MiB | Status of `check` | `check` | `lint` | times as long |\n|---|---|---|---|---|---|")
    for name, make in hostile_texts.checks():
        if all(word in name for word in given.words):
            print(row(given.program, name, make(), given.times), flush=True)


if __name__ == "__main__":
    main()
