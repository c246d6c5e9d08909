#!/usr/bin/env python3
"""Makes rehearsals on real OTP nodes, by companions/replay: those of tests/live, or random ones.

  run_live.py [--jobs N] PROGRAM [NAME..]
  run_live.py --random COUNT [--careful] [--from SEED] [--jobs N] [--again-factor F] [--again-jobs N] [--folder DIR] PROGRAM

Each file NAME.txt is an input of replay. Its script has what is expected as comments: below a command `#< LINE` for what only
the program says there and `#> LINE` for what only the nodes do, each a difference that docs/LIVE_OTP.md tells; below any other
command both agree. In a LINE `*` stands for what chance decides. A comment `# replay WORDS` has options of replay. N rehearsals
(3 of itself) run at once. Time is real, and a busy machine may be late: one that fails is made once more, alone, and has to
pass then. The last line is 'N passed, M failed'. Where names are given, these alone are made.

With --random so many rehearsals of random_live.py are made, of SEED (1), the next one and so on. Each leaves a record in a new
folder, which is named, or in DIR, where those that are there aren't made again. One that comes out otherwise than
companions/live tells is made once more, alone (or N at once), with its times F (3) times longer. With --careful the rehearsals
keep to the conditions of live_conditions.py. At the end stand the figures of live_figures.py; of each that differs from
companions/live still, SEED.txt in the folder has its input with what the nodes did.
"""
import argparse
import glob
import os
import re
import shutil
import subprocess
import sys
import tempfile
from concurrent.futures import ThreadPoolExecutor

# No file is left behind.
sys.dont_write_bytecode = True
from groups import program_at  # noqa: E402
from live_conditions import careful  # noqa: E402
from live_figures import cases_of, differing_text, table  # noqa: E402
from live_records import BadRecord, first_tries, make_again  # noqa: E402
from random_live import rehearsals  # noqa: E402
from support import LONGEST_RUN, TOP  # noqa: E402

FOLDER = os.path.join(TOP, "tests", "live")
COMPANION = os.path.join(TOP, "companions", "replay")


def expected(path):
    """The options of a rehearsal, and its commands, each with the differences that are expected."""
    with open(path, encoding="utf-8") as file:
        lines = file.read().split("\n===\n", 1)[1].splitlines()
    words, commands = [], []
    for line in lines:
        if line.startswith("# replay "):
            words = line.split()[2:]
        elif line.startswith(("#< ", "#> ")):
            commands[-1][1].append(f"{line[1]} {line[2:].strip()}")
        elif line and not line.startswith("#"):
            commands.append((line, []))
    return words, commands


def seen(output):
    """The commands of what replay prints, each with the differences that it marks."""
    commands = []
    for line in output.splitlines()[1:-1]:
        if line.startswith(("< ", "> ")):
            commands[-1][1].append(f"{line[0]} {line[1:].strip()}")
        elif not line.startswith((" ", "#")):
            commands.append((line, []))
    return commands


def matched(owed, have):
    """Whether each line that is there is one of those that are owed, and all of these are there."""
    left = list(have)
    for line in sorted(owed, key=lambda line: "*" in line):
        pattern = re.escape(line).replace(r"\*", ".*")
        found = [one for one in left if re.fullmatch(pattern, one)]
        if not found:
            return False
        left.remove(found[0])
    return not left


def fault(program, path):
    """What is wrong with a rehearsal, or None."""
    words, commands = expected(path)
    done = subprocess.run([COMPANION, "--rehearse", program, *words, path], stdin=subprocess.DEVNULL, capture_output=True,
                          text=True, timeout=LONGEST_RUN)
    status = 3 if any(owed for _, owed in commands) else 0
    have = seen(done.stdout)
    is_right = [command for command, _ in have] == [command for command, _ in commands] and all(
        matched(owed, rows) for (_, owed), (_, rows) in zip(commands, have))
    if done.returncode == status and is_right and not done.stderr:
        return None
    return f"status {done.returncode}, want {status}\n{done.stdout}{done.stderr}"


def make_random(program: str, given: argparse.Namespace) -> None:
    """Makes random rehearsals, and prints their figures."""
    folder = given.folder or tempfile.mkdtemp(prefix="rehearse-random-")
    os.makedirs(folder, exist_ok=True)
    print(f"records: {folder}", flush=True)

    def tell(line: str) -> None:
        print(line, flush=True)

    seeds = range(given.seed, given.seed + given.random)
    wanted = map(careful, seeds) if given.careful else rehearsals(given.seed, given.random)
    records = list(first_tries(program, wanted, folder, given.jobs, tell))
    again = [case.record for case in cases_of(program, records)
             if case.last.first_live is not None and len(case.record.tries) == 1]
    with ThreadPoolExecutor(given.again_jobs) as pool:
        list(pool.map(lambda record: make_again(program, record, given.again_factor, given.again_jobs, folder, tell), again))
    cases = cases_of(program, records)
    for case in cases:
        if case.last.first_live is not None and case.record.last.fault is None:
            with open(os.path.join(folder, f"{case.record.seed}.txt"), "w", encoding="utf-8") as file:
                file.write(differing_text(case))
    print("\n".join(table(cases)))


def make_named(program: str, given: argparse.Namespace) -> int:
    """Makes the rehearsals of tests/live, and gives the exit status."""
    paths = [os.path.join(FOLDER, f"{name}.txt") for name in given.names] or sorted(glob.glob(os.path.join(FOLDER, "*.txt")))
    with ThreadPoolExecutor(given.jobs) as pool:
        again = [path for path, wrong in zip(paths, pool.map(lambda path: fault(program, path), paths)) if wrong]
    failed = 0
    for path in again:
        wrong = fault(program, path)
        failed += wrong is not None
        print(f"FAILED {os.path.basename(path)}: {wrong}" if wrong else f"{os.path.basename(path)} passed when made once more")
    print(f"{len(paths) - failed} passed, {failed} failed")
    return 1 if failed or not paths else 0


def number_from_1(text: str) -> int:
    """A number of a command line."""
    number = int(text)
    if number < 1:
        raise argparse.ArgumentTypeError(f"{text} is below 1")
    return number


def main():
    line = argparse.ArgumentParser(description=__doc__, formatter_class=argparse.RawTextHelpFormatter)
    line.add_argument("--jobs", type=number_from_1, default=3)
    line.add_argument("--random", type=number_from_1, metavar="COUNT")
    line.add_argument("--from", type=int, default=1, dest="seed", metavar="SEED")
    line.add_argument("--again-factor", type=number_from_1, default=3, metavar="F")
    line.add_argument("--again-jobs", type=number_from_1, default=1, metavar="N")
    line.add_argument("--careful", action="store_true")
    line.add_argument("--folder", metavar="DIR")
    line.add_argument("program", type=program_at)
    line.add_argument("names", nargs="*")
    given = line.parse_args()
    if given.random and given.names:
        line.error("--random takes no names")
    if shutil.which("escript") is None:
        print("FAILED tests/live: it needs escript" + "\n0 passed, 1 failed")
        sys.exit(1)
    try:
        sys.exit(make_random(given.program, given) if given.random else make_named(given.program, given))
    except BadRecord as fault:
        print(f"run_live: {fault}", file=sys.stderr)
        sys.exit(2)


if __name__ == "__main__":
    main()
