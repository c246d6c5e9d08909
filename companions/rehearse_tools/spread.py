"""Sweeps with several processes or machines, by GNU parallel. What is printed is what one run of `rehearse sweep` prints.

  companions/spread --jobs 4 plans.txt
  companions/spread --json --jobs 4 plans.txt | companions/survey
  companions/spread --sshlogin 8/big1,8/big2,: --remote /opt/rehearse plans.txt

FILE is the input of `rehearse sweep`: a cluster file, a line ===, a base, and plans; `-` or nothing is standard input. The plans are
cut into shares of consecutive ones. Each share is swept by a run of its own, from the same base, and the outcomes are put together in
the order of the plans. A share that wasn't done, since its process was killed or its machine is gone, is done again, on another
machine where there is one.

Exit status: that of the program; 1 also for a wrong command line, 2 also where FILE can't be read or is empty, or PATH isn't the
program, and 9 where a share wasn't done by any of its tries. What one run refuses, a bad line for instance, is told as one run tells it.
"""
import os
import secrets
import shlex
import shutil
import signal
import subprocess
import sys
import tempfile
import time
from argparse import Namespace
from collections import Counter
from collections.abc import Iterator, Sequence
from dataclasses import dataclass
from typing import NoReturn

from rehearse_tools.command_line import CommandLine, count, workers
from rehearse_tools.endings import write_bytes
from rehearse_tools.inputs import end_of_cluster, plan_name, read_bytes, to_bytes, to_text
from rehearse_tools.outcomes import PLAN
from rehearse_tools.progress import Bar
from rehearse_tools.program import hand_on

LOST = 9
MOST_TOLD = 10
# So many shares for each run at once.
SHARES = 4
# What one run refuses too isn't tried again: it ends as if it were done, and a line on standard error tells so. What a run leaves unread is
# read here, or who writes it would be ended by a signal.
GUARDED = "{run}; s=$?; cat > /dev/null; case $s in 2|3|4|6) echo {refused} >&2; exit 0 ;; esac; exit $s"
PIPED = ["--plain", "--pipe", "-N", "1", "--block", "16M", "--remove-rec-sep"]


def command_line() -> CommandLine:
    """The command line of this tool."""
    line = CommandLine("spread", __doc__)
    line.add_argument("file", metavar="FILE", nargs="?", default="-", help="a sweep's input (default: standard input)")
    line.add_argument("--jobs", metavar="N", type=count, help="so many runs at once on each machine (default: one for each processor)")
    line.add_argument("--sshlogin", metavar="LIST", action="append", default=[],
                      help="the machines, as GNU parallel names them: [N/][USER@]HOST,.. with N runs at once, and : for this one "
                      "(default: this one alone). Each has to have perl and the program, and ssh reaches it without a password")
    line.add_argument("--sshloginfile", metavar="F", action="append", default=[], help="the same from a file, one to a line")
    line.add_argument("--shares", metavar="N", type=count,
                      help=f"into how many shares the plans are cut (default: {SHARES} for each run at once, as far as that is known)")
    line.add_argument("--retries", metavar="N", type=count, default=5, help="how often a share is tried in all (default: 5)")
    line.add_argument("--remote", metavar="PATH",
                      help="the program on the machines, or a command that they find (default: the path of the one here)")
    line.add_argument("--workers", metavar="N", type=workers, default="1", help="as for the program: threads of each run (default: 1)")
    line.add_argument("--json", action="store_true", help="as for the program: prints lines of JSON, which survey reads")
    line.add_program()
    return line


@dataclass(frozen=True)
class Job:
    """A run of a share, as GNU parallel's log tells it: its exit status and the signal that ended it."""
    status: int
    signal: int

    @property
    def is_done(self) -> bool:
        return self.status == 0 and self.signal == 0

    def __str__(self) -> str:
        return f"ended by signal {self.signal}" if self.signal else f"ended with status {self.status}"


@dataclass(frozen=True)
class Shares:
    """The front that all shares have, and the plans of each, as texts; and how many plans there are in all."""
    front: str
    plans: list[str]
    count: int


@dataclass(frozen=True)
class Finished:
    """What is left of the runs of all shares in a folder: their outputs, what they wrote to standard error, GNU parallel's log and
    what it told."""
    folder: str

    def output(self, share: int) -> bytes:
        """What a share's run printed."""
        return contents(os.path.join(self.folder, str(share)))

    def errors(self) -> list[str]:
        """The lines that the runs wrote to standard error."""
        paths = sorted(name for name in os.listdir(self.folder) if name.endswith(".err"))
        return [line for name in [*paths, "told"] for line in to_text(contents(os.path.join(self.folder, name))).splitlines()]

    def jobs(self) -> list[Job]:
        """The runs, as far as they are over."""
        rows = [line.split("\t") for line in to_text(contents(os.path.join(self.folder, "log"))).splitlines()[1:]]
        return [Job(int(row[6]), int(row[7])) for row in rows if len(row) > 7]


def contents(path: str) -> bytes:
    """A file, which may not be there."""
    try:
        with open(path, "rb") as file:
            return file.read()
    except FileNotFoundError:
        return b""


# ---- Shares


def at_once(given: Namespace) -> int:
    """How many runs are at work at once, as far as that is known here."""
    machines = sum(len(logins.split(",")) for logins in [*given.sshlogin, *given.sshloginfile]) or 1
    return int(given.jobs or os.cpu_count() or 1) * machines


def shares_of(text: str, given: Namespace) -> Shares:
    """The plans of an input, cut into shares."""
    lines = text.split("\n")
    end = end_of_cluster(lines)
    places = [place for place, line in enumerate(lines) if 0 <= end < place and plan_name(line.removesuffix("\r"))]
    number = min(given.shares or SHARES * at_once(given), len(places))
    cuts = [places[share * len(places) // number] for share in range(number)]
    plans = ["\n".join(lines[first:last]) + "\n" for first, last in zip(cuts, [*cuts[1:], len(lines)])]
    return Shares("\n".join(lines[:cuts[0]]) + "\n" if cuts else "", plans, len(places))


# ---- Runs


def sweep_whole(path: str, given: Namespace, text: bytes) -> NoReturn:
    """One run for the whole of the input."""
    done = subprocess.run([path, *words_of_sweep(given)], input=text, capture_output=True, check=False)
    hand_on(to_text(done.stderr))
    write_bytes(done.stdout)
    sys.exit(done.returncode)


def words_of_sweep(given: Namespace) -> list[str]:
    """The words of a run, behind the program."""
    return ["sweep", "--pick", given.pick, "--workers", given.workers, *(["--json"] if given.json else [])]


def words_of_parallel(given: Namespace, path: str, mark: str, folder: str) -> list[str]:
    """The command line of GNU parallel. Behind each share comes a line that is a mark, which no line of it is."""
    run = shlex.join([given.remote or path, *words_of_sweep(given)])
    words = ["parallel", *PIPED, "--recend", f"{mark}\\n", "--retries", str(given.retries)]
    words += ["--jobs", str(given.jobs)] if given.jobs else []
    for option, values in (("--sshlogin", given.sshlogin), ("--sshloginfile", given.sshloginfile)):
        words += [word for value in values for word in (option, value)]
    return [*words, "--results", os.path.join(folder, "{#}"), "--joblog", os.path.join(folder, "log"),
            GUARDED.format(run=run, refused=shlex.quote(refused_line(mark)))]


def refused_line(mark: str) -> str:
    """The line by which a run tells that one run refuses this too."""
    return f"{mark} refused"


def run_shares(shares: Shares, words: Sequence[str], mark: str, folder: str) -> Finished:
    """Runs each share, and waits for all."""
    finished, bar = Finished(folder), Bar(len(shares.plans), "shares")
    with open(os.path.join(folder, "told"), "wb") as told:
        # By its own choice it would take the shell of the user, which may be another kind of shell.
        child = subprocess.Popen(words, stdin=subprocess.PIPE, stdout=subprocess.DEVNULL, stderr=told,
                                 env={**os.environ, "PARALLEL_SHELL": "/bin/sh"})
    try:
        feed(child, shares, mark)
        while bar.is_shown and child.poll() is None:
            bar.show(len(finished.jobs()))
            time.sleep(0.1)
        child.wait()
    finally:
        child.terminate()
        child.wait()
    bar.show(len(shares.plans))
    return finished


def feed(child: subprocess.Popen[bytes], shares: Shares, mark: str) -> None:
    """Gives all shares to GNU parallel, which may end before it has read them."""
    assert child.stdin is not None
    try:
        with child.stdin as to:
            for plans in shares.plans:
                to.write(to_bytes(f"{shares.front}{plans}{mark}\n"))
    except BrokenPipeError:
        pass


# ---- What is told


def joined_output(shares: Shares, finished: Finished, begins: bytes) -> bytes:
    """The outputs of all shares as that of one run: what is told before the plans is told once."""
    first, *rest = (finished.output(share) for share in range(1, len(shares.plans) + 1))
    return first + b"".join(output[begin:] for output in rest for begin in [plans_begin(output, begins)])


def plans_begin(output: bytes, begins: bytes) -> int:
    """Where the outcome of the first plan begins in an output. That of each begins so, and no other line does."""
    return 0 if output.startswith(begins) else output.find(b"\n" + begins) + 1 or len(output)


def plan_count(output: bytes, begins: bytes) -> int:
    """How many plans an output tells of."""
    return output.count(b"\n" + begins) + output.startswith(begins)


def give_up(lines: Sequence[str]) -> NoReturn:
    """Ends where shares weren't done."""
    print("\n".join(lines).encode("utf-8", "replace").decode(), file=sys.stderr)
    sys.exit(LOST)


def lost_lines(lost: int, shares: Shares, given: Namespace, finished: Finished) -> Iterator[str]:
    """What is told where shares weren't done: how their runs ended and what these told, the most frequent first."""
    yield (f"spread: {lost} of {len(shares.plans)} shares weren't done, though each was tried {given.retries} times. "
           "What their runs told:")
    told = [str(job) for job in finished.jobs() if not job.is_done] + finished.errors()
    yield from (f"{number:7} {line}" for line, number in Counter(told).most_common(MOST_TOLD))


def spread(path: str, given: Namespace, text: bytes, shares: Shares) -> None:
    """Sweeps all shares, and prints what one run prints."""
    begins = PLAN.encode() if given.json else b"plan "
    mark = f"=== {secrets.token_hex(16)}"
    with tempfile.TemporaryDirectory(ignore_cleanup_errors=True) as folder:
        finished = run_shares(shares, words_of_parallel(given, path, mark, folder), mark, folder)
        if refused_line(mark) in finished.errors():
            sweep_whole(path, given, text)
        lost = len(shares.plans) - sum(job.is_done for job in finished.jobs())
        if lost:
            give_up(list(lost_lines(lost, shares, given, finished)))
        output = joined_output(shares, finished, begins)
    if plan_count(output, begins) != shares.count:
        give_up([f"spread: there aren't outcomes of {shares.count} plans: is {given.remote or path} the program?"])
    write_bytes(output)


def main(words: Sequence[str]) -> None:
    """Sweeps with several processes or machines."""
    signal.signal(signal.SIGTERM, lambda *_: sys.exit(128 + signal.SIGTERM))
    line = command_line()
    given = line.parse_args(words)
    if shutil.which("parallel") is None:
        line.error("GNU parallel isn't installed")
    path = os.path.realpath(line.program(given).path)
    text = read_bytes(given.file)
    shares = shares_of(to_text(text), given)
    if not shares.count:
        sweep_whole(path, given, text)
    spread(path, given, text, shares)
