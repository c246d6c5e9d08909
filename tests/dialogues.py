"""`run --interactive`: it answers each line before it reads more, and says what `run` says, plain or as JSON.

What it says of rows and examples is theirs. Then come pipes that are held open: behind each line that is written all of its answer, and
nothing else, has to come before the next line is. At its first fault it ends, though the pipe is open.
"""
import os
import select
import subprocess
import time

from groups import Group
from row_files import EXAMPLES, ROWS, example_row, row_at
from support import example_files, fault_of, files_below, run

CLUSTER = b"{node, a@x, []}.\n{node, b@x, []}.\n===\n"
JSON_CLUSTER = b'{"profile":1,"nodes":["a@x","b@x"],"applications":[]}\n'
INPUT_LIMIT = 16_777_216
# How long an answer may take, in seconds, and how long it is waited for one that isn't due.
LONGEST_WAIT = 20
NOTHING_COMES = 0.05
FORMS = ((), ("--json",))
LIVE = ("--rules", "otp25")
# In another manner no line is answered as it comes.
OTHERS = {"--echo", "--strict", "--interactive"}


class Talk:
    """The program, and all that it has said."""

    def __init__(self, program, words):
        self.process = subprocess.Popen([program, "run", "--interactive", *words], stdin=subprocess.PIPE, stdout=subprocess.PIPE,
                                        stderr=subprocess.PIPE, bufsize=0)
        self.said = b""

    def __enter__(self):
        return self

    def __exit__(self, *_):
        if self.process.poll() is None:
            self.process.kill()
        for pipe in (self.process.stdin, self.process.stdout, self.process.stderr):
            pipe.close()
        self.process.wait()

    def write(self, text):
        """Hands on a text."""
        self.process.stdin.write(text)

    def hear(self, wait):
        """Hears what comes within this time, and whether anything did."""
        there, _, _ = select.select([self.process.stdout], [], [], wait)
        more = os.read(self.process.stdout.fileno(), 65_536) if there else b""
        self.said += more
        return more != b""

    def hear_up_to(self, size):
        """Hears up to so many bytes in all, and not longer than an answer may take."""
        until = time.monotonic() + LONGEST_WAIT
        while len(self.said) < size and self.hear(max(0.0, until - time.monotonic())):
            pass

    def end(self, closes):
        """Hears the rest, and gives the finished run. Where the pipe isn't closed it has to end by itself."""
        if closes:
            self.process.stdin.close()
        status = self.process.wait(LONGEST_WAIT)
        while self.hear(LONGEST_WAIT):
            pass
        return subprocess.CompletedProcess("run", status, self.said, self.process.stderr.read())


def rows(program):
    """The rows of `run` that are plain or as JSON, each as it stands."""
    for path in [path for path in files_below(ROWS) if path.endswith(".row")]:
        row = row_at(path)
        if row.words[:1] == ["run"] and not OTHERS & {*row.words} and row.status != 1:
            done = run(program, [*row.words, "--interactive"], input=row.input)
            yield f"{os.path.relpath(path, ROWS)} line by line", fault_of(done, row.status, row.output)


def examples(program):
    """The examples of `run`, and each of them as JSON beside `run --json`."""
    for example in example_files():
        row = row_at(example_row(example)) if os.path.exists(example_row(example)) else None
        if row is None or row.words != ["run"]:
            continue
        name = os.path.relpath(example, EXAMPLES)
        yield f"examples/{name} line by line", fault_of(run(program, ["run", "--interactive"], input=row.input), row.status, row.output)
        whole = run(program, ["run", "--json"], input=row.input)
        done = run(program, ["run", "--interactive", "--json"], input=row.input)
        yield f"examples/{name} line by line as JSON", fault_of(done, whole.returncode, whole.stdout)


def held_fault(program, words, text):
    """What is wrong where each line of an input is written when all is there that `run` says of the lines before; or None."""
    begun = b""
    with Talk(program, words) as talk:
        for line in text.splitlines(keepends=True):
            talk.write(line)
            begun += line
            due = run(program, ["run", *words], input=begun).stdout if b"\n===\n" in begun else b""
            talk.hear_up_to(len(due))
            if talk.said != due:
                return f"behind {line!r} it had said {talk.said!r} in place of {due!r}"
        if talk.hear(NOTHING_COMES):
            return f"behind all lines it says {talk.said!r}"
        return fault_of(talk.end(closes=True), 0, talk.said)


def held_pipes(program, words):
    """The examples of `run`, a line at a time over a pipe that is held open."""
    for example in example_files():
        path = example_row(example)
        row = row_at(path) if os.path.exists(path) else None
        if row is not None and row.words == ["run"] and row.status == 0:
            name = f"examples/{os.path.relpath(example, EXAMPLES)} over a pipe"
            yield " ".join([name, *words]), held_fault(program, words, row.input)


def ends_at_once(program):
    """It ends at its first fault, though the pipe is held open."""
    for words, text, status, said in [
            ((), CLUSTER + b"boot a@x\nboot\nboot b@x\n", 3, b"ok\nup a@x\nbad line 2\n"),
            (("--json",), CLUSTER + b"undo\nboot\n", 3,
             JSON_CLUSTER + b'{"line":1,"command":"undo","answer":"refused at_start"}\n{"line":2,"bad":true}\n'),
            (LIVE, CLUSTER + b"boot a@x\nboot\nboot b@x\n", 3, b"ok\nup a@x\nbad line 2\n"),
            ((*LIVE, "--json"), CLUSTER + b"undo\nboot\n", 3,
             JSON_CLUSTER + b'{"line":1,"command":"undo","answer":"refused at_start"}\n{"line":2,"bad":true}\n'),
            ((), b"===\n", 2, b"cluster refused C2 no_nodes\n"),
            (("--json",), b"===\n", 2, b'{"refused":"C2","reason":"no_nodes"}\n')]:
        with Talk(program, words) as talk:
            talk.write(text)
            yield f"{text!r} {' '.join(words)}", fault_of(talk.end(closes=False), status, said)


def pieces(program):
    """Nothing is said of half a line, nor before the line `===` has come whole; several lines at once are answered at once."""
    with Talk(program, ()) as talk:
        wrong, said = None, b""
        for text, more in [(b"{node, a@x, []}", b""), (b".\n==", b""), (b"=", b""), (b"\nboot a@", b""), (b"x", b""), (b"\n", b"ok\nup a@x\n"),
                           (b"undo\nredo\nsho", b"ok\nok\n"), (b"w\n", b"ok\nnow 0\nnode a@x up 1\n")]:
            talk.write(text)
            said += more
            talk.hear_up_to(len(said))
            if talk.said != said or more == b"" and talk.hear(NOTHING_COMES):
                wrong = wrong or f"behind {text!r} it had said {talk.said!r} in place of {said!r}"
        talk.write(b"redo")
        yield "half lines", wrong or fault_of(talk.end(closes=True), 0, said + b"refused at_end\n")


def many_commands(program):
    """A prompt after 20,000 commands takes no longer than one at the beginning: each is answered once."""
    with Talk(program, ()) as talk:
        talk.write(CLUSTER)
        size, times = 0, []
        for _ in range(10_000):
            for line, said in ((b"boot a@x\n", b"ok\nup a@x\n"), (b"undo\n", b"ok\n")):
                begun = time.monotonic()
                talk.write(line)
                size += len(said)
                talk.hear_up_to(size)
                times.append(time.monotonic() - begun)
        # Of each two thousand the two hundredth fastest: what runs beside makes others slow.
        first, last = sorted(times[:2_000])[200], sorted(times[-2_000:])[200]
        slow = None if last < 3 * first + 0.002 else f"{first:.6f} s at the beginning, {last:.6f} at the end"
        yield "20,000 commands, one after the other", slow or fault_of(talk.end(closes=True), 0, b"ok\nup a@x\nok\n" * 10_000)


def long_inputs(program):
    """An input that is too long is told where that shows: what was due before was said."""
    begun = CLUSTER + b"boot a@x\n"
    filled = begun + b"# c\n" * ((INPUT_LIMIT - len(begun)) // 4)
    filled += b"\n" * (INPUT_LIMIT - len(filled))
    for text, status in (filled, 0), (filled + b"\n", 4):
        done = run(program, ["run", "--interactive"], input=text)
        yield f"{len(text)} bytes line by line", fault_of(done, status, b"ok\nup a@x\n")


TESTS = (rows, examples, Group(held_pipes, (*FORMS, LIVE, (*LIVE, "--json"))), ends_at_once, pieces, many_commands, long_inputs)
