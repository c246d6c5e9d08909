"""Tests of devices that are closed, missing, full, slow, or too long, and of readers that go away."""
import os
import resource
import signal
import subprocess

from support import LONGEST_RUN, fault_of, read, run

INPUT_LIMIT = 16_777_216
TWO_NODES = b"{node, a@x, []}. {node, b@x, []}."
MARK = b"\n===\n"


def full_comments(program):
    """Two bare nodes, and a comment up to the greatest input, or one byte more."""
    filled = TWO_NODES + b"%" + b"c" * (INPUT_LIMIT - len(TWO_NODES) - 1)
    first = b"final\nnow 0\nnode a@x down 0\nnode b@x down 0\n"
    for word, out in ("check", b"ok 2 nodes 0 applications\n"), ("run", b""), ("sessions", first), ("sweep", b""):
        yield f"{word}: 16,777,216 bytes by a comment", fault_of(run(program, [word], input=filled), 0, out)
        yield f"{word}: 16,777,217 bytes by a comment", fault_of(run(program, [word], input=filled + b"c"), 4, b"")


def inputs():
    """An input for each subcommand, and its answer where it is long."""
    cluster = TWO_NODES + MARK
    yield "check", cluster
    yield "run", cluster + b"boot a@x\ncrash a@x\n" * 40
    yield "sessions", cluster + b"1 boot a@x\n1 crash a@x\n" * 40
    yield "sweep", cluster + b"boot a@x\nplan p\ncrash a@x\n" + b"plan q\n" * 40
    yield "explore", cluster + b"boot a@x\nundo\n" * 40 + b"may crash *\nmay boot *\n"
    yield "explore --json", cluster + b"boot a@x\nundo\n" * 20 + b"may crash *\nmay boot *\n"
    yield "run --rules otp25", cluster + b"boot a@x\ncrash a@x\n" * 40
    yield "story --rules otp25", cluster + b"boot a@x\ncrash a@x\n" * 20
    yield "verify --rules otp25", cluster + b"boot a@x\n#= ok\n#= up a@x\ncrash a@x\n" * 20
    yield "sweep --rules otp25 --json", cluster + b"boot a@x\nplan p\ncrash a@x\n" + b"plan q\n" * 20
    yield "explore --rules otp25", cluster + b"boot a@x\nundo\n" * 40 + b"may crash *\nmay boot *\nsteps 1\nask nothing hangs\n"
    yield "run --rules otp25 --interactive", cluster + b"boot a@x\ncrash a@x\n" * 20
    yield "run --interactive", cluster + b"boot a@x\ncrash a@x\n" * 40
    yield "run --interactive --json", cluster + b"boot a@x\ncrash a@x\n" * 20


def closed_devices(program):
    """Standard input, output and error that are closed, are open the wrong way, or are full."""
    for word, text in inputs():
        whole = run(program, word.split(), input=text).stdout
        quoted = f"'{program}' {word}"
        for name, line, status, out in [
                ("closed input", f"{quoted} <&-", 4, b""), ("input that is open for writing", f"{quoted} 0>/dev/null", 4, b""),
                ("closed output", f"{quoted} >&-", 4, b""), ("output that is open for reading", f"{quoted} 1</dev/null", 4, b""),
                ("a full device", f"{quoted} >/dev/full", 4, b""), ("closed error", f"{quoted} 2>&-", 0, whole),
                ("nothing open", f"{quoted} <&- >&- 2>&-", 4, b"")]:
            yield f"{word}: {name}", fault_of(run("/bin/sh", ["-c", line], input=text), status, out)
        done = run(program, word.split(), input=text, start_new_session=True)
        yield f"{word}: no terminal", fault_of(done, 0, whole)


def slow_input(program):
    """One byte a write, the next when the one before is read or lies in the pipe."""
    for word, text in inputs():
        whole = run(program, word.split(), input=text).stdout
        with subprocess.Popen([program, *word.split()], stdin=subprocess.PIPE, stdout=subprocess.PIPE, stderr=subprocess.PIPE) as process:
            for place in range(len(text)):
                os.write(process.stdin.fileno(), text[place:place + 1])
            out, error = process.communicate(timeout=LONGEST_RUN)
        done = subprocess.CompletedProcess(word, process.returncode, out, error)
        yield f"{word}: one byte a write", fault_of(done, 0, whole)


def limited(size):
    """Lets no file grow beyond this size, which then is an error and no signal."""

    def limit():
        signal.signal(signal.SIGXFSZ, signal.SIG_IGN)
        resource.setrlimit(resource.RLIMIT_FSIZE, (size, size))

    return limit


def outputs_cut(program):
    """Files that may not grow, readers that go away, and pipes that would block: status 4, and a front of the text."""
    text = TWO_NODES + MARK + b"boot a@x\n" + b"show\n" * 20_000
    whole = b"ok\nup a@x\n" + b"ok\nnow 0\nnode a@x up 1\nnode b@x down 0\n" * 20_000
    yield "20,000 times show", fault_of(run(program, ["run"], input=text), 0, whole)
    path = os.path.join(os.environ.get("TMPDIR", "/tmp"), f"rehearse-hostile-{os.getpid()}")
    for size in (0, 1, 2, 3, 100, 8_191, 8_192, 8_193, 65_536, 500_000, len(whole) - 1):
        with open(path, "wb") as file:
            done = run(program, ["run"], input=text, stdout=file, preexec_fn=limited(size))
        out = read(path)
        os.remove(path)
        wrong = None if whole.startswith(out) and len(out) <= size else f"{len(out)} bytes are no front of the text"
        yield f"a file of at most {size} bytes", fault_of(done, 4, None) or wrong
    for size in (0, 1, 70_000):
        yield f"a reader that goes away behind {size} bytes", reader_fault(program, text, whole, size)
    begin, end = os.pipe()
    os.set_blocking(begin, False)
    yield "input that would block", fault_of(run(program, ["run"], stdin=begin), 4, b"")
    os.set_blocking(end, False)
    done = run(program, ["run"], input=text, stdout=end)
    out = os.read(begin, len(whole))
    os.close(begin)
    os.close(end)
    wrong = None if whole.startswith(out) else "what was written is no front of the text"
    yield "output that would block", fault_of(done, 4, None) or wrong


def reader_fault(program, text, whole, size):
    """What is wrong where the reader takes so many bytes and goes away, or None."""
    pipes = {"stdin": subprocess.PIPE, "stdout": subprocess.PIPE, "stderr": subprocess.PIPE}
    with subprocess.Popen([program, "run"], **pipes) as process:
        # The whole input is read before anything is written.
        process.stdin.write(text[:-1])
        process.stdin.flush()
        if size == 0:
            process.stdout.close()
        process.stdin.close()
        out = b"" if size == 0 else process.stdout.read(size)
        process.stdout.close()
        error = process.stderr.read()
    return fault_of(subprocess.CompletedProcess("run", process.returncode, out, error), 4, whole[:size])


TESTS = (full_comments, closed_devices, slow_input, outputs_cut)
