"""./rehearse run --interactive in front of the program: standard input goes on behind the files as it comes, and nothing is left behind."""
import os
import signal
import subprocess
import time

from front import ANSWERS, CLUSTER, LONGEST, SCRIPT, call, install, left, write, wrong
from support import in_folder


@in_folder
def talks(program, folder):
    """Line by line: standard input goes on behind the files as it comes, and who hands it on ends with the program."""
    install(folder, program)
    write(folder, "c.txt", CLUSTER)
    write(folder, "p.txt", SCRIPT)
    for words, begun in (["c.txt"], b""), (["c.txt", "p.txt"], ANSWERS), (["c.txt", "p.txt", "-"], ANSWERS):
        name = f"run --interactive {' '.join(words)}"
        yield name, wrong(call(folder, ["run", "--interactive", *words], input=b"undo\nshow"), 0,
                          begun + (b"ok\nok\nnow 0\nnode a@x up 1\n" if begun else b"refused at_start\nok\nnow 0\nnode a@x down 0\n"), b"")
        yield f"{name}: over a pipe that is held open", held_fault(folder, words, begun)
    yield "a signal that ends it, over a pipe that is held open", signalled_fault(folder)
    yield "run --interactive - alone", wrong(call(folder, ["run", "--interactive", "-"], input=CLUSTER + b"===\n" + SCRIPT), 0, ANSWERS, b"")
    yield "no copy is left", left(folder)


def talking(folder, words):
    """./rehearse run --interactive on these words, in a session of its own, over pipes."""
    environment = {**os.environ, "TMPDIR": os.path.join(folder, "tmp")}
    return subprocess.Popen([os.path.join(folder, "in stalled", "rehearse"), "run", "--interactive", *words], cwd=folder, env=environment,
                            bufsize=0, start_new_session=True, stdin=subprocess.PIPE, stdout=subprocess.PIPE, stderr=subprocess.PIPE)


def signalled_fault(folder):
    """What is wrong where a signal ends it while it waits for a line, or None: then nothing of it is left."""
    with talking(folder, ["c.txt"]) as process:
        process.stdin.write(b"tick 5\n")
        heard = process.stdout.read(3)
        process.send_signal(signal.SIGTERM)
        is_right = (heard, process.wait(LONGEST)) == (b"ok\n", -signal.SIGTERM)
        return lingering(process.pid) or (None if is_right else f"{process.returncode}: {heard}")


def held_fault(folder, words, begun):
    """What is wrong where a line of standard input is answered and the next is no command, though more could come; or None."""
    process = talking(folder, words)
    try:
        process.stdin.write(b"tick 5\n")
        heard = b""
        while len(heard) < len(begun) + 3:
            heard += process.stdout.read(1)
        process.stdin.write(b"ticks\n")
        heard += process.stdout.read()
        done = subprocess.CompletedProcess(words, process.wait(LONGEST), heard, process.stderr.read())
        number = 2 + (SCRIPT.count(b"\n") if begun else 0)
        return wrong(done, 3, begun + b"ok\nbad line %d\n" % number, b"") or lingering(process.pid)
    finally:
        process.stdin.close()


def lingering(group):
    """That a process of this group is left behind a while, or None."""
    for _ in range(100):
        try:
            os.killpg(group, 0)
        except ProcessLookupError:
            return None
        time.sleep(0.05)
    return "a process is left"


TESTS = (talks,)
