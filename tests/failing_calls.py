"""The built program over devices of which each call fails in turn: a library that is loaded before the others gives or takes at
most so many bytes a call, and fails at the read or the write of a number."""
import os
import sys
import tempfile

from groups import Group
from support import fault_of, library_of, read, run

# Counts the reads of standard input and the writes to standard output in the file COUNT_FILE. FAIL_CALL is `read` or `write`,
# FAIL_NUMBER the call's number from 1, and FAIL_HOW the error, or 0 for an answer of 0 bytes.
DEVICES = r"""
#define _GNU_SOURCE
#include <dlfcn.h>
#include <errno.h>
#include <fcntl.h>
#include <stdlib.h>
#include <string.h>
#include <sys/mman.h>
#include <unistd.h>
static long *count, piece, failing;
static int is_read, how;
__attribute__((constructor)) static void begin(void) {
  int file = open(getenv("COUNT_FILE"), O_RDWR | O_CREAT | O_TRUNC, 0600);
  if (file < 0 || ftruncate(file, 2 * sizeof *count) != 0) abort();
  count = mmap(NULL, 2 * sizeof *count, PROT_READ | PROT_WRITE, MAP_SHARED, file, 0);
  if (count == MAP_FAILED) abort();
  close(file);
  piece = atol(getenv("PIECE"));
  failing = atol(getenv("FAIL_NUMBER"));
  how = atoi(getenv("FAIL_HOW"));
  is_read = strcmp(getenv("FAIL_CALL"), "read") == 0;
}
/* Does this call fail? */
static int fails(int reads) {
  return ++count[reads ? 0 : 1] == failing && reads == is_read;
}
ssize_t read(int file, void *to, size_t size) {
  static ssize_t (*inner)(int, void *, size_t);
  if (!inner) inner = dlsym(RTLD_NEXT, "read");
  if (file != 0) return inner(file, to, size);
  if (fails(1)) { errno = how; return -1; }
  return inner(file, to, size < (size_t)piece ? size : (size_t)piece);
}
ssize_t write(int file, const void *from, size_t size) {
  static ssize_t (*inner)(int, const void *, size_t);
  if (!inner) inner = dlsym(RTLD_NEXT, "write");
  if (file != 1) return inner(file, from, size);
  if (fails(0)) { errno = how; return how ? -1 : 0; }
  return inner(file, from, size < (size_t)piece ? size : (size_t)piece);
}
"""
EINTR, EIO, EAGAIN, NO_BYTES = 4, 5, 11, 0

CLUSTER = b"{node, a@x, []}. {node, b@x, []}.\n===\n"
INPUTS = {
    "check": (CLUSTER, b"ok 2 nodes 0 applications\n"),
    "run": (CLUSTER + b"boot a@x\nboot a@x\nshow\n", b"ok\nup a@x\nrefused S3 already_alive\nok\nnow 0\nnode a@x up 1\nnode b@x down 0\n"),
    "story": (CLUSTER + b"boot a@x\n# again\nboot a@x\n",
              b"boot a@x\n#= ok\n#= up a@x\n# again\nboot a@x\n#= refused S3 already_alive\n"),
    "verify": (CLUSTER + b"boot a@x\n#= ok\n#= up a@x\n#? node a@x up 1\nundo\n", b"ok 1 of 2 commands checked\n"),
    "sessions": (CLUSTER + b"2 undo\n", b"entry 2 undo\nrefused at_start\nfinal\nnow 0\nnode a@x down 0\nnode b@x down 0\n"),
    "sweep": (CLUSTER + b"boot a@x\nplan p\nplan q\ncrash b@x\n", b"ok\nup a@x\nplan p accepted 0 failovers 0 takeovers 0\n"
              b"plan q accepted 0 failovers 0 takeovers 0\nrefused 1 S5 not_alive\n"),
    "explore": (CLUSTER + b"boot a@x\nmay crash *\nmay boot *\nsteps 1\n", b"ok\nup a@x\nexplored 3 states deepest 1 up to 1 steps\n"),
    "explore --json": (b"{application, web, []}. " + CLUSTER + b"boot a@x\nmay crash a@x\nask app web running or down b@x\n",
                       b'{"profile":1,"nodes":["a@x","b@x"],"applications":[{"name":"web","distributed":false}]}\n'
                       b'{"line":1,"command":"boot a@x","answer":"ok","notices":[{"kind":"up","node":"a@x"}]}\n'
                       b'{"states":2,"deepest":1,"finished":true}\n{"ask":1,"holds":true}\n'),
    "explore --rules otp25": (CLUSTER + b"boot a@x\nmay crash *\nmay boot *\nsteps 1\nask nothing hangs\n",
                              b"ok\nup a@x\nexplored 3 lists up to 1 steps\nholds\n"),
    "explore --rules otp25 --json": (b"{application, web, []}. " + CLUSTER + b"boot a@x\nmay crash a@x\nask app web once or down b@x\n",
                                     b'{"profile":1,"nodes":["a@x","b@x"],"applications":[{"name":"web","distributed":false}]}\n'
                                     b'{"line":1,"command":"boot a@x","answer":"ok","notices":[{"kind":"up","node":"a@x"}]}\n'
                                     b'{"lists":2,"finished":true}\n{"ask":1,"holds":true}\n'),
    "run --rules otp25": (CLUSTER + b"boot a@x\nboot a@x\nshow\n",
                          b"ok\nup a@x\nrefused S3 already_alive\nok\nnow 0\nnode a@x up 1\nnode b@x down 0\n"),
    "story --rules otp25": (CLUSTER + b"boot a@x\n# again\nboot a@x\n",
                            b"boot a@x\n#= ok\n#= up a@x\n# again\nboot a@x\n#= refused S3 already_alive\n"),
    "verify --rules otp25": (CLUSTER + b"boot a@x\n#= ok\n#= up a@x\n#? node a@x up 1\nundo\n", b"ok 1 of 2 commands checked\n"),
    "sweep --rules otp25": (CLUSTER + b"boot a@x\nplan p\nplan q\ncrash b@x\n",
                            b"ok\nup a@x\nplan p accepted 0\nplan q accepted 0\nrefused 1 S5 not_alive\n"),
    "run --rules otp25 --interactive": (CLUSTER + b"boot a@x\n# again\nboot a@x\nundo", b"ok\nup a@x\nrefused S3 already_alive\nok\n"),
    "run --interactive": (CLUSTER + b"boot a@x\n# again\nboot a@x\nundo", b"ok\nup a@x\nrefused S3 already_alive\nok\n"),
    "run --interactive --json": (CLUSTER + b"boot a@x\nboot a@x", b'{"profile":1,"nodes":["a@x","b@x"],"applications":[]}\n'
                                 b'{"line":1,"command":"boot a@x","answer":"ok","notices":[{"kind":"up","node":"a@x"}]}\n'
                                 b'{"line":2,"command":"boot a@x","answer":"refused S3 already_alive"}\n'),
}


class Devices:
    """The program over such devices."""

    def __init__(self, program, folder):
        self.program, self.library, self.counted = program, library_of(DEVICES, folder), os.path.join(folder, "count")

    def over(self, word, piece, call, number, how):
        """The finished run."""
        return run(self.program, word.split(), input=INPUTS[word][0], env={
            **os.environ, "LD_PRELOAD": self.library, "COUNT_FILE": self.counted, "PIECE": str(piece), "FAIL_CALL": call,
            "FAIL_NUMBER": str(number), "FAIL_HOW": str(how)})

    def counts(self):
        """How many reads and writes there were in the last run."""
        kept = read(self.counted)
        return [int.from_bytes(kept[at:at + 8], sys.byteorder) for at in (0, 8)]


def failed_fault(devices, word, piece, call, count, how):
    """What is wrong where each of so many calls fails in turn, or None: status 4, and nothing was written behind a failed read,
    and a front of the text behind a failed write; so it is behind a failed read, too, where lines are answered as they come. The buffer
    before standard output makes a write that was interrupted again, as std's does: then the status is 0, and the text is whole."""
    text = INPUTS[word][1]
    for number in range(1, count + 1):
        done = devices.over(word, piece, call, number, how)
        if (call, how, done.returncode) == ("write", EINTR, 0):
            wrong = fault_of(done, 0, text)
        else:
            # What the buffer still held may come behind the failure.
            is_late = call == "write" or "--interactive" in word
            is_front = text.startswith(done.stdout) if is_late else done.stdout == b""
            wrong = fault_of(done, 4, None) or (None if is_front else f"{done.stdout!r} was written")
        if wrong is not None:
            return f"{call} {number}: {wrong}"
    return None


def failing_calls(program, word):
    """Readers and writers of one byte, seven bytes and all bytes a call, each call of which fails in turn."""
    source, text = INPUTS[word]
    with tempfile.TemporaryDirectory() as folder:
        devices = Devices(program, folder)
        for piece in (1, 7, 1_000_000):
            whole = fault_of(devices.over(word, piece, "read", 0, EIO), 0, text)
            reads, writes = devices.counts()
            # The last read tells the end.
            enough = reads > len(source) // piece and writes >= len(text) // piece
            yield f"{word}: {piece} bytes a call", whole or (None if enough else f"{reads} reads, {writes} writes")
            for call, count, errors in ("read", reads, (EINTR, EIO, EAGAIN)), ("write", writes, (EINTR, EIO, NO_BYTES)):
                for how in errors[:1] + errors[2:] if piece == 1 else errors:
                    name = f"{word}: each of {count} calls of {call} fails with {how}, {piece} bytes a call"
                    yield name, failed_fault(devices, word, piece, call, count, how)


TESTS = (Group(failing_calls, tuple(INPUTS), needs=("cc",)),)
