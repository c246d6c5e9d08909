"""Whole runs of the built program with each allocation refused in turn, by a library that is loaded before the others."""
import os
import sys
import tempfile

from groups import Group
from row_files import row_at
from support import TOP, fault_of, library_of, read, run

RUNS = ("rows/bare-nodes/two-bare-nodes", "rows/sessions/one-session-all-calls", "examples/waiting-nodes",
        "examples/local-applications", "examples/failover-and-takeover", "examples/three-nodes",
        "rows/sweep/plans-by-1-workers", "rows/sweep/plans-by-2-workers", "rows/story/firings", "rows/story/reasons",
        "rows/story/waits-for", "rows/verify/report", "rows/json/report", "rows/json/failover", "rows/json/names",
        "rows/json/refused-and-bad", "rows/json/fault-value", "rows/json/sweep-not-at-end",
        "rows/manner/echo-and-strict", "rows/manner/echo-of-a-bad-line", "rows/manner/interactive", "rows/otp25/answered-late",
        "rows/otp25/interactive", "rows/otp25/explore-few-lists",
        "rows/json/interactive", "rows/explore/verdicts", "rows/json/sweep", "rows/json/sweep-base-alone", "rows/json/explore")

# Refuses the allocation of the number in FAIL_ALLOCATION, counted from 1, and keeps in the file COUNT_FILE how many there
# were: a program with threads ends without running what would be run at its end.
REFUSING = r"""
#define _GNU_SOURCE
#include <dlfcn.h>
#include <fcntl.h>
#include <stdlib.h>
#include <sys/mman.h>
#include <unistd.h>
static long refused = -1, before_begin = 0;
static long *count = &before_begin;
__attribute__((constructor)) static void begin(void) {
  const char *text = getenv("FAIL_ALLOCATION");
  const char *path = getenv("COUNT_FILE");
  int file = path ? open(path, O_RDWR | O_CREAT | O_TRUNC, 0600) : -1;
  if (text) refused = atol(text);
  if (file >= 0 && ftruncate(file, sizeof *count) == 0) {
    long *kept = mmap(NULL, sizeof *count, PROT_READ | PROT_WRITE, MAP_SHARED, file, 0);
    if (kept != MAP_FAILED) { *kept = *count; count = kept; }
  }
  if (file >= 0) close(file);
}
void *malloc(size_t size) {
  static void *(*inner)(size_t);
  if (!inner) inner = dlsym(RTLD_NEXT, "malloc");
  return __sync_add_and_fetch(count, 1) == refused ? NULL : inner(size);
}
void *realloc(void *p, size_t size) {
  static void *(*inner)(void *, size_t);
  if (!inner) inner = dlsym(RTLD_NEXT, "realloc");
  return __sync_add_and_fetch(count, 1) == refused ? NULL : inner(p, size);
}
"""


def refusals(program, library, counted, row):
    """Each allocation of a row's run refused in turn: how many there were, and what is wrong, or None."""

    def refusing(number):
        return run(program, row.words, input=row.input, env={
            **os.environ, "LD_PRELOAD": library, "FAIL_ALLOCATION": str(number), "COUNT_FILE": counted})

    wrong = fault_of(refusing(0), row.status, row.output)
    count = int.from_bytes(read(counted), sys.byteorder)
    missed = 0
    for number in range(1, count + 1):
        done = refusing(number)
        missed += done.returncode == 5
        is_whole = done.returncode == row.status and done.stdout == row.output
        is_front = done.returncode == 5 and row.output.startswith(done.stdout)
        if wrong is None and not (is_whole or is_front):
            wrong = f"allocation {number}: status {done.returncode}, {done.stdout!r}"
    # A growth that only would save room may be done without; most can't.
    if wrong is None and missed < 50:
        wrong = f"of {count} allocations only {missed} were missed"
    return count, wrong


def refused_memory(program, name):
    """Each allocation of a whole run refused in turn: the whole text, or status 5 and a front of it."""
    row = row_at(os.path.join(TOP, "tests", name + ".row"))
    with tempfile.TemporaryDirectory() as folder:
        count, wrong = refusals(program, library_of(REFUSING, folder), os.path.join(folder, "count"), row)
        yield f"{row.words[0]}: each of {count} allocations refused in turn", wrong


TESTS = (Group(refused_memory, RUNS, needs=("cc",)),)
