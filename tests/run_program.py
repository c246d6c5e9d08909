#!/usr/bin/env python3
"""Tests the built program: run_program.py [--times] PROGRAM [ROW..]

The worked rows are the files GROUP/NAME.row in tests/rows (row_files.py says what stands in one). Each example of the
repository, examples/NAME.txt, has its row tests/examples/NAME.row, without an input: that is the example. A file in these
folders that is no such row is a failed test. Then come inputs that are too large for a file, which are made here, devices that
fail, and memory (refused_memory.py), more devices (hostile.py) and each of their calls (failing_calls.py), cut inputs
(prefixes.py), sweeps (sweeps.py), texts that are no terms (term_faults.py), cluster files at the limits (cluster_limits.py), both
profiles (profiles.py), random scripts beside a model (random_scripts.py), searches beside the model (explored.py) and of states whose
keys would collide (colliding_keys.py), runs whose lines are answered as they come (dialogues.py), what is told as
JSON (json_lines.py), what lint owes for the examples and for mistaken inputs (linted.py), what it tells of random rehearsals, by a
second way and beside live nodes (lint_measure.py), rehearsals by the rules of OTP 25 beside their model (live_rules.py), as JSON (live_json.py), their stories (live_stories.py),
plans (live_sweeps.py), searches (live_explore.py) and what lint tells of them (live_lint.py), beside the rules of `run` (agreement.py), in several orders of messages (confluence.py) and beside the laws of `run` (live_laws.py), stories of the
examples (stories.py), rows by pytest (pytest_items.py), the scripts that run, build and ship the program (shipped.py), what ./rehearse
does in front of it (front.py, front_talks.py) and tells of refused files (places.py), the packages of it (package.py), one of them installed (own_root.py), the benchmark's inputs (benched.py) and the documents (check_docs.py). Calls that the
programs `rh_growths` and `rh_part_growths` beside PROGRAM make have their growths of memory counted and refused, and have to leave all
as it was (growths.py). All of it runs side by side on all processors (groups.py).
The last line is 'N passed, M failed'. Where paths of rows are given, these alone are run.
"""
import os
import re
import subprocess
import sys
import tempfile
import traceback

# No file is left behind.
sys.dont_write_bytecode = True
import agreement  # noqa: E402
import benched  # noqa: E402
import check_docs  # noqa: E402
import colliding_keys  # noqa: E402
import confluence  # noqa: E402
import dialogues  # noqa: E402
import explored  # noqa: E402
import failing_calls  # noqa: E402
import front  # noqa: E402
import front_talks  # noqa: E402
import growths  # noqa: E402
import hostile  # noqa: E402
import json_lines  # noqa: E402
import lint_measure  # noqa: E402
import linted  # noqa: E402
import live_explore  # noqa: E402
import live_json  # noqa: E402
import live_laws  # noqa: E402
import live_lint  # noqa: E402
import live_rules  # noqa: E402
import live_stories  # noqa: E402
import live_sweeps  # noqa: E402
import made_pages  # noqa: E402
import own_root  # noqa: E402
import package  # noqa: E402
import places  # noqa: E402
import prefixes  # noqa: E402
import profiles  # noqa: E402
import pytest_items  # noqa: E402
import random_scripts  # noqa: E402
import refused_memory  # noqa: E402
import shipped  # noqa: E402
import stories  # noqa: E402
import sweeps  # noqa: E402
from cluster_limits import cluster_limits  # noqa: E402
from groups import Group, command_line, finish  # noqa: E402
from no_threads import without_threads  # noqa: E402
from row_files import EXAMPLE_ROWS, EXAMPLES, ROWS, RowFault, example_row, row_at  # noqa: E402
from support import COMMANDS, TOP, chain, example_files, fault_of, files_below, read, run  # noqa: E402
from term_faults import term_faults  # noqa: E402

# Chance decides how its sessions take turns, so it has no row.
BY_CHANCE = os.path.join(EXAMPLES, "two-operators.txt")
TWO_NODES = b"{node, a@x, []}. {node, b@x, []}."
INPUT_LIMIT = 16_777_216


def row_fault(program, path):
    """What is wrong with a row, or with what the program answers to it, or None. Whatever goes wrong here is the fault of this row
    alone."""
    try:
        row = row_at(path)
        return fault_of(run(program, row.words, input=row.input), row.status, row.output)
    except (RowFault, OSError, subprocess.SubprocessError) as fault:
        return str(fault)
    except Exception:
        return traceback.format_exc()


def is_row(path):
    """Whether a file of tests/rows has the place and the name of a row."""
    return re.fullmatch(r"[^/]+/[^/]+\.row", os.path.relpath(path, ROWS)) is not None


def row_folders():
    """The folders of rows."""
    return sorted({os.path.dirname(path) for path in files_below(ROWS) if is_row(path)})


def rows(program, folder):
    """The rows of a folder."""
    for path in filter(is_row, files_below(folder)):
        yield os.path.splitext(os.path.relpath(path, ROWS))[0], row_fault(program, path)


def strays(_program):
    """Each file of tests/rows is a row."""
    yield "tests/rows", None if row_folders() else "there is no row"
    for path in files_below(ROWS):
        if not is_row(path):
            yield f"tests/rows/{os.path.relpath(path, ROWS)}", "it is no row: a row is a file tests/rows/GROUP/NAME.row"


def examples(program):
    """Each example but the one of chance has its row, and each file of tests/examples is a row of one."""
    owed = set()
    for example in example_files():
        name = f"examples/{os.path.relpath(example, EXAMPLES)}"
        path = example_row(example)
        if example == BY_CHANCE:
            yield name, history_fault(program, read(example))
            continue
        owed.add(path)
        missing = f"it has no row {os.path.relpath(path, TOP)}"
        yield name, row_fault(program, path) if os.path.exists(path) else missing
    for path in files_below(EXAMPLE_ROWS):
        if path not in owed:
            yield os.path.relpath(path, TOP), "it is no example's row: that of examples/NAME.txt is tests/examples/NAME.row"


def history_fault(program, source):
    """What is wrong with a run of sessions, or None: the log has each session's commands, all and in their order, and its
    answers are those that `run` gives to the same commands in the order of the log."""
    done = run(program, ["sessions"], input=source)
    wrong = fault_of(done, 0, None)
    if wrong is not None:
        return wrong
    cluster, script = source.split(b"\n===\n", 1)
    owed = [line.split(b" ", 1) for line in script.splitlines() if line.split() and not line.startswith(b"#")]
    lines = done.stdout.splitlines(keepends=True)
    entries = [line.rstrip(b"\n").split(b" ", 2)[1:] for line in lines if line.startswith(b"entry ")]
    for session in sorted({session for session, _ in owed} | {session for session, _ in entries}):
        if [entry for entry in entries if entry[0] == session] != [entry for entry in owed if entry[0] == session]:
            return f"the log hasn't the commands of session {session.decode()} in their order"
    calls = b"".join(command + b"\n" for _, command in entries)
    alone = run(program, ["run"], input=cluster + b"\n===\n" + calls + b"show\n")
    answers = b"".join(b"ok\n" if line == b"final\n" else line for line in lines if not line.startswith(b"entry "))
    return fault_of(alone, 0, answers)


def several_sessions(program):
    """Two and eight sessions at once: whatever the turns, the log is one caller's."""
    commands = [b"boot a@x", b"undo", b"crash a@x", b"boot b@x", b"redo", b"show", b"undo_all", b"redo_all", b"tick 5",
                b"crash b@x", b"boot nobody"]
    for count in (2, 8):
        script = b"".join(b"%d %s\n" % (turn % count + 1, commands[turn * 7 % len(commands)]) for turn in range(40 * count))
        # A name that no node has is shown as a question mark, so it is left out here.
        script = b"".join(line for line in script.splitlines(keepends=True) if b"nobody" not in line)
        wrong = None
        for _ in range(10):
            wrong = wrong or history_fault(program, TWO_NODES + b"\n===\n" + script)
        yield f"{count} sessions at once", wrong
    undone = b"entry 1 undo\nrefused at_start\n" * 65_535 + b"final\nnow 0\nnode a@x down 0\nnode b@x down 0\n"
    done = run(program, ["sessions"], input=TWO_NODES + b"\n===\n" + b"1 undo\n" * 65_535)
    yield "65,535 commands of a session", fault_of(done, 0, undone)
    done = run(program, ["sessions"], input=TWO_NODES + b"\n===\n" + b"1 undo\n" * 65_536)
    yield "65,536 commands of a session", fault_of(done, 3, b"bad line 65536\n")


def command_lines(program):
    """What a newcomer reads: help and version go to standard error, with status 1."""
    for words, texts in [
            (["--help"], [b"rehearse", b"run", b"Exit status", *(b"\n  %d  " % status for status in (0, 1, 2, 3, 4, 5, 6, 9)),
                          b"docs/SCRIPTS.md", b"docs/LIVE_OTP.md", b"<< 'EOF'"]),
            (["run", "--help"], [b"--pick", b"--echo", b"--strict", *(f"\n  {it['usage']} ".encode() for it in COMMANDS),
                                 b"1 to 10^12", b"milliseconds",
                                 b"app A quiet", b"app A wanted", b"app A running N", b"app A lost N",
                                 b"from 1 behind `===`", b"docs/SCRIPTS.md"]),
            (["check", "--help"], [b"{profile, Number}", b"{node, Name, SysConfig}", b"{application, Name, Keys}",
                                   b"cluster refused", b"distributed", b"sync_nodes_timeout", b"permissions", b"boot",
                                   b"platform", b"0 to 10^12 milliseconds", b"32 nodes and 64 applications", b"profile 2",
                                   b"64 and 128", b"docs/CLUSTER_FILES.md"]),
            (["sessions", "--help"], [b"--pick", b"entry S COMMAND", b"final", b"1 boot a@x", b"docs/SCRIPTS.md"]),
            (["sweep", "--help"], [b"--pick", b"--rules", b"--workers", b"plan NAME accepted K failovers K takeovers K", b"bad line K", b"V2",
                                   b"V3", b"plan NAME accepted K\n", b"docs/SCRIPTS.md"]),
            (["story", "--help"], [b"--pick", b"--rules", b"--whole", b"#- N blocked", b"docs/SCRIPTS.md"]),
            (["verify", "--help"], [b"--pick", b"--rules", b"#? TEXT"]),
            (["explore", "--help"], [b"--pick", b"--rules", b"--workers", b"--states", b"--memory", b"--json", b"may EVENT", b"ask app A running",
                                     b"ask nothing hangs", b"ask app A once", b"explored K states", b"explored K lists", b"bad line K", b"unfinished", b"docs/SCRIPTS.md"]),
            (["--version"], [b"rehearse 0.1.0"])]:
        done = run(program, words, input=b"")
        missing = [text for text in texts if text not in done.stderr]
        yield " ".join(words), fault_of(done, 1, b"") or (f"standard error lacks {missing}" if missing else None)
    # What the words of a run mean together is asked behind clap: the text says which don't fit.
    for words, text in (
            (["--pick", "7"], b"--pick takes first or last, and a number only with --rules otp25"),
            (["--pick", "middle"], b"--pick takes first or last, and a number only with --rules otp25"),
            (["--rules", "otp25", "--pick", "0"], b"with --rules otp25, --pick takes first, last or a number from 1 to 2147483646"),
            (["--rules", "otp25", "--pick", "2147483647"], b"with --rules otp25, --pick takes first, last or a number from 1 to 2147483646"),
            (["--rules", "otp25", "--interactive", "--strict"], b"--json and --interactive go with neither --echo nor --strict"),
            (["--rules", "otp25", "--json", "--echo"], b"--json and --interactive go with neither --echo nor --strict"),
            (["--json", "--strict"], b"--json and --interactive go with neither --echo nor --strict"),
            (["--rules", "otp25", "--all"], b"--all doesn't go with --rules otp25, by which all steps are told of")):
        # The options of rules are told alike wherever they are taken.
        every = ("run", "lint", "story", "verify", "sweep", "explore") if b"--pick" in text else ("lint",) if "--all" in words else ("run",)
        for word in every:
            done = run(program, [word, *words], input=b"")
            yield " ".join([word, *words]), fault_of(done, 1, b"") or (None if text in done.stderr else f"standard error: {done.stderr}")
    # What refuses a word that isn't UTF-8 is clap: its text has the usage.
    done = run(program, [b"run", b"\xff"], input=b"")
    is_refused = done.stderr.startswith(b"error: ") and b"Usage: rehearse" in done.stderr
    yield "a word that isn't UTF-8", fault_of(done, 1, b"") or (None if is_refused else f"standard error: {done.stderr}")


def full_inputs(program):
    filled = TWO_NODES + b" " * (INPUT_LIMIT - len(TWO_NODES))
    yield "16,777,216 bytes", fault_of(run(program, ["run"], input=filled), 0, b"")
    yield "16,777,217 bytes", fault_of(run(program, ["run"], input=filled + b" "), 4, b"")


def large_inputs(program):
    turns = b"boot a@x\ncrash a@x\n" * 9_998 + b"boot a@x\nboot a@x\ncrash a@x\nboot a@x\n"
    # At its last start it is alive, which is the first reason to refuse another.
    answers = b"ok\nup a@x\nok\nended a@x\n" * 9_998 + b"ok\nup a@x\nrefused S3 already_alive\nok\nended a@x\n"
    done = run(program, ["run"], input=TWO_NODES + b"\n===\n" + turns)
    yield "a node starts 9,999 times", fault_of(done, 0, answers + b"refused S4 incarnation_limit\n")
    sample = row_at(os.path.join(ROWS, "whole-files", "sample-cluster-3.row")).input + b"===\n"
    started = b"ok\nup one@lab\n" + b"".join(b"started %s one@lab normal\n" % app for app in (b"a", b"b", b"c"))
    done = run(program, ["run"], input=sample + b"boot one@lab\ncrash one@lab\n" * 9_999 + b"boot one@lab\n")
    yield "a node with three applications starts 9,999 times", fault_of(
        done, 0, (started + b"ok\nended one@lab\n") * 9_999 + b"refused S4 incarnation_limit\n")
    done = run(program, ["run"], input=sample + b"tick 1\n" * 65_536 + b"undo\ntick 1\n")
    yield "a trail has 65,535 ticks", fault_of(done, 0, b"ok\n" * 65_535 + b"refused S18 trail_full\nok\nok\n")
    nodes = [b"n%d" % number for number in range(4)]
    text = b" ".join(b"{node, %s, []}." % node for node in nodes)
    steps = [(b"boot", b"up") if step // 4 % 2 == 0 else (b"crash", b"ended") for step in range(65_535)]
    script = b"".join(b"%s %s\n" % (command, nodes[step % 4]) for step, (command, _) in enumerate(steps))
    answers = b"".join(b"ok\n%s %s\n" % (notice, nodes[step % 4]) for step, (_, notice) in enumerate(steps))
    done = run(program, ["run"], input=text + b"\n===\n" + script + b"boot n0\nundo\ncrash n2\nundo_all\n")
    yield "a trail has 65,535 events", fault_of(
        done, 0, answers + b"refused S18 trail_full\nok\nok\nended n2\nok 65535\n")


def long_chains(program):
    """Applications that each need the next one of the list, started in the worst order: the last one starts first."""
    for count in (1, 2, 64):
        names, text = chain(count)
        started = b"".join(b"started %s z normal\n" % name for name in reversed(names))
        done = run(program, ["run"], input=text + b"boot z\n")
        yield f"a chain of {count} applications", fault_of(done, 0, b"ok\nup z\n" + started)
        # The last one may not run: nothing can start. Then it may, and all follow it.
        forbidding = text.replace(b"{rehearse", b"{kernel, [{permissions, [{%s, false}]}]}, {rehearse" % names[-1])
        waits = b"".join(b"waits %s z\n" % name for name in names)
        done = run(program, ["run"], input=forbidding + b"boot z\npermit z %s true\n" % names[-1])
        yield f"a forbidden chain of {count}", fault_of(done, 0, b"ok\nup z\n" + waits + b"ok\n" + started)


def failing_devices(program):
    row = row_at(os.path.join(ROWS, "bare-nodes", "two-bare-nodes.row"))
    with open("/dev/full", "wb") as full:
        done = run(program, row.words, input=row.input, stdout=full)
    yield "output to a full device", fault_of(done, 4, None)
    folder = os.open("/", os.O_RDONLY)
    done = run(program, ["run"], stdin=folder)
    os.close(folder)
    yield "input from a folder", fault_of(done, 4, b"")


def no_threads(program):
    """Sessions, sweeps and searches where each thread is refused: one part of the work is done after the other, with the same text."""
    with tempfile.TemporaryDirectory() as folder:
        alone, refused = without_threads(program, folder)
        wrong = history_fault(alone, read(BY_CHANCE))
        yield "sessions without threads", wrong or (None if refused() else "no thread was asked for")
        for kind in ("sweep", "explore", "otp25"):
            for path in files_below(os.path.join(ROWS, kind)):
                row = row_at(path)
                if "--workers" in row.words and row.status in (0, 6, 9, 10):
                    done = run(alone, row.words, input=row.input)
                    yield f"{os.path.relpath(path, ROWS)} without threads", fault_of(done, row.status, row.output)
            yield f"rows of {kind} without threads", None if refused() else "no thread was asked for"
        for workers in (1, 2, 5, 16):
            done = run(alone, ["sweep", "--workers", str(workers)], input=read(sweeps.EXAMPLE))
            # The caller's own thread is one of the workers.
            asked, owed = refused(), workers - 1
            wrong = None if done.returncode == 0 and asked == owed else f"status {done.returncode}, {asked} threads in place of {owed}"
            yield f"threads that a sweep by {workers} asks for", wrong
            done = run(alone, ["sweep", "--rules", "otp25", "--workers", str(workers)], input=read(sweeps.EXAMPLE))
            # There each worker but the last gets as many plans, so that fewer may do.
            plans = read(sweeps.EXAMPLE).count(b"\nplan ")
            asked, owed = refused(), -(-plans // ((plans - 1) // workers + 1)) - 1
            wrong = None if done.returncode == 0 and asked == owed else f"status {done.returncode}, {asked} threads in place of {owed}"
            yield f"threads that a sweep on live nodes by {workers} asks for", wrong
            done = run(alone, ["explore", "--workers", str(workers)], input=read(os.path.join(TOP, "examples", "any-failures.txt")))
            # So it is each time that states are shared out, however often that is.
            asked, owed = refused(), workers - 1
            is_so = asked > 0 and asked % owed == 0 if owed else asked == 0
            wrong = None if done.returncode == 9 and is_so else f"status {done.returncode}, {asked} threads in place of {owed} each time"
            yield f"threads that a search by {workers} asks for", wrong


def named_rows(program, path):
    """The row of a path."""
    yield path, row_fault(program, path)


# The worked rows. By pytest each of them is an item.
WORKED = Group(rows, row_folders())
# What makes its inputs itself, for cluster files without a profile.
MADE = (term_faults, large_inputs, long_chains, *sweeps.TESTS)
# The worked rows, the examples, what fails (devices, memory, threads), what docs/make makes of the documents, and ./rehearse.
QUICK = (*made_pages.TESTS, *refused_memory.TESTS, *failing_calls.TESTS, *hostile.TESTS, WORKED, strays, examples, failing_devices,
         Group(no_threads, needs=("cc",)), *shipped.TESTS, *front.TESTS, *front_talks.TESTS, *places.TESTS, *stories.TESTS, *linted.TESTS,
         *colliding_keys.TESTS, *dialogues.TESTS, *pytest_items.TESTS)
# Those that take longest begin first.
ALL = (*prefixes.TESTS, *growths.TESTS, *lint_measure.TESTS, *live_rules.TESTS, *live_explore.TESTS, *live_sweeps.TESTS, *live_stories.TESTS, *live_lint.TESTS, *confluence.TESTS, *agreement.TESTS, *live_laws.TESTS, *live_json.TESTS,
       *random_scripts.TESTS, *explored.TESTS, *benched.TESTS, *json_lines.TESTS,
       *check_docs.TESTS, *package.TESTS, *own_root.TESTS, *QUICK, *MADE, *map(profiles.under_profile_1, MADE), *profiles.TESTS, cluster_limits,
       command_lines, full_inputs, several_sessions)


def main():
    line = command_line(__doc__)
    line.add_argument("rows", nargs="*")
    given = line.parse_args()
    finish([Group(named_rows, given.rows)] if given.rows else ALL, given.program, shows_times=given.times)


if __name__ == "__main__":
    main()
