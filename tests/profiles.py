"""Tests of the two profiles of a cluster file.

What stands in a file without a profile is answered the same where `{profile, 1}. ` stands before it on the same line, so that the
lines of faults stay. That is tried with each row and each example, and by `under_profile_1` with inputs that are made: it runs
a group of tests with a program that puts these bytes before its input. The second profile is tried at its limits: 64 nodes and
128 applications, of which the last ones take part.
"""
import os
import shlex
import tempfile

import json_lines
import model
from row_files import EXAMPLE_ROWS, ROWS, row_at
from support import TOP, chain, fault_of, files_below, run

INPUT_LIMIT = 16_777_216
FRONT = b"{profile, 1}. "
SECOND = b"{profile, 2}.\n"
TWO_NODES = b"{node, a@x, []}. {node, b@x, []}."


def with_profile(text):
    """The input with the first profile before its cluster text. A script's first line stays a line."""
    if not text or text.startswith(b"===\n"):
        return FRONT.rstrip() + (b"\n" if text else b"") + text
    return FRONT + text


def first_profile(program):
    """Each row and each example is answered the same with the first profile."""
    tried = 0
    for path in files_below(ROWS) + files_below(EXAMPLE_ROWS):
        row = row_at(path)
        # Rows of command lines have no input that is read; others say their profile, or another that isn't one.
        # lint says whether a file names its profile.
        if row.status == 1 or "--whole" in row.words or row.words[0] == "lint" or b"profile" in row.input.partition(b"\n===\n")[0]:
            continue
        tried += 1
        done = run(program, row.words, input=with_profile(row.input))
        yield f"{os.path.relpath(path, TOP)} with profile 1", fault_of(done, row.status, row.output)
    yield "rows with profile 1", None if tried >= 150 else f"only {tried} rows"


def under_profile_1(group):
    """A group of tests: those of a group whose inputs all begin with a cluster file without a profile, with the first one."""

    def tests(program):
        with tempfile.TemporaryDirectory() as folder:
            path = os.path.join(folder, "with_profile")
            with open(path, "w") as file:
                file.write(f"#!/bin/sh\n{{ printf %s {shlex.quote(FRONT.decode())}; cat; }} | {shlex.quote(program)} \"$@\"\n")
            os.chmod(path, 0o755)
            for name, wrong in group(path):
                yield f"{name}, with profile 1", wrong

    tests.__name__ = f"{group.__name__} with profile 1"
    return tests


def greatest_inputs(program):
    """Inputs of 16 MiB, the profile among them, and of one byte more."""
    for profile in (FRONT, SECOND):
        front = profile + TWO_NODES
        filled = front + b"%" + b"c" * (INPUT_LIMIT - len(front) - 1)
        for word, out in ("check", b"ok 2 nodes 0 applications\n"), ("run", b""):
            name = f"{word} with {profile.decode().strip()}: "
            yield name + "16,777,216 bytes", fault_of(run(program, [word], input=filled), 0, out)
            yield name + "16,777,217 bytes", fault_of(run(program, [word], input=filled + b"c"), 4, b"")


def longer_chains(program):
    """More applications than the first profile has, each of which needs the next one: the last one starts first."""
    for count in (64, 65, 127, 128):
        names, text = chain(count)
        started = b"".join(b"started %s z normal\n" % name for name in reversed(names))
        done = run(program, ["run"], input=SECOND + text + b"boot z\n")
        yield f"a chain of {count} applications in profile 2", fault_of(done, 0, b"ok\nup z\n" + started)
        wanted = (0, b"ok\nup z\n" + started) if count == 64 else (2, b"cluster refused C3 too_many\n")
        done = run(program, ["run"], input=text + b"boot z\n")
        yield f"a chain of {count} applications", fault_of(done, *wanted)


def greatest(timeout=500):
    """64 nodes and 128 applications, with the line behind them: each application is distributed over four nodes in three groups.
    Behind the last node comes the first again."""
    nodes = [f"n{number}" for number in range(64)]
    groups = {f"a{app}": [nodes[(app + step * 21) % 64] for step in range(4)] for app in range(128)}
    entries = ", ".join("{%s, %d, [%s, {%s, %s}, %s]}" % (app, timeout, *names) for app, names in groups.items())
    text = "{profile, 2}.\n"
    for node in nodes:
        boot = ", ".join("{%s, transient}" % app for app, names in groups.items() if node in names)
        text += "{node, %s, [{kernel, [{distributed, [%s]}]}, {rehearse, [{boot, [%s]}]}]}.\n" % (node, entries, boot)
    return nodes, text + "".join("{application, %s, [{start_phases, []}]}.\n" % app for app in groups) + "===\n"


def greatest_clusters(program):
    """The greatest cluster of the second profile: nodes and applications with the greatest numbers, and names that it hasn't."""
    nodes, text = greatest()
    lines = [f"boot {node}" for node in reversed(nodes)]
    lines += ["crash n63", "crash n42", "tick 499", "boot n42", "tick 1", "show", "permit n20 a127 false", "permit n20 a127 true",
              "stop_all a127", "start_all a127 permanent", "start_all a128 permanent", "boot n64", "boot n255", "stop_all a255",
              "takeover n62 a127 temporary", "exit n62 a127 abnormal", "boot n63", "permit n63 a127 false", "permit n63 a127 true",
              "crash n0", "show", "undo", "undo", "show", "undo_all", "redo_all", "show"]
    for pick in ("first", "last"):
        whole = text + model.joined(lines)
        done = run(program, ["run", "--pick", pick], input=whole.encode())
        owed = model.run_text(whole, pick)
        short = None if owed.count("refused S") == 4 and " takeover " in owed else "the script doesn't reach what it is made for"
        yield f"64 nodes and 128 applications, pick {pick}", short or fault_of(done, 0, owed.encode())
    plans = ["plan down", "crash n63", "tick 500", "plan all", "stop_all a127", "start_all a127 temporary", "plan back",
             "permit n63 a127 false", "permit n63 a127 true", "plan none"]
    whole = text + model.joined(lines[:64] + plans)
    owed = model.sweep_text(whole).encode()
    for workers in ("1", "4"):
        done = run(program, ["sweep", "--workers", workers], input=whole.encode())
        yield f"plans of 64 nodes and 128 applications by {workers} workers", fault_of(done, 0, owed)
    search = text + model.joined(lines[:64] + ["may crash *", "steps 1", "ask always app a127 running", "ask app a0 running or down n63"])
    fault = json_lines.fault_in(json_lines.check_explore, program, ["--pick", "last"], search.encode())
    yield "a search of 64 nodes and 128 applications as JSON", fault


TESTS = (first_profile, greatest_inputs, longer_chains, greatest_clusters)
