#!/usr/bin/env python3
"""Prints how long the built program takes, and its peak memory: benchmark.py PROGRAM [--against OTHER] [WORD..]

The table has a row for each input: the subcommand, what the input is, its size in MiB, the exit status, the seconds, those of
all processors together, and the peak memory in MiB. First come rehearsals of a cluster of 32 nodes and 64 applications, each of
which is distributed over eight nodes, and sweeps of 20,000 plans of 10 to 30 events from a base of 100 steps; then those of
64 nodes and 128 applications in the second profile, of 32 live nodes by the rules of OTP 25, and searches through all failures of small
clusters. Then come the inputs of hostile_texts.py, which are made to take long or much memory. Where words are given, these are the rows
whose text has them all.

A run is ended after 20 seconds, and is refused memory behind 4 GiB; its output is thrown away. Nothing is asserted: the times
depend on the machine. With --against another program that takes the same command line is measured in turn with this one
(against.py).
"""
import os
import random
import subprocess
import sys
import tempfile

import against
import hostile_texts
from explored import whole_search
from hostile_texts import MIB
from support import chain

LONGEST, GREATEST = 20, 4_096


def large(front=b"", node_count=32, app_count=64):
    """So many nodes and applications, each of these distributed over eight nodes in four groups."""
    nodes = [b"n%d@lab" % number for number in range(node_count)]
    lists = {}
    for app in range(app_count):
        eight = [nodes[(app + step) % node_count] for step in range(8)]
        lists[b"a%d" % app] = eight
    entries = b", ".join(
        b"{%s, 500, [{%s, %s}, {%s, %s}, {%s, %s}, {%s, %s}]}" % (name, *eight) for name, eight in lists.items())
    text = front
    for node in nodes:
        boot = b", ".join(b"{%s, temporary}" % name for name, eight in lists.items() if node in eight)
        text += b"{node, %s, [{kernel, [{distributed, [%s]}]}, {rehearse, [{boot, [%s]}]}]}.\n" % (node, entries, boot)
    return nodes, text + b" ".join(b"{application, %s, []}." % name for name in lists) + b"\n===\n"


def steps(nodes, count):
    """All nodes boot; then one after the other crashes, time passes, and it boots again."""
    script = [b"boot %s" % node for node in nodes]
    turn = 0
    while len(script) < count:
        node = nodes[turn % len(nodes)]
        script += [b"crash %s" % node, b"tick 700", b"boot %s" % node, b"tick 100"]
        turn += 1
    return b"\n".join(script[:count]) + b"\n"


def listed(node_count=32, app_count=8):
    """So many nodes that wait for one another, and applications, each of these distributed over four nodes one behind the other."""
    nodes = [b"n%d@lab" % number for number in range(node_count)]
    lists = {b"a%d" % app: [nodes[(4 * app + step) % node_count] for step in range(4)] for app in range(app_count)}
    entries = b", ".join(b"{%s, 500, [%s]}" % (name, b", ".join(four)) for name, four in lists.items())
    text = b"{profile, 2}.\n"
    for node in nodes:
        others = b", ".join(other for other in nodes if other != node)
        boot = b", ".join(b"{%s, temporary}" % name for name, four in lists.items() if node in four)
        text += (b"{node, %s, [{kernel, [{distributed, [%s]}, {sync_nodes_optional, [%s]}, {sync_nodes_timeout, 1000}]}, "
                 b"{rehearse, [{boot, [%s]}]}]}.\n" % (node, entries, others, boot))
    return nodes, text + b" ".join(b"{application, %s, []}." % name for name in lists) + b"\n===\n"


def ticks(nodes, count):
    """All nodes boot, and then time passes."""
    return b"".join(b"boot %s\n" % node for node in nodes) + b"tick 1\n" * (count - len(nodes))


def plans(nodes, count):
    """Each plan has 10 to 30 events, none of which is refused: nodes crash, time passes, and they boot again."""
    chance = random.Random(1)
    lines = []
    for number in range(count):
        lines.append(b"plan p%d" % number)
        left, down = chance.randint(10, 30), []
        for _ in range(left):
            turn = chance.randrange(3)
            if turn == 0 and down:
                lines.append(b"boot %s" % down.pop())
            elif turn == 1 and len(down) < 8:
                down.append(chance.choice([node for node in nodes if node not in down]))
                lines.append(b"crash %s" % down[-1])
            else:
                lines.append(b"tick %d" % chance.randint(1, 700))
    return b"\n".join(lines) + b"\n"


def everywhere(nodes, app_count, count):
    """All nodes boot; then one application after the other stops at all its nodes and starts there again."""
    script = [b"boot %s" % node for node in nodes]
    for turn in range((count - len(nodes)) // 2):
        app = turn % app_count
        script += [b"stop_all a%d" % app, b"start_all a%d temporary" % app]
    return b"\n".join(script) + b"\n"


def permissions(nodes, app_count, count):
    """All nodes boot; then one application after the other may not run at its first node, and may again."""
    script = [b"boot %s" % node for node in nodes]
    for turn in range((count - len(nodes)) // 2):
        app = turn % app_count
        script += [b"permit %s a%d %s" % (nodes[app % len(nodes)], app, allow) for allow in (b"false", b"true")]
    return b"\n".join(script) + b"\n"


def rehearsals(kind, front, node_count, app_count):
    """Triples as those of hostile_texts.py, of a large cluster of this kind."""
    nodes, text = large(front, node_count, app_count)
    yield ["run"], f"a step in which {app_count} applications start, in a chain", lambda: front + chain(app_count)[1] + b"boot z\n"
    yield ["run"], f"2,000 steps of {kind}", lambda: text + steps(nodes, 2_000)
    yield ["run"], f"200 times show of {kind}", lambda: text + steps(nodes, node_count) + b"show\n" * 200
    for name, script in [
            ("ticks", ticks(nodes, 60_000)), ("crashes and boots", steps(nodes, 60_000)),
            ("stops and starts at all nodes", everywhere(nodes, app_count, 60_000)),
            ("permissions taken and given back", permissions(nodes, app_count, 60_000))]:
        yield ["run"], f"60,000 {name} of {kind}", lambda script=script: text + script
        yield ["run"], f"60,000 {name} of {kind}, 40 times undone and redone", lambda script=script: (
            text + script + b"undo_all\nredo_all\n" * 40)
        # These two are wanted in at most three times the time of the first, of one processor.
        for word in ("story", "verify"):
            yield [word], f"60,000 {name} of {kind}", lambda script=script: text + script
    # Behind so many steps all nodes are up.
    for workers in ("1", "2", "4", "16"):
        yield ["sweep", "--workers", workers], f"20,000 plans of {kind} by {workers} workers", lambda: (
            text + steps(nodes, node_count + 68) + plans(nodes, 20_000))


def live_rehearsals():
    """Triples as those of hostile_texts.py, by the rules of OTP 25."""
    nodes, text = listed()
    for count in (2_000, 60_000):
        yield ["run", "--rules", "otp25"], f"{count:,} crashes, boots and ticks of 32 live nodes", lambda count=count: text + steps(nodes, count)


def searches():
    """Triples as those of hostile_texts.py: searches through all crashes and boots, while time passes in steps of a second."""
    three, six = "examples/any-failures.txt", "tests/clusters/six-nodes.txt"
    yield ["explore"], "1,755 states of three nodes", lambda: whole_search(three).encode()
    for workers in ("1", "2", "4"):
        yield ["explore", "--workers", workers], f"250,130 states of six nodes by {workers} workers", lambda: whole_search(six).encode()


# Runs the program from a process that is small: a peak counts that of the process that it began as.
MEASURING = """
import os, resource, subprocess, sys, time

def limit():
    resource.setrlimit(resource.RLIMIT_AS, (int(sys.argv[2]) << 20,) * 2)

begin = time.monotonic()
process = subprocess.Popen(sys.argv[3:], preexec_fn=limit)
try:
    process.wait(int(sys.argv[1]))
except subprocess.TimeoutExpired:
    process.kill()
    process.wait()
used = resource.getrusage(resource.RUSAGE_CHILDREN)
print(process.returncode, time.monotonic() - begin, used.ru_utime + used.ru_stime, used.ru_maxrss / 1024, file=sys.stderr)
"""


def measured(program, text, words):
    """The exit status of a run, its seconds, those of all processors, and its own peak memory in MiB, which is at least that of
    a small Python."""
    with tempfile.TemporaryFile() as source:
        source.write(text)
        source.seek(0)
        call = [sys.executable, "-c", MEASURING, str(LONGEST), str(GREATEST), program, *words]
        done = subprocess.run(call, stdin=source, stdout=subprocess.DEVNULL, stderr=subprocess.PIPE, check=True)
    status, *numbers = done.stderr.split()
    return int(status), *map(float, numbers)


def rows():
    yield from rehearsals("a large cluster", b"", 32, 64)
    yield from rehearsals("the second profile", b"{profile, 2}.\n", 64, 128)
    yield from live_rehearsals()
    yield from searches()
    yield from hostile_texts.texts()


def main():
    if len(sys.argv) < 2:
        sys.exit(__doc__)
    program, wanted = os.path.abspath(sys.argv[1]), sys.argv[2:]
    print(f"{os.cpu_count()} processors\n")
    if wanted[:1] == ["--against"] and len(wanted) > 1:
        chosen = [it for it in against.workloads(large, steps, plans) if all(word in f"{it.words} {it.name}" for word in wanted[2:])]
        against.print_table(program, os.path.abspath(wanted[1]), chosen)
        return
    print("| Command | Input | MiB | Status | Seconds | of all processors | Peak MiB |")
    print("|---|---|---|---|---|---|---|")
    for words, name, make in rows():
        if not all(word in " ".join([*words, name]) for word in wanted):
            continue
        text = make()
        status, seconds, used, peak = measured(program, text, words)
        ended = f"over {LONGEST}" if status == -9 else f"{seconds:.2f}"
        shown = "ended" if status == -9 else status
        shown_words = " ".join(words[:3] if words[1:2] == ["--rules"] else words[:1])
        print(f"| {shown_words} | {name} | {len(text) / MIB:.1f} | {shown} | {ended} | {used:.2f} | {peak:.0f} |", flush=True)


if __name__ == "__main__":
    main()
