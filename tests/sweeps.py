"""Tests of `sweep`: inputs that are made here, with what is owed for them."""
import os
import random

from support import ARGUMENTS, EVENT_WORDS, TOP, fault_of, read, run

EXAMPLE = os.path.join(TOP, "examples", "five-nodes-sweep.txt")
TWO_NODES = b"{node, a@x, []}. {node, b@x, []}.\n===\n"
TRAIL_LIMIT = 65_535


def five_nodes():
    """The cluster file of the example, with the line behind it, and the commands of its base. Start phases are defined for
    each application, so that a start elsewhere is told as a failover."""
    cluster, script = read(EXAMPLE).split(b"===\n", 1)
    for name in (b"ledger", b"gateway", b"monitor"):
        cluster = cluster.replace(b"{application, %s, []}." % name, b"{application, %s, [{start_phases, [{go, []}]}]}." % name)
    base = [line for line in script.split(b"plan ", 1)[0].splitlines() if line and not line.startswith(b"#")]
    return cluster + b"===\n", base


def random_event(chance):
    """An event of the five nodes, which may be refused."""
    node = chance.choice(["core1@site", "core2@site", "edge1@site", "edge2@site", "edge3@site"])
    app = chance.choice(["ledger", "gateway", "monitor"])
    given = {"node": node, "app": app, "restart": chance.choice(["permanent", "transient", "temporary"]),
             "milliseconds": str(chance.choice([1, 999, 1000, 3000])), "truth": chance.choice(["true", "false"]),
             "ending": chance.choice(["normal", "abnormal"])}
    word = chance.choice(["crash", *EVENT_WORDS])
    return " ".join([word, *(given[kind] for kind in ARGUMENTS[word])]).encode()


def answers(output):
    """The answers of a run, each as its lines."""
    found = []
    for line in output.splitlines():
        if line == b"ok" or line.startswith(b"refused "):
            found.append([])
        found[-1].append(line)
    return found


def owed_for(program, cluster, base, name, events):
    """The text of a plan, as `run` has it: behind the base, and behind each event, the state is shown."""
    script = base + [b"show"] + [line for event in events for line in (event, b"show")]
    told = answers(run(program, ["run"], input=cluster + b"\n".join(script) + b"\n").stdout)[len(base):]
    state, accepted, failovers, takeovers, refused = told[0], 0, 0, 0, b""
    for step, (answer, state) in enumerate(zip(told[1::2], told[2::2])):
        if answer[0] != b"ok":
            refused = answer[0].replace(b"refused", b"refused %d" % (step + 1), 1) + b"\n"
            break
        accepted += 1
        starts = [line for line in answer if line.startswith(b"started ")]
        failovers += sum(b" failover " in line for line in starts)
        takeovers += sum(b" takeover " in line for line in starts)
    apps = b"".join(line + b"\n" for line in state if line.startswith(b"app "))
    return b"plan %s accepted %d failovers %d takeovers %d\n" % (name, accepted, failovers, takeovers) + refused + apps


def random_plans(program):
    """200 plans: each has the outcome that `run` gives to its events, for every number of workers."""
    cluster, base = five_nodes()
    chance = random.Random(8)
    plans = [(b"p%d" % (number % 150), [random_event(chance) for _ in range(chance.randrange(13))]) for number in range(200)]
    owed = run(program, ["run"], input=cluster + b"\n".join(base) + b"\n").stdout
    owed += b"".join(owed_for(program, cluster, base, name, events) for name, events in plans)
    lines = b"".join(b"plan %s\n" % name + b"".join(b"%s\n" % event for event in events) for name, events in plans)
    for workers in ("1", "2", "4", "16"):
        done = run(program, ["sweep", "--workers", workers], input=cluster + b"\n".join(base) + b"\n" + lines)
        yield f"200 random plans by {workers} workers", fault_of(done, 0, owed)


def many_events(program):
    """The events of the base and of a plan fill a trail, or are one more."""
    base, answered = b"tick 1\n" * 65_000, b"ok\n" * 65_000
    left = TRAIL_LIMIT - 65_000
    text = TWO_NODES + base + b"plan full\n" + b"tick 1\n" * left
    full = b"plan full accepted %d failovers 0 takeovers 0\n" % left
    yield "65,535 events of base and plan", fault_of(run(program, ["sweep"], input=text), 0, answered + full)
    refused = answered + b"sweep refused V3 trail_room\n"
    yield "65,536 events of base and plan", fault_of(run(program, ["sweep"], input=text + b"tick 1\n"), 6, refused)
    text = TWO_NODES + b"plan %s\n" % (b"q" * 100_000) + b"tick 1\n" * TRAIL_LIMIT
    full = b"plan %s accepted 65535 failovers 0 takeovers 0\n" % (b"q" * 100_000)
    yield "65,535 events of a plan with a long name", fault_of(run(program, ["sweep", "--workers", "4"], input=text), 0, full)
    refused = b"sweep refused V3 trail_room\n"
    done = run(program, ["sweep", "--workers", "4"], input=text + b"tick 1\nplan short\n")
    yield "65,536 events of a plan", fault_of(done, 6, refused)


TESTS = (random_plans, many_events)
