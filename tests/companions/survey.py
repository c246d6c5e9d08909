"""Tests of companions/survey. The times that are owed are worked out by hand from docs/RULES.md."""
import json
import os
import subprocess
import tempfile

from groups import Group
from support import LONGEST_RUN, TOP, fault_of, run, without_notice

NEEDS = ("python3",)
COMPANION = os.path.join(TOP, "companions", "survey")
INPUT_LIMIT = 16_777_216
# web fails over from a@x to b@x or c@x within 5000 ms. log runs everywhere and is no distributed application. Start phases
# are none, so a failover is told as normal.
NODE = """{node, %s, [{kernel, [{distributed, [{web, 5000, [a@x, {b@x, c@x}]}, {ctl, [c@x, b@x]}]}]},
  {rehearse, [{boot, [{log, permanent}%s]}]}]}.
"""
CLUSTER = NODE % ("a@x", ", {web, permanent}") + NODE % ("b@x", ", {web, permanent}, {ctl, permanent}")
CLUSTER += NODE % ("c@x", ", {web, temporary}, {ctl, permanent}")
CLUSTER += "{application, web, []}. {application, ctl, []}. {application, log, []}.\n"
BASE = "===\nboot a@x\nboot b@x\nboot c@x\n"


def line_of(name, accepted, standings, refused=None):
    """The line of a plan: how many events were accepted, where each application stands in words, and the refused event, if one was."""
    apps = [dict(zip(("name", "standing", "node"), standing.split())) for standing in standings]
    event = {} if refused is None else {"refused": {"event": accepted + 1, "answer": f"refused {refused}"}}
    return json.dumps({"plan": name, "accepted": accepted, "failovers": 0, "takeovers": 0, **event, "applications": apps},
                      separators=(",", ":")) + "\n"


FRONT = """{"profile":1,"nodes":["a@x","b@x","c@x"],"applications":[]}
{"line":1,"command":"boot a@x","answer":"ok","notices":[{"kind":"up","node":"a@x"}]}
"""
TOLD = (FRONT + line_of("p1", 2, ["web running b@x", "ctl quiet"]) + line_of("p2", 1, ["web lost a@x", "ctl quiet"], "S5 not_alive")
        + line_of("p3", 3, ["web wanted a@x", "ctl running c@x"])
        + line_of("p4", 0, ["web wanted", "ctl running b@x"], "S17 dependency_not_started log")
        + line_of("p5", 1, ["web running a@x", "ctl running c@x"]))
SUMMED = """5 plans, 2 distributed applications
2 plans ended at an event that was refused: p2 (2 S5 not_alive), p4 (1 S17 dependency_not_started log)

web: nowhere at the end of 3 of 5 plans
  lost: p2
  wanted: p3, p4
  ran at the end at b@x (1 plan), a@x (1 plan)

ctl: nowhere at the end of 2 of 5 plans
  quiet: p1, p2
  ran at the end at c@x (2 plans), b@x (1 plan)
"""


def live_line(name, accepted, places, **more):
    """The line of a plan on live nodes: where each application runs, by the names of the nodes, and what else it tells."""
    apps = [{"name": app, "nodes": nodes.split()} for app, nodes in places]
    return json.dumps({"plan": name, "accepted": accepted, "answers": [], **more, "applications": apps, "blocked": [], "open": [],
                       **{key: value for key, value in more.items() if key in ("blocked", "open", "answers")}}, separators=(",", ":")) + "\n"


CALL = {"call": "start", "node": "b@x", "application": "web", "restart": "permanent"}
HANG = {"node": "b@x", "dist_ac": {"for": "start", "application": "web", "node": "a@x"}}
LIVE = (FRONT + live_line("p1", 2, [("web", "b@x"), ("ctl", "")])
        + live_line("p2", 1, [("web", ""), ("ctl", "")], refused={"event": 2, "answer": "refused S5 not_alive"})
        + live_line("p3", 3, [("web", "a@x b@x"), ("ctl", "c@x")], answers=[{"event": 2, "answer": "no answer"}], blocked=[HANG], open=[CALL])
        + live_line("p4", 0, [("web", "b@x"), ("ctl", "c@x")], endless=1))
LIVE_SUMMED = """4 plans on live nodes, 2 distributed applications
something hangs at the end of 1 plan: p3
an event isn't answered by ok in 1 plan: p3
an event can't be given to a node in 1 plan: p2 (2 S5 not_alive)
an event has no end in 1 plan: p4

web: nowhere at the end of 1 of 4 plans
  nowhere: p2
  at several nodes: p3
  ran at the end at b@x (2 plans), a@x and b@x (1 plan)

ctl: nowhere at the end of 2 of 4 plans
  nowhere: p1, p2
  ran at the end at c@x (2 plans)
"""


def survey(program, words, text):
    """A finished run of the companion, with an input. That lint has something is kept apart."""
    done = subprocess.run([COMPANION, "--rehearse", program, *words], input=text.encode(), capture_output=True, timeout=LONGEST_RUN)
    return without_notice(done)


def timed(program, source, words=(), options=()):
    """A finished run of the companion on the real program's sweep of an input, with its times. The program has the words too."""
    with tempfile.NamedTemporaryFile() as file:
        file.write(source.encode())
        file.flush()
        swept = run(program, ["sweep", "--json", *words], input=source.encode())
        return survey(program, ["--of", file.name, *words, *options], swept.stdout.decode())


def without_times(program):
    """A text that is summed up as it stands."""
    yield "five plans", fault_of(survey(program, [], TOLD), 0, SUMMED.encode())
    many = "".join(line_of(f"q{number}", 0, ["web wanted"]) for number in range(12))
    owed = "12 plans, 1 distributed application\n\nweb: nowhere at the end of 12 of 12 plans\n  wanted: "
    owed += ", ".join(f"q{number}" for number in range(10))
    yield "many plans", fault_of(survey(program, [], many), 0, (owed + " and 2 more\n").encode())
    yield "many plans, each named", fault_of(survey(program, ["--all"], many), 0, (owed + ", q10, q11\n").encode())
    # A text of over 3 MiB, which is read in pieces; every third plan leaves web wanted, and two are refused.
    long = "".join(line_of(f"q{number}", 0, ["web wanted" if number % 3 == 0 else "web running a@x"],
                           "S5 not_alive" if number in (0, 30_000) else None) for number in range(36_000))
    owed = """36000 plans, 1 distributed application
2 plans ended at an event that was refused: q0 (1 S5 not_alive), q30000 (1 S5 not_alive)

web: nowhere at the end of 12000 of 36000 plans
  wanted: q0, q3, q6, q9, q12, q15, q18, q21, q24, q27 and 11990 more
  ran at the end at a@x (24000 plans)
"""
    yield "a long text", fault_of(survey(program, [], long), 0, owed.encode())
    yield "a long text with CR LF", fault_of(survey(program, [], long.replace("\n", "\r\n")), 0, owed.encode())
    cut = long[:long.rindex("}")]
    wrong = b"survey: standard input: line 36000 is none that `sweep --json` prints: "
    ended = survey(program, [], cut)
    yield "a long text that is cut off", None if ended.returncode == 2 and ended.stderr.startswith(wrong) else ended.stderr.decode()
    yield "no application", fault_of(survey(program, [], FRONT + line_of("p", 0, [])), 0, b"1 plan, 0 distributed applications\n")
    # What would part a line is text within these names.
    odd = "".join(line_of(name, 0, ['web"},{"name":"ctl running ",x":', "ctl quiet"]) for name in ('p","applications":[', '\\"}', "q\\"))
    owed = """3 plans, 2 distributed applications

web"},{"name":"ctl: nowhere at the end of 0 of 3 plans
  ran at the end at ",x": (3 plans)

ctl: nowhere at the end of 3 of 3 plans
  quiet: p","applications":[, \\"}, q\\
"""
    yield "names with quotes", fault_of(survey(program, [], odd), 0, owed.encode())


# Behind the base web runs at a@x and ctl at c@x, which is the first of its list; ctl fails over at once. Each plan, and for
# each application the times without it: those that end, and the one up to the plan's end.
TIMES = {
    # The timer fires within the second tick, at 5000.
    "fails-over": ("crash a@x\ntick 2000\ntick 7000", ("web", 5000, None), ("ctl", None, None)),
    # The lost node comes back after 300 and starts it at once.
    "returns": ("crash a@x\ntick 300\nboot a@x\ntick 9000", ("web", 300, None), ("ctl", None, None)),
    # A second loss at 6000: that of b@x, which is written first. web starts at c@x at 11000.
    "twice": ("crash a@x\ntick 6000\ncrash b@x\ntick 5000", ("web", 5000, None), ("ctl", None, None)),
    # Too short a tick: it is lost for 4999 and on. ctl starts at b@x without any time.
    "too-short": ("crash c@x\ncrash a@x\ntick 4999", ("web", None, 4999), ("ctl", 0, None)),
    # Stopped at 10, started by hand at 10 + 40.
    "by-hand": ("tick 10\nstop c@x ctl\ntick 40\nstart c@x ctl permanent\ntick 3", ("web", None, None), ("ctl", 40, None)),
    # It ends by itself and isn't permanent at c@x: it is quiet up to the end. That is after 7: there is no node d@x.
    "ends": ("takeover c@x web temporary\nexit c@x web abnormal\ntick 7\nboot d@x\ntick 8", ("web", None, 7),
             ("ctl", None, None)),
    # Forbidden where it runs, it starts at another node at once; a takeover has no time without it.
    "forbidden": ("permit a@x web false\ntick 5\ntakeover c@x web permanent\ntick 5", ("web", 0, None), ("ctl", None, None)),
    # Stopped and started at all nodes: it is the standby at b@x, too, and runs at c@x again, the better one.
    "at-all-nodes": ("tick 10\nstop_all ctl\ntick 40\nstart_all ctl permanent\ntick 3", ("web", None, None), ("ctl", 40, None)),
    # Stopped everywhere while it is lost: its timer is cancelled, so nothing happens within the second tick.
    "stopped-when-lost": ("crash a@x\ntick 2000\nstop_all web\ntick 9000", ("web", None, 11000), ("ctl", None, None)),
    # The same, and it is started at b@x and c@x after 3000: before the failover time is over.
    "started-again": ("crash a@x\ntick 2000\nstop_all web\ntick 1000\nstart_all web transient\ntick 9000", ("web", 3000, None),
                      ("ctl", None, None)),
    # The plan ends at its second event, and so does its time: there is nothing more to stop.
    "stopped-twice": ("stop_all web\nstop_all web\ntick 5", ("web", None, 0), ("ctl", None, None)),
    # A local application has no other nodes: the plan ends before anything is done.
    "a-local-one": ("start_all log permanent\ncrash a@x\ntick 5", ("web", None, None), ("ctl", None, None)),
    # All nodes end; web was lost at 20 with a@x, and nobody comes back: wanted at 5020. Time goes on to 9020.
    "all-end": ("tick 20\ncrash a@x\ncrash b@x\ncrash c@x\ntick 9000", ("web", None, 9000), ("ctl", None, 9000)),
}


def time_lines(plan, over, rest):
    """The lines that are owed for the times without an application."""
    yield f"  longest time without it {over} ms: {plan}" if over is not None else "  it never ended and started again"
    if rest is not None:
        yield f"  without it to the end of the plan, for at least {rest} ms: {plan}"


def with_times(program):
    """Times of single plans."""
    for plan, (events, *told) in TIMES.items():
        done = timed(program, CLUSTER + BASE + f"plan {plan}\n{events}\n")
        for name, over, rest in told:
            block = done.stdout.decode().split(f"\n{name}: ")[-1].split("\n\n")[0].splitlines()
            have = [line for line in block if " without it" in line or "never ended" in line]
            owed = list(time_lines(plan, over, rest))
            yield f"times of {name}: {plan}", fault_of(done, 0, None) or (None if have == owed else f"{have}, want {owed}")


# What is told of both applications where web is sent away from a@x and is permitted there again, and where it ran at the end.
GIVEN_BACK = """1 plan, 2 distributed applications

web: nowhere at the end of 0 of 1 plan
  ran at the end at %s (1 plan)
  longest time without it 0 ms: given-back

ctl: nowhere at the end of 0 of 1 plan
  ran at the end at c@x (1 plan)
  it never ended and started again
"""
AT_ALL = """4 plans, 2 distributed applications
2 plans ended at an event that was refused: twice (2 S12 never_started), local (1 S9 not_distributed)

web: nowhere at the end of 2 of 4 plans
  quiet: stopped, twice
  ran at the end at a@x (2 plans)
  longest time without it 7 ms: again
  without it to the end of the plan, for at least 30 ms: stopped

ctl: nowhere at the end of 0 of 4 plans
  ran at the end at c@x (4 plans)
  it never ended and started again
"""
PLANS_AT_ALL = """plan stopped
stop_all web
tick 30
plan again
stop_all web
tick 7
start_all web permanent
plan twice
stop_all web
stop_all web
plan local
stop_all log
"""


def profiles(program):
    """Both profiles, and commands at all nodes in the base and in plans."""
    plan = "plan given-back\npermit a@x web false\ntick 5\npermit a@x web true\ntick 5\n"
    # Behind this base all runs where it ran before the commands at all nodes.
    base = BASE + "stop_all web\ntick 3\nstart_all web temporary\n"
    for name, front, node in [("no profile", "", "b@x"), ("profile 1", "{profile, 1}. ", "b@x"),
                              ("profile 2", "% Mine.\n{profile, 2}.\n", "a@x")]:
        done = timed(program, front + CLUSTER + BASE + plan)
        yield f"a permission given back, {name}", fault_of(done, 0, (GIVEN_BACK % node).encode())
        done = timed(program, front + CLUSTER + base + PLANS_AT_ALL)
        yield f"at all nodes, {name}", fault_of(done, 0, AT_ALL.encode())
    # The output of one profile, the input of the other: web doesn't end where the output tells.
    swept = run(program, ["sweep", "--json"], input=("{profile, 2}.\n" + CLUSTER + BASE + plan).encode()).stdout.decode()
    with tempfile.NamedTemporaryFile() as file:
        file.write((CLUSTER + BASE + plan).encode())
        file.flush()
        done = survey(program, ["--of", file.name], swept)
    is_told = b"plan given-back ends otherwise than the output tells" in done.stderr
    yield "the other profile", None if is_told and done.returncode == 2 and done.stdout == b"" else f"{done}"


def greatest():
    """The greatest cluster of profile 2, with plans, and what is told of it. Application pK runs at one of 64 nodes, and fails over
    to the next one within 10 * (K + 1) ms. Each plan crashes one node, with which two applications are lost."""
    places = [(number % 64, (number + 1) % 64) for number in range(128)]
    entries = ", ".join(f"{{p{app}, {10 * (app + 1)}, [n{first}, n{second}]}}" for app, (first, second) in enumerate(places))
    text = "{profile, 2}.\n"
    for node in range(64):
        boot = ", ".join(f"{{p{app}, permanent}}" for app, pair in enumerate(places) if node in pair)
        text += f"{{node, n{node}, [{{kernel, [{{distributed, [{entries}]}}]}}, {{rehearse, [{{boot, [{boot}]}}]}}]}}.\n"
    text += "".join(f"{{application, p{app}, []}}.\n" for app in range(128))
    text += "===\n" + "".join(f"boot n{node}\n" for node in range(64))
    text += "".join(f"plan n{node}\ncrash n{node}\ntick 2000\n" for node in range(64))
    told = "64 plans, 128 distributed applications\n"
    for app, (first, second) in enumerate(places):
        # Where it ran stands in the order of the plans: with the first node p0 and p64 are lost.
        rows = [f"n{first} (63 plans)", f"n{second} (1 plan)"]
        told += f"\np{app}: nowhere at the end of 0 of 64 plans\n  ran at the end at {', '.join(rows if first else rows[::-1])}\n"
        told += f"  longest time without it {10 * (app + 1)} ms: n{first}\n"
    return text, told


def limits(program):
    """As many nodes and applications as profile 2 has, and more than profile 1 has; and plans of nearly 16 MiB."""
    text, told = greatest()
    done = timed(program, text)
    yield "64 nodes and 128 applications", fault_of(done, 0, told.encode())
    done = timed(program, text.removeprefix("{profile, 2}.\n"))
    is_right = done.returncode == 2 and b"the sweep was refused: cluster refused C3 too_many" in done.stderr
    yield "64 nodes of profile 1", None if is_right and done.stdout == b"" else f"{done}"
    # Events of some 260 bytes. With the undo that the companion adds for each they are more than the program reads at once.
    name = "n" * 253 + "@x"
    events = f"crash {name}\nboot {name}\n" * 3_960
    text = f"{{node, {name}, []}}.\n===\nboot {name}\n" + "".join(f"plan p{number}\n{events}tick 1\n" for number in range(8))
    sizes = len(text), len(text) + 8 * 7_921 * len("undo\n")
    yield "the size of long plans", None if sizes[0] <= INPUT_LIMIT < sizes[1] else f"{sizes}"
    yield "long plans", fault_of(timed(program, text), 0, b"8 plans, 0 distributed applications\n")


# b@x waits for nobody any longer at 900: then it comes up and web, which is wanted since 700, starts there.
LATE = """{node, a@x, [{kernel, [{distributed, [{web, 700, [a@x, b@x]}]}, {sync_nodes_timeout, 900}]},
  {rehearse, [{boot, [{web, permanent}]}]}]}.
{node, b@x, [{kernel, [{distributed, [{web, 700, [a@x, b@x]}]}, {sync_nodes_optional, [a@x]}, {sync_nodes_timeout, 900}]},
  {rehearse, [{boot, [{web, permanent}]}]}]}.
{application, web, []}.
===
boot a@x
tick 900
plan late
crash a@x
boot b@x
tick 10000
"""


def several(program):
    """The times of many plans, and one within a tick of two timers."""
    done = timed(program, LATE)
    yield "two timers in a tick", fault_of(
        done, 0, b"1 plan, 1 distributed application\n\nweb: nowhere at the end of 0 of 1 plan\n"
        b"  ran at the end at b@x (1 plan)\n  longest time without it 900 ms: late\n")
    # Plan pK loses a@x for K ms. From 5000 on it fails over: then that is the longest time. 1,300 plans.
    text = CLUSTER + BASE + "".join(
        f"plan p{length}\ncrash a@x\ntick {length}\nboot a@x\n" for length in [*range(3701, 5001), 6000])
    done = timed(program, text)
    wrong = None if b"  longest time without it 5000 ms: p5000, p6000\n" in done.stdout else f"{done.stdout}"
    yield "1,301 plans", fault_of(done, 0, None) or wrong
    # Two nodes of a tuple are alike: by --pick last it is c@x.
    text = CLUSTER + BASE + "plan p\ncrash a@x\ntick 5000\n"
    done = timed(program, text, ["--pick", "last"])
    yield "--pick last", fault_of(done, 0, None) or (None if b"at c@x (1 plan)" in done.stdout else f"{done.stdout}")


# Behind BASE web runs at a@x and ctl at c@x. Each plan crashes nodes, and time passes; the last one is refused.
LOSSES = {"a": "crash a@x", "ab": "crash a@x\ncrash b@x", "bc": "crash b@x\ncrash c@x", "abc": "crash a@x\ncrash b@x\ncrash c@x",
          "bca": "crash b@x\ncrash c@x\ncrash a@x", "back": "crash a@x\ncrash b@x\ncrash c@x\nboot c@x"}
# web needs one of its three nodes, ctl one of c@x and b@x; web starts at c@x again where that boots, behind 5000 ms.
LEAST = {"web": "least losses that leave it wanted: a@x+b@x+c@x", "ctl": "least losses that leave it wanted: b@x+c@x"}


def losses(program):
    """The least sets of lost nodes with which no node can run an application."""
    plans = "".join(f"plan {name}\n{events}\ntick 5000\n" for name, events in LOSSES.items())
    done = timed(program, CLUSTER + BASE + plans, options=["--least"])
    blocks = {block.split(":")[0]: block for block in done.stdout.decode().split("\n\n")[1:]}
    have = {app: blocks.get(app, "").splitlines()[-1].strip() for app in LEAST}
    yield "the least losses", fault_of(done, 0, None) or (None if have == LEAST else f"{have}\n{done.stdout.decode()}")
    done = timed(program, CLUSTER + BASE + "plan a\ncrash a@x\ntick 5000\n", options=["--least"])
    yield "no loss", None if done.stdout.count(b"least losses that leave it wanted: none\n") == 2 else f"{done}"
    # No node is lost where it is forbidden everywhere.
    plan = "plan p\ncrash c@x\npermit b@x ctl false\nplan q\npermit c@x ctl false\npermit b@x ctl false\n"
    done = timed(program, CLUSTER + BASE + plan, options=["--least"])
    yield "no node", None if b"least losses that leave it wanted: no node\n" in done.stdout else f"{done}"


def failing(program):
    """The status of a pipeline, and what is named for it."""
    good = CLUSTER + BASE + "plan p\ntick 5\n"
    moved = CLUSTER + BASE + "plan p\ncrash a@x\ntick 5000\n"
    lost = CLUSTER + BASE + "plan p\ncrash a@x\ncrash a@x\nplan q\nstop c@x ctl\n"
    every = ["--fail-if", "nowhere", "--fail-if", "moved", "--fail-if", "refused"]
    for name, text, words, told in (
            ("nothing", good, every, []), ("moved", moved, every, ["moved: web in 1 plan"]), ("not asked", moved, every[:2], []),
            ("nowhere, refused", lost, every, ["nowhere: web in 1 plan, ctl in 1 plan", "refused: an event in 1 plan"]),
            ("refused alone", lost, every[-2:], ["refused: an event in 1 plan"])):
        done = timed(program, text, options=words)
        owed = (9 if told else 0, "".join(f"survey: --fail-if {line}\n" for line in told))
        is_right = (done.returncode, done.stderr.decode()) == owed and done.stdout.startswith((b"1 plan, ", b"2 plans, "))
        yield f"--fail-if: {name}", None if is_right else f"{done}"
    done = survey(program, ["--fail-if", "nowhere", "--fail-if", "refused"], TOLD)
    told = "nowhere: web in 3 plans, ctl in 2 plans", "refused: an event in 2 plans"
    is_right = done.stderr.decode() == "".join(f"survey: --fail-if {line}\n" for line in told) and done.stdout == SUMMED.encode()
    yield "--fail-if without --of", None if is_right and done.returncode == 9 else f"{done}"
    for words, told in ((["--fail-if", "moved"], "--fail-if moved needs --of INPUT"), (["--least"], "--least needs --of INPUT"),
                        (["--fail-if", "lost"], "invalid choice: 'lost'")):
        done = survey(program, words, TOLD)
        yield f"refused: {told}", None if done.returncode == 1 and told in done.stderr.decode() and not done.stdout else f"{done}"


def of_live_nodes(program):
    """A sweep on live nodes: what hangs, what runs nowhere, and what runs twice."""
    yield "four plans on live nodes", fault_of(survey(program, [], LIVE), 0, LIVE_SUMMED.encode())
    every = ["--fail-if", "hangs", "--fail-if", "twice", "--fail-if", "nowhere", "--fail-if", "refused"]
    done = survey(program, every, LIVE)
    told = ("refused: an event in 1 plan", "hangs: something in 1 plan", "nowhere: web in 1 plan, ctl in 2 plans", "twice: web in 1 plan")
    is_right = (done.returncode, done.stderr.decode(), done.stdout) == (9, "".join(f"survey: --fail-if {line}\n" for line in told), LIVE_SUMMED.encode())
    yield "--fail-if on live nodes", None if is_right else f"{done}"
    good = FRONT + live_line("p1", 2, [("web", "b@x"), ("ctl", "c@x")])
    owed = "1 plan on live nodes, 2 distributed applications\n\n"
    owed += "\n".join(f"{app}: nowhere at the end of 0 of 1 plan\n  ran at the end at {node} (1 plan)\n" for app, node in (("web", "b@x"), ("ctl", "c@x")))
    yield "a plan in which all is well", fault_of(survey(program, every, good), 0, owed.encode())
    many = FRONT + "".join(live_line(f"q{number}", 0, [("web", "")]) for number in range(12))
    owed = "12 plans on live nodes, 1 distributed application\n\nweb: nowhere at the end of 12 of 12 plans\n  nowhere: "
    owed += ", ".join(f"q{number}" for number in range(10))
    yield "many plans on live nodes", fault_of(survey(program, [], many), 0, (owed + " and 2 more\n").encode())
    yield "each of many named", fault_of(survey(program, ["--all"], many), 0, (owed + ", q10, q11\n").encode())
    done = survey(program, ["--of", "x"], LIVE)
    told = "--of doesn't go with a sweep on live nodes"
    yield "no times on live nodes", None if done.returncode == 1 and told in done.stderr.decode() and not done.stdout else f"{done}"
    done = survey(program, [], LIVE + live_line("p5", 0, [("web", "b@x")]))
    told = "line 7: plan p5 tells of other applications than the first one"
    yield "another application", None if done.returncode == 2 and told in done.stderr.decode() and not done.stdout else f"{done}"


def faults(program):
    """What isn't a sweep's output, or not that of this input."""
    good = "plan p\ncrash a@x\ntick 5000\n"
    swept = run(program, ["sweep", "--json"], input=(CLUSTER + BASE + good).encode()).stdout.decode()
    # What the program itself prints in place of outcomes.
    for name, text, told in [("a plan's line", CLUSTER + BASE + "plan p\nundo\n", "bad line 5 (counted behind ===)"),
                             ("a base", CLUSTER + BASE + "undo\nplan p\n", "sweep refused V2 base_not_at_end"),
                             ("a cluster", "{node", "cluster refused C1 T1 syntax line 1")]:
        done = survey(program, [], run(program, ["sweep", "--json"], input=text.encode()).stdout.decode())
        is_right = done.returncode == 2 and done.stderr.decode() == f"survey: standard input: the sweep was refused: {told}\n"
        yield f"refused for {name}", None if is_right else f"{done}"
    for name, text, told in [
            ("no plans", FRONT, "standard input: it has no outcome of a plan, so it isn't what `sweep --json` printed"),
            ("lines for people", "ok\nup a@x\nplan p accepted 0 failovers 0 takeovers 0\n",
             "standard input: line 1 is none that `sweep --json` prints: ok\n"),
            ("nothing", "", "standard input: it is empty"),
            ("a refused sweep", FRONT + '{"refused":"V3","reason":"trail_room"}\n',
             "standard input: the sweep was refused: sweep refused V3 trail_room\n"),
            ("a bad line", FRONT.split("\n")[0] + '\n{"line":5,"bad":true}\n', "standard input: the sweep was refused: bad line 5 (counted behind ===)\n"),
            ("a refused cluster", '{"refused":"C2","reason":"no_nodes"}\n',
             "standard input: the sweep was refused: cluster refused C2 no_nodes\n"),
            ("another object", '{"line":1}\n', 'standard input: line 1 is no outcome of a plan: {"line":1}\n'),
            ("other text", TOLD + "hello\n", "line 8 is none that `sweep --json` prints: hello"),
            ("a command behind a plan", TOLD + FRONT, "line 8 is no outcome of a plan: "),
            ("a plan of other applications", TOLD + line_of("p6", 0, ["web quiet"]),
             "line 8: plan p6 tells of other applications than the first one\n")]:
        done = survey(program, [], text)
        is_right = done.returncode == 2 and done.stdout == b"" and told in done.stderr.decode()
        yield f"refused: {name}", None if is_right else f"{done}"
    for name, other, told in [
            ("other names", good.replace("plan p", "plan q"), "it doesn't tell of the 1 plans of"),
            ("another number", good + good, "it doesn't tell of the 2 plans of"),
            ("more events", good + "tick 1\n", "plan p has other events in"),
            ("other events", good.replace("crash a@x", "crash c@x"), "plan p ends otherwise than the output tells"),
            ("a refused event", good.replace("tick 5000", "crash a@x"), "plan p ends otherwise than the output tells"),
            ("no command", good.replace("crash a@x", "smash a@x"),
             f"line {CLUSTER.count(chr(10)) + 6} (line 5 behind ===): it is no command here: smash a@x\n")]:
        with tempfile.NamedTemporaryFile() as file:
            file.write((CLUSTER + BASE + other).encode())
            file.flush()
            done = survey(program, ["--of", file.name], swept)
        is_right = done.returncode == 2 and done.stdout == b"" and told in done.stderr.decode()
        yield f"refused: {name}", None if is_right else f"{done}"
    done = survey(program, ["--nonsense"], "")
    yield "a wrong command line", fault_of(done, 1, b"")
    done = survey(program, ["/nowhere/output"], "")
    yield "no file", fault_of(done, 2, b"") if b"/nowhere/output: No such file" not in done.stderr else None


TESTS = (Group(limits, is_long=True), without_times, with_times, profiles, several, losses, failing, of_live_nodes, faults)
