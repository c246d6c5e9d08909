"""Tests of the random rehearsals for real nodes, without nodes: what the generator makes, and how records of them are counted.

What the nodes did in the records here is written by hand, from docs/LIVE_OTP.md and from scripts of tests/live that real nodes
made.
"""
import json
import os
import re
import subprocess
import sys
from collections import Counter

import model_cluster
from live_conditions import breaks_of, careful, told
from live_figures import as_json, cases_of, differing_text, figures_of, judged, met, Told
from live_records import BadRecord, Command, Record, Try, record_of, records_of
from random_live import FEWEST, MOST, MOST_TICKS, rehearsal, rehearsals
from support import LONGEST_RUN, TOP, in_folder, run

NEEDS = ("python3",)
SEEDS = range(300)
TESTS_OF_LIVE = os.path.join(TOP, "tests")


# ---- The generator


def parts_of(made):
    """The cluster of a rehearsal, as the tests' own reader has it, its text, and the commands."""
    front, script = made.text.split("\n===\n")
    return model_cluster.cluster_of(front + "\n"), front, script.splitlines()


def from_the_seed_alone(_):
    """Another process, in which sets have another order, makes the same texts."""
    asked = "import random_live, sys; sys.stdout.write(''.join(one.text for one in random_live.rehearsals(0, 60)))"
    texts = [subprocess.run([sys.executable, "-B", "-c", asked], cwd=TESTS_OF_LIVE, capture_output=True, text=True,
                            env={**os.environ, "PYTHONHASHSEED": number}, timeout=LONGEST_RUN).stdout for number in ("1", "2")]
    owed = "".join(rehearsal(seed).text for seed in range(60))
    yield "the same text for the same seed", None if texts == [owed, owed] else "another process makes other texts"
    texts = {one.text for one in rehearsals(0, 60)}
    yield "another text for another seed", None if len(texts) == 60 else f"{60 - len(texts)} texts are there twice"


def accepted(program):
    """The program accepts each cluster and each command's form, and refuses few commands."""
    commands = refused = 0
    for made in rehearsals(SEEDS.start, len(SEEDS)):
        done = run(program, ["run"], input=made.text.encode())
        answers = [line for line in done.stdout.decode().splitlines() if re.match("(ok$|refused )", line)]
        count = len(parts_of(made)[2])
        if done.returncode != 0 or len(answers) != count:
            yield f"seed {made.seed} is accepted", f"status {done.returncode}, {len(answers)} answers to {count} commands"
            return
        commands += count
        refused += sum(line.startswith("refused ") for line in answers)
    yield "300 seeds are accepted", None
    yield "few commands are refused", None if 0 < refused < 0.05 * commands else f"{refused} of {commands}"


def sane_fault(cluster, text):
    """What a `sane` cluster has otherwise than the page advises, or None."""
    everyone = set(range(len(cluster.nodes)))
    orders = [[app for app, _ in node.boot] for node in cluster.nodes]
    for number, node in enumerate(cluster.nodes):
        if not everyone - {number} <= {*node.mandatory, *node.optional} or not isinstance(node.wait, int) or node.wait < 1000:
            return f"{node.name}: its lists or its timeout"
        early = [need for place, app in enumerate(orders[number]) for need in cluster.apps[app].needs
                 if isinstance(need, int) and need not in orders[number][:place]]
        if early:
            return f"{node.name}: boots {early} too late"
        mine = orders[number]
        if any([app for app in mine if app in other] != [app for app in other if app in mine] for other in orders):
            return f"{node.name}: its boot order"
    for number, app in enumerate(cluster.apps):
        for group in app.spread.groups if app.spread else []:
            names = [cluster.nodes[node].name for node in group]
            if names != sorted(names) or any(number not in orders[node] for node in group):
                return f"{app.name}: its tuple, or who boots it"
    return None if cluster.profile == 2 and text.startswith("{profile, 2}.") else "its profile"


def kinds(_):
    """What each kind is said to be."""
    seen, pairs = Counter(), Counter()
    for made in rehearsals(SEEDS.start, len(SEEDS)):
        cluster, text, commands = parts_of(made)
        wrong = sane_fault(cluster, text)
        if made.kind == "sane" and wrong:
            yield f"seed {made.seed} is sane", wrong
        seen[made.kind, "not sane"] += wrong is not None
        note_shares(cluster, made.kind, pairs)
        note_sizes(cluster, text, commands, made.kind, seen)
    kinds_of = [rehearsal(seed).kind for seed in range(4)]
    yield "half of the seeds are sane", None if kinds_of == ["sane", "wild"] * 2 else f"{kinds_of}"
    yield "most wild ones aren't", None if seen["wild", "not sane"] > 120 else f"{seen}"
    for what, least, most in (("false", 0.04, 0.08), ("more platform", 0.03, 0.08)):
        have = pairs[what] / pairs["booted" if what == "false" else "nodes"]
        yield f"how many are {what} in sane ones", None if least < have < most else f"{have}"
    yield "sizes", f"{seen['bad']}" if seen["bad"] else None
    for what in ("2 nodes", "6 nodes", "1 apps", "5 apps", "local", "tuple", "needs", "phases", "5 commands", "13 commands"):
        for kind in ("sane", "wild"):
            yield f"{kind}: {what}", None if seen[kind, what] >= 3 else f"seen {seen[kind, what]} times"
    for what in ("profile 1", "no profile", "undefined", "infinity", "no timeout", "0", "incomplete", "false", "platform",
                 "crossed"):
        yield f"wild: {what}", None if seen["wild", what] >= 2 else f"seen {seen['wild', what]} times"


def note_shares(cluster, kind, pairs):
    """Counts what a sane cluster has of false permissions and of platform names."""
    if kind == "sane":
        for node in cluster.nodes:
            pairs["booted"] += len(node.boot)
            pairs["false"] += len(node.forbidden)
            pairs["nodes"] += 1
            pairs["more platform"] += "crypto" in node.platform


def note_sizes(cluster, text, commands, kind, seen):
    """Counts what a rehearsal has."""
    words = [line.split() for line in commands]
    ticks = [int(one[1]) for one in words if one[0] == "tick"]
    is_right = 2 <= len(cluster.nodes) <= 6 and 1 <= len(cluster.apps) <= 5 and FEWEST <= len(commands) <= MOST
    is_right = is_right and sum(ticks) <= MOST_TICKS + 20_000 and all(time >= 1_000 and time % 500 == 0 for time in ticks)
    is_right = is_right and not {"undo", "redo", "undo_all", "redo_all"}.intersection(word for word, *_ in words)
    seen["bad"] += not is_right
    spreads = [app.spread for app in cluster.apps if app.spread]
    booted = [[app for app, _ in node.boot] for node in cluster.nodes]
    has = {f"{len(cluster.nodes)} nodes", f"{len(cluster.apps)} apps", f"{len(commands)} commands"}
    has |= {what for what, is_there in (
        ("local", len(spreads) < len(cluster.apps)), ("tuple", any(len(group) > 1 for one in spreads for group in one.groups)),
        ("needs", any(app.needs for app in cluster.apps)), ("phases", any(app.has_phases for app in cluster.apps)),
        ("profile 1", "{profile, 1}." in text), ("no profile", "{profile, " not in text),
        ("undefined", "timeout, undefined}" in text), ("infinity", "timeout, infinity}" in text), ("0", "timeout, 0}" in text),
        ("no timeout", "sync_nodes_timeout" not in text), ("false", any(node.forbidden for node in cluster.nodes)),
        ("platform", len({len(node.platform) for node in cluster.nodes}) > 1),
        ("incomplete", any(len({*node.mandatory, *node.optional}) < len(cluster.nodes) - 1 for node in cluster.nodes)),
        ("crossed", any([a for a in one if a in two] != [a for a in two if a in one] for one in booted for two in booted)))
        if is_there}
    seen.update((kind, what) for what in has)


# ---- Records and figures

NODE = """{node, %s, [{kernel, [{distributed, [{svc, 0, [a@x, b@x]}]}, {sync_nodes_optional, [a@x, b@x]},
  {sync_nodes_timeout, 9000}]}, {rehearse, [{boot, [{svc, permanent}]}]}]}.
"""
SCRIPT = "boot a@x\nboot b@x\npermit a@x svc false\n"
TEXT = "{profile, 2}.\n" + NODE % "a@x" + NODE % "b@x" + "{application, svc, []}.\n===\n" + SCRIPT
UP = [["ok"], ["ok", "up a@x", "up b@x", "started svc a@x normal", "waits svc b@x"]]
# By the rules it stops first; live nodes start it at the other node before.
BY_RULES = ["ok", "stopped svc a@x", "started svc b@x normal"]
BY_NODES = ["ok", "started svc b@x takeover a@x", "stopped svc a@x"]


def made_of(last, late=()):
    """A try of that rehearsal, with what the nodes did at its last command."""
    commands = [line for line in TEXT.split("\n===\n")[1].splitlines()]
    answers = [*UP, last]
    return Try(1, 1, 1.0, [Command(number, line, [], nodes, [], True, True, list(late) if nodes is last else [])
                           for number, (line, nodes) in enumerate(zip(commands, answers), 1)])


def counting(program, folder):
    """Hand-made records are counted."""
    cases = [("as live nodes do", [made_of(BY_NODES)]), ("as the rules say", [made_of(BY_RULES)]),
             ("late, and then as live nodes do", [made_of(["no answer"], ["timer sync a@x 9000"]), made_of(BY_NODES)]),
             ("it hangs", [made_of(["no answer"])]), ("nothing came of it", [Try(1, 1, 1.0, [], "status 4: no nodes")])]
    for number, (_, tries) in enumerate(cases):
        Record(number, ("sane", "wild")[number % 2], TEXT, "25.2.3", tries).save(folder)
    found = cases_of(program, records_of(folder))
    counted = figures_of(found)
    owed = {"rehearsals": 5, "commands": 15, "reached": 13, "run_first": 1, "run": 1, "live_first": 1, "live": 2, "again": 1,
            "late": 1, "hanging": 1, "nothing": 1}
    have = {name: vars(counted["all"])[name] for name in owed}
    yield "records are counted", None if have == owed else f"want {owed}, have {have}"
    yield "by kind", None if (counted["sane"].live, counted["wild"].run) == (2, 1) else f"{counted}"
    anchors = counted["all"].anchors
    yield "by reason", None if anchors["forbid-moves"] == 3 and sum(anchors.values()) == 4 else f"{anchors}"
    told = json.loads(as_json(found))
    is_right = told["figures"]["all"]["live"] == 2 and {"seed": 3, "command": 3} in told["otherwise_than_live"]
    yield "as JSON", None if is_right else f"{told}"
    shown = differing_text(found[3])
    yield "one that differs, to look at", None if "#> no answer\n# the first that differs" in shown and TEXT in "".join(
        f"{line}\n" for line in shown.splitlines() if not line.startswith("#")) else shown


def orders(_):
    """Only an order of messages that gave all that was before counts."""
    either = Told(["ok"], [(["ok", "started svc a@x normal"], frozenset({0, 1})),
                           (["ok", "started svc b@x normal"], frozenset({2}))], None)
    later = Told(["ok"], [(["ok", "stopped svc a@x"], frozenset({0, 2})), (["ok"], frozenset({1}))], None)
    is_met, left = met(either, ["ok", "started svc b@x normal"], frozenset({0, 1, 2}))
    yield "an order is left", None if is_met and left == {2} else f"{is_met} {left}"
    yield "another one doesn't count", None if met(later, ["ok"], left) == (False, left) else f"{met(later, ['ok'], left)}"
    made = Try(1, 1, 1.0, [Command(number, "show", [], lines, [], True, True, []) for number, lines in enumerate(
        (["ok", "started svc a@x normal"], ["ok"]), 1)])
    found = judged([either, later], made)
    yield "an order for all commands", None if found.live == [True, True] else f"{found}"


def bad_records(program, folder):
    """What is no record is refused with its name, and no traceback."""
    fine = os.path.join(folder, "fine")
    os.mkdir(fine)
    record = Record(7, "wild", TEXT, "25.2.3", [made_of(BY_NODES)])
    record.save(fine)
    yield "a record is read as it was written", None if record_of(os.path.join(fine, "7.json")) == record else "it isn't"
    for name, text in (("no JSON", "{"), ("another object", '{"seed": 1}'), ("a list", "[]"),
                       ("no tries", '{"seed": 1, "kind": "sane", "text": "", "release": "", "tries": []}')):
        path = os.path.join(folder, name.replace(" ", "-"))
        os.mkdir(path)
        with open(os.path.join(path, "1.json"), "w", encoding="utf-8") as file:
            file.write(text)
        yield f"refused: {name}", refused_by(program, path)
    yield "refused: no folder", refused_by(program, os.path.join(folder, "nowhere"))
    os.mkdir(os.path.join(folder, "empty"))
    yield "refused: no records", refused_by(program, os.path.join(folder, "empty"))
    try:
        records_of(os.path.join(folder, "empty"))
        yield "an exception names the folder", "there is none"
    except BadRecord as fault:
        yield "an exception names the folder", None if folder in str(fault) else str(fault)


def refused_by(program, path):
    """Whether both counts refuse a folder with its name, or what they do otherwise."""
    for script in ("live_figures.py", "live_conditions.py"):
        done = subprocess.run([sys.executable, os.path.join(TESTS_OF_LIVE, script), path, program], capture_output=True,
                              text=True, timeout=LONGEST_RUN)
        if done.returncode != 2 or path not in done.stderr or "Traceback" in done.stderr or done.stdout:
            return f"{script}: status {done.returncode}: {done.stderr}"
    return None


# ---- Conditions

THREE = """{profile, 2}.
""" + "".join("""{node, n%d@x, [{kernel, [{distributed, [{svc, 5000, [n1@x, {n2@x, n3@x}]}, {web, 6000, [n1@x, n2@x]}]},
  {sync_nodes_optional, [n1@x, n2@x, n3@x]}, {sync_nodes_timeout, 9000}, {permissions, []}]},
  {rehearse, [{boot, [{log, permanent}, {svc, permanent}%s]}, {platform, [sasl]}]}]}.
""" % (number, ", {web, temporary}" if number < 3 else "") for number in (1, 2, 3)) + """\
{application, svc, [{applications, [log]}]}.
{application, web, []}.
{application, log, []}.
"""
FIRST = ["boot n1@x", "boot n2@x", "boot n3@x"]
# What is written otherwise in the file, and the conditions that it breaks.
FILES = [("{profile, 2}.", "", "profile-2"),
         ("{sync_nodes_optional, [n1@x, n2@x, n3@x]}", "{sync_nodes_optional, [n1@x, n2@x]}", "sync-lists"),
         ("{sync_nodes_timeout, 9000}", "{sync_nodes_timeout, undefined}", "sync-lists"),
         ("{log, permanent}, {svc, permanent}, {web", "{svc, permanent}, {log, permanent}, {web",
          "boot-order local-ones-first"),
         ("{boot, [{log, permanent}, {svc, permanent}]}", "{boot, [{log, permanent}]}", "booted-everywhere"),
         ("{n2@x, n3@x}", "{n3@x, n2@x}", "tuples-by-name"), ("[n1@x, {n2@x, n3@x}]", "[{n1@x, n2@x}, {n3@x}]", None),
         ("{web, 6000, [n1@x, n2@x]}", "{web, 6000, [n2@x, n1@x]}", None),
         ("{web, 6000, [n1@x, n2@x]}", "{web, 5000, [n1@x, n2@x]}", None),
         ("{web, 6000, [n1@x, n2@x]}", "{web, 5000, [n2@x, n1@x]}", "own-timeouts"),
         ("{platform, [sasl]}", "{platform, [sasl, crypto]}", "same-platform"),
         ("{permissions, []}", "{permissions, [{svc, false}]}", "permitted-in-the-file"),
         ("{application, svc, [{applications, [log]}]}.\n{application, web, []}.",
          "{application, web, []}.\n{application, svc, []}.", "local-ones-first"),
         ("[{log, permanent}, {svc, permanent}]", "[{svc, permanent}, {log, permanent}]", "boot-order local-ones-first"),
         ("{application, web, []}", "{application, web, [{applications, [svc]}]}", "needs-local-ones")]
# What follows the boots, and the condition that its last command breaks, or none.
SCRIPTS = [(["crash n1@x", "tick 5000", "tick 2000", "boot n1@x"], None), (["crash n1@x", "boot n1@x"], "after-the-failover"),
           (["crash n3@x", "crash n2@x", "boot n2@x", "tick 9000"], None),
           (["crash n3@x", "crash n2@x", "boot n2@x", "boot n3@x"], "boots-alone"),
           (["crash n3@x", "crash n2@x", "boot n2@x", "permit n1@x svc true"], "boots-alone"),
           (["stop_all svc", "start_all svc permanent"], None), (["stop n2@x svc"], "all-nodes"),
           (["stop n3@x web"], "all-nodes"), (["stop_all svc", "boot n1@x"], None),
           (["stop_all svc", "crash n3@x", "boot n3@x"], "started-before-a-boot"),
           (["stop_all svc", "crash n3@x", "start_all svc temporary", "boot n3@x"], None),
           (["takeover n2@x svc permanent"], "takeover-to-the-best"),
           (["crash n1@x", "tick 7000", "takeover n3@x svc permanent"], None),
           (["exit n1@x web normal"], "no-exit"), (["permit n3@x svc false", "permit n3@x svc true"], None),
           (["permit n1@x svc false"], "permit-standbys"),
           (["permit n2@x web false", "crash n1@x", "tick 7000", "permit n2@x web true"], "permit-standbys")]


def conditions(program):
    """Which commands break which conditions."""
    text = THREE + "===\n" + "\n".join(FIRST) + "\n"
    yield "a cluster that breaks none", None if breaks_of(program, text) == [[], [], []] else f"{breaks_of(program, text)}"
    for old, new, name in FILES:
        # The parameters that have to be the same are changed at all nodes, others at one.
        many = -1 if old.startswith(("{web, 6", "{n2", "[n1", "{sync_nodes_timeout")) else 1
        have = breaks_of(program, text.replace(old, new, many))[0]
        yield f"{new} breaks {name}", None if have == (name or "").split() else f"{have}"
    four = "".join("{node, %s@x, [{kernel, [{distributed, [{svc, [{a@x, b@x}, {c@x, d@x}]}]}]}]}.\n" % name for name in "abcd")
    have = breaks_of(program, four + "{application, svc, []}.\n===\nboot a@x\n")[0]
    yield "two tuples in a list", None if "one-tuple" in have else f"{have}"
    for lines, name in SCRIPTS:
        have = breaks_of(program, text + "\n".join(lines) + "\n")
        owed = [[] for _ in FIRST + lines[1:]] + [[name] if name else []]
        yield f"{', '.join(lines)} breaks {name}", None if have == owed else f"{have}"


def within(program, folder):
    """Rehearsals are counted as far as they are within the conditions."""
    Record(0, "sane", TEXT, "25.2.3", [made_of(BY_NODES)]).save(folder)
    rules = made_of(BY_RULES)
    other = TEXT.replace("permit a@x svc false", "permit b@x svc false")
    last = Command(3, "permit b@x svc false", [], ["ok", "stopped svc a@x"], [], False, False, [])
    Record(2, "sane", other, "25.2.3", [Try(1, 1, 1.0, [*rules.commands[:2], last])]).save(folder)
    found = told([breaks_of(program, record.text) for record in records_of(folder)], cases_of(program, records_of(folder)))
    have = [found["all"][name] for name in ("rehearsals", "within_throughout", "commands", "commands_within", "differ_within")]
    yield "rehearsals within the conditions", None if have == [2, 1, 6, 5, 1] else f"{found}"
    yield "the one that differs", None if found["differing"] == [{"seed": 2, "command": 3}] else f"{found['differing']}"
    one = next(one for one in found["conditions"] if one["name"] == "permit-standbys")
    yield "what a condition keeps out", None if (one["first_broken"], one["without_it_differ"]) == (1, 1) else f"{one}"


def careful_ones(program):
    """Rehearsals that are made to keep the conditions do."""
    for seed in range(20):
        broken = breaks_of(program, careful(seed).text)
        if any(broken) or careful(seed) != careful(seed):
            yield f"careful rehearsal {seed}", f"it breaks {broken}, or it is another one each time"
            return
    yield "careful rehearsals break no condition", None


TESTS = (from_the_seed_alone, accepted, kinds, in_folder(counting), orders, in_folder(bad_records), conditions,
         in_folder(within), careful_ones)
