"""Tests of companions/replay, with real OTP nodes of this machine: small rehearsals, what is refused, and that the nodes listen
on the loopback alone and end with the companion, by whatever it ends. tests/run_live.py makes the rehearsals of tests/live.
"""
import glob
import json
import os
import re
import shutil
import signal
import subprocess
import time
from concurrent.futures import ThreadPoolExecutor

from groups import Group
from support import LONGEST_RUN, TOP, fault_of, in_folder, read

NEEDS = ("python3",)
ERLANG = ("erl", "escript", "erlc")
COMPANIONS = os.path.join(TOP, "companions")
COMPANION = os.path.join(COMPANIONS, "replay")
PACKAGE = os.path.join(COMPANIONS, "rehearse_tools")
SCRIPTS = os.path.join(PACKAGE, "erlang")
SCRIPT = os.path.join(SCRIPTS, "replay")
KERNEL = "{distributed, [{web, 500, [a@x, 'b-1@x']}]}, {sync_nodes_optional, [a@x, 'b-1@x']}, {sync_nodes_timeout, 5000}"
CLUSTER = "".join(f"{{node, {node}, [\n  {{kernel, [{KERNEL}]}},\n  {{rehearse, [{{boot, [{{log, permanent}}, {{web, permanent}}]}}, "
                  "{platform, [ssl]}]}]}.\n" for node in ("a@x", "'b-1@x'"))
CLUSTER += "{application, log, [{applications, [ssl]}]}. {application, web, [{applications, [log]}, {start_phases, [{go, []}]}]}.\n"
SMALL = """# A failover, and a node that ends by itself.
boot a@x
boot b-1@x
crash a@x
tick 500
stop b-1@x web
stop b-1@x web
exit b-1@x log abnormal
boot c@x
"""
# All of it agrees, so both columns are the answers of the rules.
SMALL_TOLD = [
    ("boot a@x", ["ok"]),
    ("boot b-1@x", ["ok", "up a@x", "up b-1@x", "started log a@x normal", "started web a@x normal", "started log b-1@x normal",
                    "waits web b-1@x"]),
    ("crash a@x", ["ok", "ended a@x"]), ("tick 500", ["ok", "started web b-1@x failover a@x"]),
    ("stop b-1@x web", ["ok", "stopped web b-1@x"]), ("stop b-1@x web", ["refused S12 never_started"]),
    ("exit b-1@x log abnormal", ["ok", "ended b-1@x"]), ("boot c@x", ["refused S1 unknown_node"])]
# The boot list has x before y, which it needs: the program lets it wait, and a live node leaves it out (docs/LIVE_OTP.md).
DIFFERENT = """{node, a@x, [{rehearse, [{boot, [{x, permanent}, {y, permanent}]}]}]}.
{application, x, [{applications, [y]}]}. {application, y, []}.
===
boot a@x
"""
DIFFERENT_TOLD = {"  ok ok", "  up a@x up a@x", "  started y a@x normal started y a@x normal", "< started x a@x normal",
                  "> failed x a@x {not_started,y}"}
# The same in the columns of --compare live, and as JSON.
DIFFERENT_LIVE = {"  ok ok", "  up a@x up a@x", "  started y a@x normal started y a@x normal",
                  "  failed x a@x {not_started,y} failed x a@x {not_started,y}"}
BY_RULES = ["ok", "up a@x", "started y a@x normal", "started x a@x normal"]
BY_NODES = ["ok", "up a@x", "failed x a@x {not_started,y}", "started y a@x normal"]
# Only a@x boots web, and may not run it: its boot script waits until the other node starts web.
HANGING = """{node, a@x, [{kernel, [{distributed, [{web, [b@x, a@x]}]}, {sync_nodes_optional, [b@x]},
  {sync_nodes_timeout, 8000}, {permissions, [{web, false}]}]}, {rehearse, [{boot, [{web, permanent}, {log, permanent}]}]}]}.
{node, b@x, [{kernel, [{distributed, [{web, [b@x, a@x]}]}, {sync_nodes_optional, [a@x]}, {sync_nodes_timeout, 8000}]}]}.
{application, web, []}. {application, log, []}.
===
boot a@x
boot b@x
start b@x web permanent
"""
# Where no node of the first tuple is up, those of the second one send each other weights for ever, if one starts web before the
# other: it waits for the other one's weight.
TUPLES = "{distributed, [{web, 0, [{a@x, b@x}, {c@x, d@x}]}]}, {sync_nodes_optional, [c@x, d@x]}, {sync_nodes_timeout, 8000}"
BURNING = "".join(f"{{node, {node}@x, [{{kernel, [{TUPLES}]}}]}}.\n" for node in "abcd")
BURNING += "{application, web, []}.\n===\nboot c@x\nboot d@x\nstart c@x web permanent\nstart d@x web permanent\n"
LONG = CLUSTER + "===\nboot a@x\nboot b-1@x\ntick 300000\n"
# By its configuration the better node may not run web until it is permitted. Then nodes do as profile 2 has it.
FORBIDDEN = CLUSTER.replace("[{distributed", "[{permissions, [{web, false}]}, {distributed", 1)
BOTH_UP = ["ok", "up a@x", "up b-1@x", "started log a@x normal", "waits web a@x", "started log b-1@x normal",
           "started web b-1@x normal"]
AT_ALL_TOLD = [
    ("start_all web permanent", ["refused S8 node_not_up"]), ("stop_all web", ["refused S12 never_started"]),
    ("boot a@x", ["ok"]), ("boot b-1@x", BOTH_UP),
    ("permit a@x web true", ["ok", "started web a@x takeover b-1@x", "stopped web b-1@x"]),
    # Where it is started already it stays as it is.
    ("stop b-1@x web", ["ok"]), ("start_all web transient", ["ok", "waits web b-1@x"]),
    ("stop_all web", ["ok", "stopped web a@x"]), ("stop_all web", ["refused S12 never_started"]),
    ("start_all web temporary", ["ok", "started web a@x normal", "waits web b-1@x"]),
    ("start_all web permanent", ["refused S11 already_started"]), ("start_all log permanent", ["refused S9 not_distributed"]),
    ("stop_all nobody", ["refused S2 unknown_app"]),
    ("show", ["ok", "now 0", "node a@x up 1", "running log permanent normal", "running web temporary normal",
              "node b-1@x up 1", "running log permanent normal", "waiting web temporary", "app web running a@x"])]
# In profile 1 nothing is pulled back.
PROFILE_1_TOLD = ["> started web a@x takeover b-1@x", "> stopped web b-1@x"]


def replay(program, words, **options):
    """A finished run of the companion."""
    return subprocess.run([COMPANION, "--rehearse", program, *words], stdin=subprocess.DEVNULL, capture_output=True, text=True,
                          timeout=LONGEST_RUN, **options)


def written(folder, text, name="input.txt"):
    """The path of a file with a text."""
    path = os.path.join(folder, name)
    with open(path, "w", encoding="utf-8") as file:
        file.write(text)
    return path


def answers(output):
    """The commands of what is printed, each with the sorted lines of the program and of the nodes."""
    found = []
    for line in output.splitlines()[1:-1]:
        if line[0] in " <>":
            parts = re.split(r" {2,}", line[2:].strip(), maxsplit=1)
            found[-1][1].append(parts[0])
            found[-1][2].append(parts[-1])
        elif line[0] != "#":
            found.append((line, [], []))
    return [(command, sorted(left), sorted(right)) for command, left, right in found]


def rehearsals(program, folder):
    """A rehearsal in which all agrees, and one that differs."""
    done = replay(program, [written(folder, CLUSTER + "===\n" + SMALL)])
    owed = [(command, sorted(lines), sorted(lines)) for command, lines in SMALL_TOLD]
    have = answers(done.stdout)
    is_right = have == owed and done.returncode == 0 and done.stdout.endswith("\n8 of 8 commands agree\n") and not done.stderr
    yield "all agrees", None if is_right else f"status {done.returncode}\n{done.stdout}{done.stderr}"
    done = replay(program, ["--factor", "0.5", "--patience", "1000", written(folder, DIFFERENT)])
    rows = {re.sub(r"(?<=\S) {2,}|(?<=[<>]) +", " ", line) for line in done.stdout.splitlines()[2:-1]}
    is_right = done.returncode == 3 and rows == DIFFERENT_TOLD and done.stdout.endswith("\n0 of 1 commands agree\n")
    yield "a difference", None if is_right else f"status {done.returncode}, {rows}\n{done.stdout}{done.stderr}"
    # But for the first line, which names the release of OTP.
    done = replay(program, [os.path.join(TOP, "examples", "boot-order.txt")])
    document = read(os.path.join(TOP, "docs", "TOOLS.md")).decode()
    owed = document.split("$ companions/replay examples/boot-order.txt\n")[1].split("```")[0]
    is_right = done.returncode == 3 and sorted(owed.splitlines()[1:]) == sorted(done.stdout.splitlines()[1:])
    yield "the boot list of docs/TOOLS.md", None if is_right else f"status {done.returncode}\n{done.stdout}{done.stderr}"


def at_all_nodes(program, folder):
    """Commands at all nodes, and a permission that is given in either profile."""
    script = "".join(f"{command}\n" for command, _ in AT_ALL_TOLD)
    done = replay(program, [written(folder, "{profile, 2}.\n" + FORBIDDEN + "===\n" + script)])
    owed = [(command, sorted(lines), sorted(lines)) for command, lines in AT_ALL_TOLD]
    have = answers(done.stdout)
    is_right = have == owed and done.stdout.endswith("\n14 of 14 commands agree\n") and done.returncode == 0 and not done.stderr
    yield "at all nodes, profile 2", None if is_right else f"status {done.returncode}\n{done.stdout}{done.stderr}"
    script = "===\nboot a@x\nboot b-1@x\npermit a@x web true\n"
    done = replay(program, ["--patience", "1000", written(folder, "% Mine.\n{profile, 1}. " + FORBIDDEN + script)])
    rows = [re.sub(" +", " ", line) for line in done.stdout.splitlines() if line[0] in "<>"]
    is_right = done.returncode == 3 and rows == PROFILE_1_TOLD and done.stdout.endswith("\n2 of 3 commands agree\n")
    yield "profile 1", None if is_right else f"status {done.returncode}, {rows}\n{done.stdout}{done.stderr}"


def greatest(program, folder):
    """As many nodes and applications as profile 2 has. One of the nodes boots them all, and others that may run them are down."""
    groups = ["n0@x" if app % 64 == 0 else f"n0@x, n{app % 64}@x" for app in range(128)]
    entries = ", ".join(f"{{p{app}, [{nodes}]}}" for app, nodes in enumerate(groups))
    boot = ", ".join(f"{{p{app}, permanent}}" for app in range(128))
    text = "{profile, 2}.\n" + f"{{node, n0@x, [{{kernel, [{{distributed, [{entries}]}}]}}, {{rehearse, [{{boot, [{boot}]}}]}}]}}.\n"
    text += "".join(f"{{node, n{node}@x, [{{kernel, [{{distributed, [{entries}]}}]}}]}}.\n" for node in range(1, 64))
    text += "".join(f"{{application, p{app}, []}}.\n" for app in range(128))
    told = [("boot n0@x", ["ok", "up n0@x"] + [f"started p{app} n0@x normal" for app in range(128)]),
            ("stop_all p127", ["ok", "stopped p127 n0@x"]), ("start_all p127 temporary", ["ok", "started p127 n0@x normal"]),
            ("start n0@x p64 permanent", ["refused S11 already_started"])]
    done = replay(program, [written(folder, text + "===\n" + "".join(f"{command}\n" for command, _ in told))])
    have, owed = answers(done.stdout), [(command, sorted(lines), sorted(lines)) for command, lines in told]
    is_right = have == owed and done.returncode == 0 and not done.stderr
    yield "64 nodes and 128 applications", None if is_right else f"status {done.returncode}\n{done.stdout[-2000:]}{done.stderr}"


# ---- Comparing with live

def outcomes(_):
    """The nodes take one of the outcomes that live tells that an order gives by which the commands before came out so, too."""
    ok, one, other = '["ok"]', '["ok", "up a@x"]', '["ok", "up b@x"]'
    first = f"[{{{one}, [0, 3]}}, {{{other}, [1, 2]}}]"
    for name, arguments, owed in [
            ("the first one", f"{first}, [0, 1, 2, 3], {one}", f"{{true, {one}, [0, 3]}}"),
            ("another one", f"{first}, [0, 1, 2, 3], {other}", f"{{true, {other}, [1, 2]}}"),
            ("one of orders that are left", f"{first}, [2, 3], {other}", f"{{true, {other}, [2]}}"),
            ("one of none that is left", f"{first}, [1, 2], {one}", f"{{false, {other}, [1, 2]}}"),
            ("none", f"{first}, [0, 1, 2, 3], {ok}", f"{{false, {one}, [0, 1, 2, 3]}}")]:
        asked = f"{{Agrees, Lines, _, Left}} = replay_compare:taken({arguments}), {owed} = {{Agrees, Lines, Left}}"
        yield f"outcomes: {name}", erlang_fault(asked)


def json_read(_):
    """JSON as the companion reads it, and what is none."""
    for name, asked in [
            ("texts", r'{ok, #{"a" := ["x\"\n/", [16#e9], [16#1f600]]}} = '
             r'replay_json:read(<<"{\"a\": [\"x\\\"\\n\\/\", \"\\u00e9\", \"\\ud83d\\ude00\"]}">>)'),
            ("other values", r'{ok, [true, false, null, -12, [], #{}]} = '
             r'replay_json:read(<<" [true,false , null, -12,[ ],{ }]\n">>)'),
            ("what is none", r'[error] = lists:usort([replay_json:read(Text) || Text <- '
             r'[<<>>, <<"[1">>, <<"[1] 2">>, <<"{1:2}">>, <<"nothing">>, <<"\"a">>]])')]:
        yield f"JSON that is read: {name}", erlang_fault(asked)


def erlang_fault(asked):
    """What is wrong with a match in Erlang, with the modules of the companion that need no nodes; or None."""
    load = "begin {ok, M, C} = compile:file(F, [binary]), code:load_binary(M, F, C) end"
    text = f'[{load} || F <- ["replay_compare", "replay_json"]], {asked}, halt().'
    done = subprocess.run(["erl", "-noinput", "-eval", text], cwd=SCRIPTS, capture_output=True, text=True, timeout=LONGEST_RUN)
    return None if done.returncode == 0 else f"{asked}: {done.stdout[:1000]}"


def sides(program, folder):
    """A rehearsal in which live nodes do what live tells, and not what the rules say: by both, by live, and as JSON."""
    path = written(folder, DIFFERENT + "# It goes on.\nstop a@x y\n")
    done = replay(program, ["--compare", "both", "--patience", "1000", path])
    lines = done.stdout.splitlines()
    rows = {re.sub(r"(?<=\S) {2,}|(?<=[<>]) +", " ", line) for line in lines[2:lines.index("# It goes on.") - 1]}
    owed = ["#~ line 1 behind === is the first that differs: from here on the rules and the nodes have different pasts",
            "# It goes on.", "stop a@x y"]
    is_right = done.returncode == 3 and rows == DIFFERENT_TOLD and lines[7:10] == owed and not done.stderr
    is_right = is_right and lines[-1] == "1 of 2 commands agree with the rules, 2 of 2 with live"
    yield "--compare both", None if is_right else f"{done}"
    path = written(folder, DIFFERENT)
    done = replay(program, ["--compare", "live", path])
    rows = {re.sub(r"(?<=\S) {2,}", " ", line) for line in done.stdout.splitlines()[2:-1]}
    is_right = done.returncode == 0 and rows == DIFFERENT_LIVE and done.stdout.endswith("\n1 of 1 commands agree with live\n")
    yield "--compare live", None if is_right and done.stdout.startswith("  live ") and not done.stderr else f"{done}"
    done = replay(program, ["--compare", "both", "--json", "--patience", "1000", "--orders", "2", path])
    command, last = map(json.loads, done.stdout.splitlines())
    rows = [row for row in command["rows"] if row[0] != " "]
    is_right = done.returncode == 3 and (command["line"], command["command"]) == (1, "boot a@x")
    is_right = is_right and command["rules"] == BY_RULES
    is_right = is_right and sorted(command["nodes"]) == sorted(BY_NODES) == sorted(command["live"])
    is_right = is_right and not command["agrees"] and command["agrees_live"]
    is_right = is_right and rows == [[">", "", "failed x a@x {not_started,y}"], ["<", "started x a@x normal", ""]]
    is_right = is_right and all(mark == " " and left == right for mark, left, right in command["rows_live"])
    is_right = is_right and not any(command[name] for name in ("late", "stands", "busy", "wrote")) and not done.stderr
    yield "--json", None if is_right else f"{done}"
    owed = {"commands": 1, "agree": 0, "first": 1, "agree_live": 1, "first_live": None, "orders": 2, "compare": "both",
            "factor": 1, "patience": 1000, "measured": measured(), "release": last["release"]}
    yield "the last line of --json", None if last == owed else f"{last}"


def hanging(program, folder):
    """Where a boot script waits for ever, the processes are told in which that is, and the lines are never compared."""
    done = replay(program, ["--compare", "live", "--patience", "2000", written(folder, HANGING)])
    told = [" ".join(line.split()) for line in done.stdout.splitlines()]
    place = told.index("pending web a@x pending web a@x")
    owed = ["a@x: dist_ac stands in wait_dist_start2/6", "a@x: application_controller is idle"]
    is_right = all(line in told[place:] for line in owed) and told[-1] == "3 of 3 commands agree with live"
    yield "where a start hangs", None if is_right and done.returncode == 0 and not done.stderr else f"{done}"


def burning(program, folder):
    """Two nodes that send each other messages for ever are seen, behind a call that waits for one of them."""
    done = replay(program, ["--json", "--patience", "1000", written(folder, BURNING)])
    *earlier, waits, last, _ = map(json.loads, done.stdout.splitlines())
    is_right = waits["nodes"] == ["no answer"] and {"node": "c@x", "process": "dist_ac", "function": "collect_answers/4",
                                                    "messages": 0} in waits["stands"]
    yield "a call that waits", None if is_right and done.returncode == 3 and not done.stderr else f"{done}"
    is_right = [node["node"] for node in last["busy"]] == ["c@x", "d@x"] and all(0 < node["share"] <= 2 for node in last["busy"])
    is_right = is_right and not any(answer["busy"] for answer in [*earlier, waits])
    yield "nodes that are busy", None if is_right else f"{done}"


def measured():
    """The release on which the page and live were measured, as live has it."""
    return re.search(r'MEASURED = Release\(\n +"([0-9.]+)"', read(os.path.join(PACKAGE, "otp25", "release.py")).decode())[1]


def release(_):
    """Replay has the same release as live."""
    have = re.search(r'-define\(MEASURED, "([0-9.]+)"\)', read(SCRIPT).decode())[1]
    yield "the release that was measured", None if have == measured() else f"{have}, and live has {measured()}"


def other_release(program, folder):
    """On another release than the measured one the first line says so."""
    script = copied(folder, lambda text: text.replace(f'"{measured()}"', '"17.0"'))
    path = written(folder, "{node, a@x, []}.\n===\n# Nothing.\nboot b@x\n")
    done = subprocess.run([script, "--rehearse", program, path], stdin=subprocess.DEVNULL,
                          capture_output=True, text=True, timeout=LONGEST_RUN)
    _, told, *lines = done.stdout.splitlines()
    is_right = re.fullmatch(r"#~ This is OTP [0-9.]+\. What .* was measured on OTP 17\.0\.", told)
    is_right = is_right and lines[0] == "# Nothing." and lines[-1] == "1 of 1 commands agree" and done.returncode == 0 and not done.stderr
    yield "another release", None if is_right else f"{done}"
    done = replay(program, [path])
    is_right = "#~" not in done.stdout or f"measured on OTP {measured()}" in done.stdout
    yield "the release that is here", None if is_right and done.returncode == 0 else f"{done}"


def copied(folder, changed=lambda text: text):
    """Puts a copy of the companion alone into a folder, with its script changed, and gives the path of that."""
    there = os.path.join(folder, "rehearse_tools", "erlang")
    os.makedirs(there)
    for path in glob.glob(f"{SCRIPT}*"):
        shutil.copy(path, there)
    with open(os.path.join(there, "replay"), "w", encoding="utf-8") as file:
        file.write(changed(read(SCRIPT).decode()))
    return file.name


def without(program, folder):
    """What --compare needs and isn't there is told."""
    script = copied(folder)
    path = written(folder, "{node, a@x, []}.\n===\nboot a@x\n")
    tools = os.path.join(folder, "tools")
    os.mkdir(tools)
    for name in ("escript", "erl", "sh", "mktemp", "rm", "sed", "dirname"):
        os.symlink(os.path.realpath(shutil.which(name)), os.path.join(tools, name))
    for name, companion, search, owed in [
            ("live", script, os.environ["PATH"], f"there is no companion {folder}/live"),
            ("python3", SCRIPT, tools, "there is no python3, which the companion live needs")]:
        done = subprocess.run([companion, "--rehearse", program, "--compare", "live", path], stdin=subprocess.DEVNULL,
                              capture_output=True, text=True, timeout=LONGEST_RUN, env={**os.environ, "PATH": search})
        is_right = done.returncode == 1 and not done.stdout and owed in done.stderr
        yield f"--compare without {name}", None if is_right else f"{done}"


# ---- Processes

def processes(folder):
    """The ids of the processes that have this folder in their command line, but for the companion and its program."""
    found = []
    for path in glob.glob("/proc/[0-9]*/cmdline"):
        try:
            with open(path, "rb") as file:
                if f"{folder}/rehearse-replay.".encode() in file.read():
                    found.append(int(path.split("/")[2]))
        except OSError:
            pass
    return found


def sockets(ids):
    """The local addresses on which processes listen, as /proc has them."""
    own = set()
    for number in ids:
        for path in glob.glob(f"/proc/{number}/fd/*"):
            try:
                own.add(os.readlink(path))
            except OSError:
                pass
    found = []
    for name in ("tcp", "tcp6", "udp", "udp6"):
        with open(f"/proc/net/{name}", encoding="ascii") as file:
            rows = [row.split() for row in file.readlines()[1:]]
        found += [row[1].split(":")[0] for row in rows if f"socket:[{row[9]}]" in own and row[3] in ("0A", "07")]
    return found


def waited(is_done):
    """Whether something is so in time."""
    end = time.monotonic() + LONGEST_RUN
    while not is_done():
        if time.monotonic() > end:
            return False
        time.sleep(0.05)
    return True


def ending(program, folder, name, number):
    """Tests that the nodes of a rehearsal which a signal ends are gone, and so is their folder; and where they listened."""
    place = os.path.join(folder, name)
    os.mkdir(place)
    with subprocess.Popen([COMPANION, "--rehearse", program, written(place, LONG)], stdin=subprocess.DEVNULL,
                          stdout=subprocess.PIPE, stderr=subprocess.STDOUT, text=True, env={**os.environ, "TMPDIR": place}) as child:
        told = next((line for line in child.stdout if line == "tick 300000\n"), None)
        there = processes(place)
        addresses = sockets(there)
        child.send_signal(number)
        child.wait(LONGEST_RUN)
        is_gone = waited(lambda: not processes(place) and not glob.glob(f"{place}/rehearse-replay.*"))
    is_local = len(addresses) >= 2 and set(addresses) == {"0100007F"}
    is_ended = told and len(there) >= 4 and is_gone and child.returncode == -number
    return [(f"{name}: the nodes listen on the loopback alone", None if is_local else f"{addresses}"),
            (f"{name} ends the nodes", None if is_ended else
             f"status {child.returncode}, {len(there)} processes, left {processes(place)} {os.listdir(place)}")]


def most(program, folder):
    """Tests that the nodes end when the time of --most is over."""
    words = ["--most", "6", "--patience", "100000", written(folder, DIFFERENT)]
    done = replay(program, words, env={**os.environ, "TMPDIR": folder})
    is_right = done.returncode == 4 and "the time of --most is over" in done.stderr and "boot a@x\n" in done.stdout
    is_gone = waited(lambda: not processes(folder) and not glob.glob(f"{folder}/rehearse-replay.*"))
    return [("--most ends the nodes", None if is_right and is_gone else f"{done} {processes(folder)}")]


def endings(program, folder):
    """The nodes end with the companion, by whatever it ends."""
    signals = [("SIGINT", signal.SIGINT), ("SIGTERM", signal.SIGTERM), ("SIGKILL", signal.SIGKILL)]
    os.mkdir(os.path.join(folder, "most"))
    with ThreadPoolExecutor(4) as pool:
        tests = [pool.submit(ending, program, folder, *pair) for pair in signals]
        for test in [*tests, pool.submit(most, program, os.path.join(folder, "most"))]:
            yield from test.result()


def refusals(program, folder):
    """What is refused, with its status and words of what is told."""
    one = "{node, a@x, []}.\n"
    for name, text, words, status, told in [
            ("undo", one + "===\nboot a@x\nundo\n", [], 2, "input.txt line 4 (line 2 behind ===): real nodes can't do this: undo"),
            ("a bad line", one + "===\nboot a@x\nreboot a@x\n", [], 2,
             "input.txt line 4 (line 2 behind ===): it is no command here: reboot a@x"),
            ("a bad line behind others that ask nothing", one + "\n===\n\n# One.\nboot a@x\n  \nbot a@x\nbet a@x\n", [], 2,
             "input.txt line 8 (line 5 behind ===): it is no command here: bot a@x"),
            ("a bad line in front", one + "===\r\nbot a@x\r\n", [], 2,
             "input.txt line 3 (line 1 behind ===): it is no command here: bot a@x"),
            ("a cluster file", one + one, [], 2, "cluster refused C4 duplicate_name"),
            ("a profile", "{profile, 3}.\n" + one, [], 2, "cluster refused C10 bad_value"),
            ("33 nodes of profile 1", "".join(f"{{node, n{node}@x, []}}.\n" for node in range(33)), [], 2,
             "cluster refused C3 too_many"),
            ("a type that is missing", one + "===\nstart_all web\n", [], 2,
             "input.txt line 3 (line 1 behind ===): it is no command here: start_all web"),
            ("a node without a host", "{node, a, []}.\n===\nboot a\n", [], 2, "a live node can't be called a"),
            ("long and short names", one + "{node, 'a@x.y', []}.\n===\nboot a@x\n", [], 2, "don't see one another"),
            ("long ticks", one + "===\ntick 700000\n", [], 2, "the ticks take 700 s"),
            ("a factor", one, ["--factor", "0"], 1, "--factor"), ("an option", one, ["--nonsense"], 1, "--nonsense"),
            ("a side", one, ["--compare", "page"], 1, "--compare: invalid choice: 'page'"), ("orders", one, ["--orders", "0"], 1, "--orders"),
            ("another program", one + "===\nboot a@x\n", ["--rehearse", shutil.which("echo")], 2, "isn't the program"),
            ("no program", one, ["--rehearse", "/nowhere/rehearse"], 1, "no program /nowhere/rehearse")]:
        done = replay(program, [*words, written(folder, text)])
        is_right = done.returncode == status and not done.stdout and told in done.stderr
        yield f"refused: {name}", None if is_right else f"status {done.returncode}: {done.stdout}{done.stderr}"
    done = replay(program, ["/nowhere/input"])
    yield "refused: no file", None if done.returncode == 2 and "/nowhere/input" in done.stderr else f"{done}"
    done = subprocess.run([COMPANION, "--help"], capture_output=True, timeout=LONGEST_RUN)
    words = (b"--factor F", b"start_all", b"stop_all", b"{profile, 2}", b"--compare WHAT", b"--orders N", b"--json")
    missing = [word for word in words if word not in done.stdout]
    yield "--help", fault_of(done, 0, None) or (f"it lacks {missing}" if missing else None)


# Nodes keep real time, and would be late where others take the processors.
ALONE = (rehearsals, at_all_nodes, greatest, endings, sides, hanging, burning)
REAL_TIME = tuple(Group(in_folder(part), is_alone=True, needs=ERLANG) for part in ALONE)
BESIDE = tuple(Group(in_folder(part), needs=ERLANG) for part in (refusals, other_release, without))
TESTS = (release, Group(outcomes, needs=ERLANG), Group(json_read, needs=ERLANG), *BESIDE, *REAL_TIME)
