"""Tests of the command rehearse-tools and of the package behind it: it starts each tool, and its code is typed and linted."""
import ast
import os
import subprocess
import sys
import tempfile

from groups import Group
from support import LONGEST_RUN, TOP, example_files, fault_of, files_below, read, run

sys.path.insert(0, os.path.join(TOP, "companions"))
from rehearse_tools.program import Program  # noqa: E402
from rehearse_tools.reading import JsonRun, Names, Notice, Standing  # noqa: E402

NEEDS = ("python3",)
COMPANIONS = os.path.join(TOP, "companions")
COMMAND = os.path.join(COMPANIONS, "rehearse-tools")
PACKAGE = os.path.join(COMPANIONS, "rehearse_tools")
TOOLS = ("gather", "plans", "survey", "spread", "page", "shell", "replay", "live", "report", "compare", "case")
KERNEL = b"{kernel, [{distributed, [{web, 5000, [a@x, b@x]}]}, {sync_nodes_optional, [a@x, b@x]}, {sync_nodes_timeout, 1000}]}"
PLANS = b"".join(b"{node, %s, [%s, {rehearse, [{boot, [{web, permanent}]}]}]}.\n" % (node, KERNEL) for node in (b"a@x", b"b@x"))
PLANS += b"{application, web, []}.\n"
# How long a file and a function may be, and a line.
MOST_LINES, MOST_OF_A_FUNCTION, MOST_COLUMNS = 500, 40, 140


def tools(*words, **options):
    """A finished run of the command."""
    return subprocess.run([COMMAND, *words], capture_output=True, timeout=LONGEST_RUN, **options)


def command(program):
    """It lists its tools, starts each, and refuses another word."""
    done = tools("--help")
    listed = [line.split()[0] for line in done.stdout.decode().splitlines() if line.startswith("  ")]
    yield "--help", fault_of(done, 0, None) or (None if set(listed) == set(TOOLS) else f"{done}")
    for words, why in (((), "which tool?"), (("nothing",), "there is no tool nothing")):
        done = tools(*words)
        is_right = done.returncode == 1 and not done.stdout and done.stderr.decode().splitlines()[-1].startswith(f"rehearse-tools: {why}")
        yield f"refused: {why}", None if is_right else f"{done}"
    owed = tools("plans", "--rehearse", program, input=PLANS)
    old = subprocess.run([os.path.join(COMPANIONS, "plans"), "--rehearse", program], input=PLANS, capture_output=True, timeout=LONGEST_RUN)
    is_right = owed.stdout == old.stdout and owed.stdout.count(b"\nplan ") == 3
    yield "plans, also by its old path", fault_of(owed, 0, None) or fault_of(old, 0, None) or (None if is_right else f"{owed} {old}")
    done = tools("survey", "--nonsense")
    is_right = done.returncode == 1 and done.stderr.startswith(b"usage: rehearse-tools survey ") and b"\nsurvey: " in done.stderr
    yield "a wrong command line of a tool", None if is_right else f"{done}"


def helps(_, name):
    """Each tool tells what it is for."""
    done = tools(name, "--help")
    yield f"{name} --help", fault_of(done, 0, None) or (None if len(done.stdout) > 200 else f"{done}")


def linked(program):
    """It finds its package and the program also where it is called by a link from elsewhere."""
    with tempfile.TemporaryDirectory() as folder:
        link = os.path.join(folder, "rehearse-tools")
        os.symlink(COMMAND, link)
        done = subprocess.run([link, "plans", "--count"], input=PLANS, capture_output=True, cwd="/", timeout=LONGEST_RUN,
                              env={**os.environ, "REHEARSE": program})
        yield "a link to rehearse-tools", fault_of(done, 0, b"3\n")
        yield "no file is left behind", None if os.listdir(folder) == ["rehearse-tools"] else f"{os.listdir(folder)}"


def as_printed(program):
    """The lines that it writes of the program's JSON are those that the program prints."""
    for path in example_files():
        name, text = os.path.relpath(path, TOP), read(path)
        plain = run(program, ["run", "--pick", "last"], input=text)
        told = Program(program, "last").told(["run", "--pick", "last"], text.decode())
        lines = [line for answer in told.answers for line in answer.lines]
        lines += [told.why] if told.why else [f"bad line {told.bad_line}"] if told.bad_line is not None else []
        yield f"{name} as it is printed", fault_of(plain, told.status, "".join(f"{line}\n" for line in lines).encode())


# Each value is told of the lines by hand.
TOLD = [
    '{"profile":2,"nodes":["a@x","b@x"],"applications":[{"name":"web","distributed":true,"nodes":[["a@x"],["b@x"]]},'
    '{"name":"it\'s","distributed":false}]}',
    '{"line":1,"command":"tick 9","answer":"ok","notices":[{"time":7,"kind":"started","application":"web","node":"b@x","start":"failover",'
    '"from":"a@x"},{"time":8,"kind":"ended","node":"b@x"}]}',
    '{"line":2,"command":"undo_all","answer":"ok 3"}', '{"line":4,"command":"boot c","answer":"refused S1 unknown_node"}',
    '{"line":5,"command":"show","answer":"ok","report":{"time":9,"steps":1,"trail":2,"nodes":[{"name":"a@x","mode":"up","starts":2,'
    '"running":[{"application":"web","restart":"permanent","start":"takeover","from":"b@x"}],'
    '"waiting":[{"application":"it\'s","restart":"transient"}],"forbidden":["it\'s"]},'
    '{"name":"b@x","mode":"down","starts":1,"running":[],"waiting":[],"forbidden":[]}],'
    '"applications":[{"name":"web","standing":"running","node":"a@x"},{"name":"far","standing":"quiet"}],'
    '"timers":[{"timer":"sync","node":"b@x","due":10},{"timer":"failover","application":"far","due":12}]}}', '{"line":7,"bad":true}']
PRINTED = ["ok", "now 9", "node a@x up 2", "  running web permanent takeover b@x", "  waiting it's transient", "  forbidden it's",
           "node b@x down 1", "app web running a@x", "app far quiet", "timer sync b@x 10", "timer failover far 12"]


def read_into_classes(_):
    """Each field of the lines of JSON comes where it belongs."""
    told = JsonRun(3, TOLD)
    tick, undone, refused, shown = told.answers
    report = shown.report
    for name, owed, have in [
            ("the names", Names(2, ["a@x", "b@x"], ["web", "it's"]), told.names), ("the bad line", (7, ""), (told.bad_line, told.why)),
            ("notices", [Notice("started", "b@x", "web", "failover a@x", 7), Notice("ended", "b@x", time=8)], tick.notices),
            ("the steps", (True, 3, 1), (undone.is_ok, undone.steps, tick.steps)),
            ("a refusal", (False, "S1 unknown_node", []), (refused.is_ok, refused.refusal, refused.notices)),
            ("the lines of a report", PRINTED, shown.lines), ("the nodes that are alive", ["a@x"], report.alive),
            ("what runs, waits and is forbidden", (("web",), ("it's",), ("it's",)),
             (report.nodes["a@x"].running, report.nodes["a@x"].waiting, report.nodes["a@x"].forbidden)),
            ("where applications stand", {"web": Standing("running", "a@x"), "far": Standing("quiet")}, report.apps),
            ("the timers before a moment", [10], report.dues_until(12)), ("the clock", 9, report.now),
            ("a file that is refused", ("cluster refused C1 T1 syntax line 1", None), (
                (refusal := JsonRun(2, ['{"refused":"C1","reason":"T1 syntax line 1"}'])).why, refusal.bad_line)),
            ("an end that no line tells", ("", "", None, None), (
                JsonRun(2, []).why, JsonRun(2, TOLD[:2]).why, JsonRun(3, []).bad_line, JsonRun(3, TOLD[:2]).bad_line))]:
        yield f"read into classes: {name}", None if owed == have else f"want {owed}, have {have}"


def types(_):
    """All of the package is typed. mypy looks for jinja2 where this Python has it."""
    words = ["mypy", "--strict", "--python-executable", sys.executable, "--cache-dir", os.devnull, "-p", "rehearse_tools"]
    done = subprocess.run(words, cwd=COMPANIONS, capture_output=True, timeout=LONGEST_RUN)
    yield "mypy --strict", None if done.returncode == 0 else done.stdout.decode()[-2000:]


def lint(_):
    """Nothing is imported or named in vain, in the package, in the tests, and in what makes the documents."""
    for path in (PACKAGE, os.path.join(TOP, "tests"), os.path.join(TOP, "docs", "making")):
        done = subprocess.run(["pyflakes3", path], capture_output=True, timeout=LONGEST_RUN)
        yield f"pyflakes3 {os.path.relpath(path, TOP)}", None if done.returncode == 0 else done.stdout.decode()[-2000:]


def sizes(_):
    """No file, function or line is too long."""
    for path in files_below(PACKAGE):
        if not path.endswith(".py"):
            continue
        name, text = os.path.relpath(path, COMPANIONS), read(path).decode()
        lines = text.splitlines()
        long = [number for number, line in enumerate(lines, 1) if len(line) > MOST_COLUMNS]
        long += [node.name for node in ast.walk(ast.parse(text)) if isinstance(node, ast.FunctionDef)
                 and node.end_lineno - node.lineno >= MOST_OF_A_FUNCTION]
        yield f"the size of {name}", None if not long and len(lines) <= MOST_LINES else f"{len(lines)} lines, {long}"


TESTS = (command, Group(helps, items=tuple(tool for tool in TOOLS if tool not in ("gather", "replay"))),
         Group(helps, items=("gather", "replay"), needs=("escript",)), linked, as_printed, read_into_classes, Group(types, needs=("mypy",)),
         Group(lint, needs=("pyflakes3",)), sizes)
