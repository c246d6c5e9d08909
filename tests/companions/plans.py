"""Tests of companions/plans. What is owed is worked out by hand, and the real program tries what is written."""
import os
import shutil
import subprocess
import tempfile

from support import LONGEST_RUN, TOP, difference, fault_of, read, run, without_notice

NEEDS = ("python3",)
COMPANION = os.path.join(TOP, "companions", "plans")
# web fails over within 700 ms; each node waits up to 900 ms for the two others when it boots.
NODE = """{node, %s, [{kernel, [{distributed, [{web, 700, [a@x, {b@x, 'c-1@x'}]}]},
  {sync_nodes_optional, [a@x, b@x, 'c-1@x']}, {sync_nodes_timeout, %s}]},
  {rehearse, [{boot, [{web, permanent}]}]}]}.
"""
WEB = "{application, web, []}. % {node, d@x, []}. isn't one\n"


def three_nodes(timeout="900"):
    """A cluster file of the nodes a@x, b@x and c-1@x."""
    return "".join(NODE % (node, timeout) for node in ("a@x", "b@x", "'c-1@x'")) + WEB


def nodes_alone(most):
    """A cluster file of so many nodes without applications."""
    return "".join(f"{{node, n{number}@x, []}}.\n" for number in range(most))


BOOTS = "===\nboot a@x\nboot b@x\nboot c-1@x\n"
DEFAULT = """plan a@x
crash a@x
tick 900
plan b@x
crash b@x
tick 900
plan c-1@x
crash c-1@x
tick 900
plan a@x+b@x
crash a@x
crash b@x
tick 900
plan a@x+c-1@x
crash a@x
crash c-1@x
tick 900
plan b@x+c-1@x
crash b@x
crash c-1@x
tick 900
"""


def plans(program, words, text):
    """A finished run of the companion, with an input. That lint has something is kept apart."""
    done = subprocess.run([COMPANION, "--rehearse", program, *words], input=text.encode(), capture_output=True, timeout=LONGEST_RUN)
    return without_notice(done)


def names(done):
    """The names of the plans that were written."""
    return [line[len("plan "):] for line in done.stdout.decode().splitlines() if line.startswith("plan ")]


def whole_texts(program):
    """Whole texts that are written."""
    yield "every node and every pair", fault_of(
        plans(program, [], three_nodes()), 0, (three_nodes() + BOOTS + DEFAULT).encode())
    yield "without the last line end", fault_of(
        plans(program, [], three_nodes()[:-1]), 0, (three_nodes() + BOOTS + DEFAULT).encode())
    yield "the plans alone", fault_of(plans(program, ["--plans-only"], three_nodes()), 0, DEFAULT.encode())
    # The script stays as it stands. Behind it c-1@x waits, which is alive, and b@x is down.
    script = "===\n# Two of three.\nboot a@x\nboot c-1@x\nplan mine\ncrash a@x"
    owed = "\nplan a@x\ncrash a@x\ntick 5\nplan c-1@x\ncrash c-1@x\ntick 5\nplan a@x+c-1@x\ncrash a@x\ncrash c-1@x\ntick 5\n"
    yield "a file with a script and a plan", fault_of(
        plans(program, ["--after", "5"], three_nodes() + script), 0, (three_nodes() + script + owed).encode())
    owed = "plan a@x\ncrash a@x\nplan b@x\ncrash b@x\nplan a@x+b@x\ncrash a@x\ncrash b@x\n"
    owed += "plan a@x+20ms+b@x\ncrash a@x\ntick 20\ncrash b@x\n"
    words = ["--plans-only", "--only", "[ab]@x", "--between", "0,20", "--after", "0"]
    yield "time between crashes, none behind them", fault_of(plans(program, words, three_nodes()), 0, owed.encode())
    owed = "plan a@x,back:a@x\ncrash a@x\ntick 8\nboot a@x\ntick 8\nplan b@x,back:b@x\ncrash b@x\ntick 8\nboot b@x\ntick 8\n"
    owed += "plan a@x+b@x,back:b@x+a@x\ncrash a@x\ncrash b@x\ntick 8\nboot b@x\nboot a@x\ntick 8\n"
    words = ["--plans-only", "--only", "a@x", "--only", "b*", "--back", "reverse", "--after", "8"]
    yield "they boot again in reverse", fault_of(plans(program, words, three_nodes()), 0, owed.encode())
    owed = "plan rolling:a@x+b@x\ncrash a@x\ntick 8\nboot a@x\ntick 8\ncrash b@x\ntick 8\nboot b@x\ntick 8\n"
    owed += "plan rolling:b@x+a@x\ncrash b@x\ntick 8\nboot b@x\ntick 8\ncrash a@x\ntick 8\nboot a@x\ntick 8\n"
    yield "a rolling restart", fault_of(
        plans(program, ["--plans-only", "--only", "[ab]@x", "--rolling", "--after", "8"], three_nodes()), 0, owed.encode())
    restarts = [f"permit {node} web false\ncrash {node}\ntick 8\nboot {node}\ntick 8\npermit {node} web true\n"
                for node in ("a@x", "b@x")]
    owed = "plan drained:a@x+b@x\n" + "".join(restarts) + "plan drained:b@x+a@x\n" + "".join(restarts[::-1])
    words = ["--plans-only", "--only", "[ab]@x", "--rolling", "--drain", "--after", "8"]
    yield "a rolling restart of drained nodes", fault_of(plans(program, words, three_nodes()), 0, owed.encode())


# web and far are distributed, log isn't. Behind the boots web may run at a@x alone, since nobody permits it at b@x; far is started
# at b@x and c@x, and quiet at a@x, which doesn't boot it.
MIXED = "{profile, 2}.\n" + "".join(
    f"{{node, {node}, [{{kernel, [{{distributed, [{{web, [a@x, b@x]}}, {{far, [a@x, b@x, c@x]}}]}}{more}]}},\n"
    f"  {{rehearse, [{{boot, [{boot}]}}]}}]}}.\n"
    for node, more, boot in [("a@x", "", "{log, permanent}, {web, permanent}"),
                             ("b@x", ", {permissions, [{web, false}]}", "{log, permanent}, {web, permanent}, {far, temporary}"),
                             ("c@x", "", "{far, permanent}, {log, permanent}")]
) + "{application, log, []}. {application, web, []}. {application, far, []}.\n"
MIXED_EVENTS = [
    "permit a@x web false\ncrash a@x\nboot a@x\npermit a@x web true\n",
    "permit b@x far false\ncrash b@x\nboot b@x\npermit b@x far true\n",
    "permit c@x far false\ncrash c@x\nboot c@x\npermit c@x far true\n"]


def drained(program):
    """Which applications are sent away, and what becomes of them."""
    words = ["--plans-only", "--rolling", "--drain", "--most", "1"]
    done = plans(program, words, MIXED)
    owed = "plan drained:a@x+b@x+c@x\n" + "".join(MIXED_EVENTS)
    yield "what is started and may run", None if done.stdout.decode() == owed else f"{done}"
    # The base stops web at a@x, and permits it at b@x: now b@x has both.
    base = "===\n" + "".join(f"boot {node}\n" for node in ("a@x", "b@x", "c@x")) + "stop a@x web\npermit b@x web true\n"
    done = plans(program, words, MIXED + base)
    owed = "plan drained:a@x+b@x+c@x\ncrash a@x\nboot a@x\n"
    owed += "permit b@x web false\npermit b@x far false\ncrash b@x\nboot b@x\npermit b@x web true\npermit b@x far true\n"
    yield "behind a script", None if done.stdout.decode() == owed + MIXED_EVENTS[2] else f"{done}"
    # By their configuration both nodes forbid web, so that a restarted one doesn't take it before it is permitted.
    text = "".join(f"{{node, {node}, [{{kernel, [{{distributed, [{{web, [a@x, b@x]}}]}}, {{permissions, [{{web, false}}]}}]}},\n"
                   "  {rehearse, [{boot, [{web, permanent}]}]}]}.\n" for node in ("a@x", "b@x")) + "{application, web, []}.\n"
    text += "===\nboot a@x\nboot b@x\npermit a@x web true\npermit b@x web true\n"
    for profile, rows in [(1, [("a@x+b@x", 0, "a@x"), ("b@x+a@x", 0, "b@x")]), (2, [("a@x+b@x", 1, "a@x"), ("b@x+a@x", 1, "a@x")])]:
        done = run(program, ["sweep"], input=plans(program, ["--rolling", "--drain"], f"{{profile, {profile}}}.\n{text}").stdout)
        owed = "".join(f"plan drained:{order} accepted 8 failovers 0 takeovers {count}\napp web running {node}\n"
                       for order, count, node in rows)
        told = done.stdout.decode()
        yield f"swept by profile {profile}", fault_of(done, 0, None) or (
            None if told[told.index("plan "):] == owed else difference(owed.encode(), done.stdout))


def chosen(program):
    """Which plans there are, by their names."""
    for words, owed in [
            (["--crashes", "1"], "a@x b@x c-1@x"),
            (["--crashes", "9"], "a@x b@x c-1@x a@x+b@x a@x+c-1@x b@x+c-1@x a@x+b@x+c-1@x"),
            (["--orders"], "a@x b@x c-1@x a@x+b@x a@x+c-1@x b@x+a@x b@x+c-1@x c-1@x+a@x c-1@x+b@x"),
            (["--only", "[ab]*", "--back", "every"], "a@x,back:a@x b@x,back:b@x a@x+b@x,back:a@x+b@x a@x+b@x,back:b@x+a@x"),
            (["--rolling"], "rolling:a@x+b@x+c-1@x rolling:a@x+c-1@x+b@x rolling:b@x+a@x+c-1@x rolling:b@x+c-1@x+a@x "
                            "rolling:c-1@x+a@x+b@x rolling:c-1@x+b@x+a@x")]:
        done = plans(program, words, three_nodes())
        wrong = fault_of(done, 0, None) or difference("\n".join(owed.split()).encode(), "\n".join(names(done)).encode())
        yield " ".join(words), wrong if names(done) != owed.split() else None
    # Two of the six orders above: the first one, and the one in the middle.
    done = plans(program, ["--rolling", "--most", "2"], three_nodes())
    is_right = names(done) == ["rolling:a@x+b@x+c-1@x", "rolling:b@x+c-1@x+a@x"] and b"2 of 6 orders" in done.stderr
    yield "a bound on the orders", None if is_right else f"{done}"


def times(program):
    """The time that passes where none is given: the longest failover, or the longest wait."""
    for timeout, text, owed in [
            ("900", three_nodes(), 900), ("700", three_nodes("699"), 700), ("infinity", three_nodes("infinity"), 700),
            ("no timeout of a failover", three_nodes("undefined").replace("{web, 700, ", "{web, "), 0),
            ("a script", three_nodes() + "===\nboot b@x\ntick 900\n", 900),
            ("a script that stops it", three_nodes("undefined") + "===\nboot a@x\nstop a@x web\n", 700)]:
        done = plans(program, ["--plans-only"], text)
        ticks = {line for line in done.stdout.decode().splitlines() if line.startswith("tick ")}
        wrong = None if ticks == ({f"tick {owed}"} if owed else set()) else f"{ticks}, want {owed}"
        yield f"time of itself: {timeout}", fault_of(done, 0, None) or wrong


def swept(program):
    """The real program tries all that is written."""
    example = read(os.path.join(TOP, "examples", "five-nodes-sweep.txt")).decode().split("===")[0]
    large, larger = nodes_alone(32), "{profile, 2}.\n" + nodes_alone(64)
    # One, two or three of 5 nodes; one or two of 32, and of 64 in the second profile; the orders of 4 of 5.
    for name, words, text, number in [("five nodes", ["--crashes", "3", "--back", "same"], example, 5 + 10 + 10),
                                      ("32 nodes", [], large, 32 + 496),
                                      ("64 nodes", [], larger, 64 + 2016),
                                      ("every order of four", ["--rolling", "--only", "*[12]@site"], example, 24)]:
        done = run(program, ["sweep"], input=plans(program, words, text).stdout)
        told = [line for line in done.stdout.splitlines() if line.startswith(b"plan ")]
        refused = [line for line in done.stdout.splitlines() if line.startswith((b"refused ", b"bad line"))]
        yield name, fault_of(done, 0, None) or (None if len(told) == number and not refused else f"{len(told)}, {refused[:3]}")
        done = plans(program, words + ["--count"], text)
        yield f"{name}: the count", fault_of(done, 0, b"%d\n" % number)


def faults(program):
    """Wrong command lines, and files that are refused."""
    for words, text, status, told in [
            (["--crashes", "0"], three_nodes(), 1, "--crashes"),
            (["--after", "-1"], three_nodes(), 1, "--after"),
            (["--nonsense"], three_nodes(), 1, "--nonsense"),
            (["--rolling", "--orders"], three_nodes(), 1, "--rolling"),
            (["--drain"], three_nodes(), 1, "--drain goes with --rolling"),
            ([], nodes_alone(64), 2, "standard input: cluster refused C3 too_many"),
            (["--most", "5"], three_nodes(), 1, "6 plans are more than --most 5"),
            (["--only", "d@x"], three_nodes(), 1,
             "no node that is alive behind the base has a name of --only d@x: a@x, b@x, c-1@x are alive\n"),
            (["--only", "d*", "--only", "e@x"], three_nodes() + "===\nboot b@x\ntick 900\n", 1,
             "no node that is alive behind the base has a name of --only d* or e@x: b@x is alive\n"),
            ([], three_nodes() + "===\nboot a@x\ncrash a@x\n", 1, "no node is left to crash: behind the base none is alive\n"),
            ([], three_nodes() + "===\n# One.\nboot a@x\nreboot a@x\n", 2,
             "standard input line 14 (line 3 behind ===): it is no command here: reboot a@x\n"),
            # In plans too: what is no command, and what is no event.
            ([], three_nodes() + "===\nboot a@x\nplan one\n\ncrash a@x\nplan two\nsmash a@x", 2,
             "standard input line 17 (line 6 behind ===): it is no command here: smash a@x\n"),
            (["--plans-only"], three_nodes() + "===\r\nplan one\r\n undo \r\n", 2,
             "standard input line 13 (line 2 behind ===): it is no command here:  undo \n"),
            ([], "{node, a@x, [}.", 2, "standard input: cluster refused C1 T1 syntax line 1"),
            (["/nowhere/cluster"], "", 2, "/nowhere/cluster: No such file"),
            (["--rehearse", "/nowhere/rehearse"], three_nodes(), 1, "there is no program /nowhere/rehearse"),
            (["--rehearse", "/bin/true"], three_nodes(), 2, "/bin/true isn't the program")]:
        done = plans(program, words, text)
        is_right = done.returncode == status and done.stdout == b"" and told in done.stderr.decode()
        yield f"refused: {told}", None if is_right else f"{done}"


def none_distributed(program):
    """Where no application is distributed the plans are written all the same, with a word of it."""
    owed = b"plans: warning: no application is distributed, so none fails over: is a name in the file misspelt?\n"
    right = "{node, a@x, [{kernel, [{distributed, [{web, [a@x]}]}]}]}.\n{application, web, []}.\n"
    for text, told in (right.replace("distributed", "distribted"), owed), (right, b""):
        done = plans(program, ["--plans-only"], text)
        is_right = done.returncode == 0 and done.stdout == b"plan a@x\ncrash a@x\n" and done.stderr == told
        yield f"a warning: {told}", None if is_right else f"{done}"


def program_found(program):
    """The program is found by the environment, and beside the folder of the companions."""
    words, text = ["--count"], three_nodes().encode()
    done = subprocess.run([COMPANION, *words], input=text, capture_output=True, env={**os.environ, "REHEARSE": program})
    yield "the program of the environment", fault_of(done, 0, b"6\n")
    with tempfile.TemporaryDirectory() as folder:
        shutil.copytree(os.path.join(TOP, "companions"), os.path.join(folder, "companions"))
        os.symlink(program, os.path.join(folder, "rehearse"))
        env = {name: value for name, value in os.environ.items() if name != "REHEARSE"}
        done = subprocess.run([os.path.join(folder, "companions", "plans"), *words], input=text, capture_output=True, env=env)
        yield "the program beside the folder", fault_of(done, 0, b"6\n")


def help_text(program):
    """Help goes to standard output."""
    done = plans(program, ["--help"], "")
    yield "--help", fault_of(done, 0, None) or (None if b"--rolling" in done.stdout else f"{done}")


TESTS = (whole_texts, drained, chosen, times, swept, faults, none_distributed, program_found, help_text)
