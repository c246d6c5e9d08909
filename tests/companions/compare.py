"""Tests of companions/compare, on small cluster files. What is owed is worked out by hand from docs/RULES.md."""
import os
import pty
import subprocess
from collections.abc import Iterator
from typing import Optional

from groups import Group, Test
from support import LONGEST_RUN, TOP, difference, in_folder

NEEDS = ("python3",)
COMPANION = os.path.join(TOP, "companions", "compare")
# web fails over from a@x to b@x, and then to c@x, within a time. log runs at each node, and is no distributed application.
NODE = """{node, %s, [{kernel, [{distributed, [{web, %d, %s}%s]}]}, {rehearse, [{boot, [{log, permanent}, {web, permanent}]}]}]}.
"""
APPS = "{application, web, []}. {application, log, []}.\n"
THREE = ("a@x", "b@x", "c@x")


def cluster(time: int = 5000, groups: str = "[a@x, b@x, c@x]", nodes: tuple[str, ...] = THREE, more: str = "", front: str = "{profile, 2}.\n",
            apps: str = APPS) -> str:
    """A cluster file."""
    return front + "".join(NODE % (node, time, groups, more) for node in nodes) + apps


def compared(program: str, folder: str, old: str, new: str, *words: str, plans: str = "", **options) -> subprocess.CompletedProcess:
    """A finished run of the companion in a folder, on the files old and new, and plans where there are any."""
    for name, text in (("old", old), ("new", new), ("plans", plans)):
        with open(os.path.join(folder, name), "w", encoding="utf-8") as file:
            file.write(text)
    asked = ["--plans", "plans"] if plans else []
    return subprocess.run([COMPANION, "--rehearse", program, *words, *asked, "old", "new"], cwd=folder, capture_output=True,
                          timeout=LONGEST_RUN, **{"stdin": subprocess.DEVNULL, **options})


def fault(done: subprocess.CompletedProcess, status: int, told: str) -> Optional[str]:
    """What is wrong with a run that owes a status and, below the names of both files, a text."""
    owed = f"--- old\n+++ new\n{told}".encode()
    if done.returncode != status or done.stderr:
        return f"status {done.returncode}, want {status}: {done.stderr.decode()}{done.stdout.decode()}"
    return None if done.stdout == owed else difference(owed, done.stdout)


SAME = "\nnone of 6 plans differs\n"
# Each crash of a@x alone costs the time of a failover. With b@x too web goes to c@x. Where c@x is lost with a@x, that is b@x again.
LONGER = """
plans a@x, a@x+c@x
- web running b@x, without it 5000 ms
+ web running b@x, without it 8000 ms

plan a@x+b@x
- web running c@x, without it 5000 ms
+ web running c@x, without it 8000 ms

3 of 6 plans differ
"""
# c@x stands before b@x now: so web runs elsewhere in two plans. Where both others are lost it runs there in either.
OTHER_ORDER = """
plan a@x
- web running b@x, without it 5000 ms
+ web running c@x, without it 5000 ms

1 of 6 plans differs
"""
# d@x is new, and its plans aren't made; far runs at a@x alone in the old file, and isn't distributed in the new one.
NAMES = """- profile 1
+ profile 2
- node c@x
- application old
+ node d@x
+ application new
- distributed far
"""


def whole_texts(program: str, folder: str) -> Iterator[Test]:
    """Whole texts that are told."""
    done = compared(program, folder, cluster(), "% Another comment.\n" + cluster() + "===\nboot nobody@x\n")
    yield "the same, and a script that isn't read", fault(done, 0, SAME)
    yield "a longer time", fault(compared(program, folder, cluster(), cluster(8000)), 1, LONGER)
    yield "a shorter time", fault(compared(program, folder, cluster(8000), cluster()), 1, swapped(LONGER))
    yield "another order", fault(compared(program, folder, cluster(), cluster(groups="[a@x, c@x, b@x]")), 1, OTHER_ORDER)
    # A time that nobody waits for: web is wanted at once.
    at_once = LONGER.replace("8000", "0")
    yield "no time", fault(compared(program, folder, cluster(), cluster(0)), 1, at_once)


def swapped(told: str) -> str:
    """What is told where the two files change places."""
    lines = told.splitlines(keepends=True)
    signs = {"- ": "+ ", "+ ": "- "}
    turned = [signs.get(line[:2], line[:2]) + line[2:] for line in lines]
    for place in range(len(turned) - 1):
        if turned[place].startswith("+ ") and turned[place + 1].startswith("- "):
            turned[place], turned[place + 1] = turned[place + 1], turned[place]
    return "".join(turned)


def names(program: str, folder: str) -> Iterator[Test]:
    """What only one of both files has is told first, and isn't told in each plan."""
    old = cluster(more=", {far, [a@x]}", front="{profile, 1}.\n", apps=APPS + "{application, far, []}. {application, old, []}.\n")
    new = cluster(nodes=("a@x", "b@x", "d@x"), groups="[a@x, b@x, d@x]", apps=APPS + "{application, far, []}. {application, new, []}.\n")
    done = compared(program, folder, old, new)
    told = done.stdout.decode()
    front, blocks = told.split("\n\n")[0] + "\n", told.split("\n\n")[1:]
    front_owed = {*NAMES.splitlines()}
    have = set(front.splitlines()[2:])
    yield "names of one file", None if have == front_owed and done.returncode == 1 else f"{have ^ front_owed}\n{told}"
    yield "far isn't compared", None if not any("far " in block for block in blocks) else told
    # The plans of c@x end there at once, since it isn't known.
    owed = ["plan c@x\n- all events accepted\n+ event 1, crash c@x: refused S1 unknown_node",
            "plan a@x+b@x\n- web running c@x, without it 5000 ms\n+ web running d@x, without it 5000 ms",
            "plans a@x+c@x, b@x+c@x\n- all events accepted\n+ event 2, crash c@x: refused S1 unknown_node", "4 of 6 plans differ\n"]
    yield "plans of a node that is gone", None if blocks == owed else told


PLANS = "===\nboot a@x\nboot b@x\nplan kept\ncrash b@x\ntick 5000\nplan gone\ncrash a@x\ntick 5000\n"
# In the new file b@x is forbidden at first: nothing moves there when a@x is lost, and no node can run it.
FORBIDDEN = """
plan gone
- web running b@x, without it 5000 ms
+ web wanted a@x, without it 5000 ms

1 of 2 plans differs
"""

def given_plans(program: str, folder: str) -> Iterator[Test]:
    """Plans of a file, with its base."""
    forbidden = cluster().replace("[{distributed", "[{permissions, [{web, false}]}, {distributed").replace(
        "{node, a@x, [{kernel, [{permissions, [{web, false}]}, ", "{node, a@x, [{kernel, [")
    done = compared(program, folder, cluster(), forbidden, plans="{node, z, []}.\n" + PLANS)
    yield "plans of a file", fault(done, 1, FORBIDDEN)
    done = compared(program, folder, cluster(), forbidden, plans=PLANS.split("boot b@x\n")[1])
    yield "plans alone", None if b"plan gone\n- web running b@x" in done.stdout and done.returncode == 1 else f"{done}"
    # Only the new b@x waits for c@x, which isn't booted.
    waits = cluster().replace("{node, b@x, [{kernel, [", "{node, b@x, [{kernel, [{sync_nodes_optional, [c@x]}, {sync_nodes_timeout, 9000}, ")
    for node in ("a@x", "c@x"):
        waits = waits.replace(f"{{node, {node}, [{{kernel, [", f"{{node, {node}, [{{kernel, [{{sync_nodes_timeout, 9000}}, ")
    done = compared(program, folder, cluster(), waits, plans="{node, z, []}.\n" + PLANS)
    told = done.stdout.decode()
    yield "behind the base", None if "\nbehind the base\n- b@x up\n+ b@x waiting\n\n" in told and done.returncode == 1 else told
    refused = "===\nboot a@x\nboot c@x\nplan p\ntick 1\n"
    done = compared(program, folder, cluster(), cluster(nodes=THREE[:2], groups="[a@x, b@x]"), plans=refused)
    owed = "- node c@x\n\nbehind the base\n- boot c@x: ok\n+ boot c@x: refused S1 unknown_node\n\nnone of 1 plan differs\n"
    yield "a base that is refused", fault(done, 1, owed)
    # A takeover of a node that comes back: one more of them, and the same end.
    back = "===\nboot a@x\nboot b@x\nplan back\ncrash a@x\ntick 5000\nboot a@x\n"
    done = compared(program, folder, cluster(groups="[{a@x, b@x}, c@x]"), cluster(), plans=back)
    owed = "\nplan back\n- web running b@x, without it 5000 ms\n+ web running a@x, without it 5000 ms\n\n1 of 1 plan differs\n"
    yield "a takeover", fault(done, 1, owed)
    # In a tuple b@x keeps it; in a list a@x takes it over, and is lost with it once more.
    back = "===\nboot a@x\nboot b@x\nboot c@x\nplan back\ncrash a@x\ntick 5000\nboot a@x\ncrash a@x\ntick 5000\n"
    done = compared(program, folder, cluster(groups="[{a@x, b@x}, c@x]"), cluster(), plans=back)
    owed = "\nplan back\n- web running b@x, without it 5000 ms\n+ web running b@x, without it 10000 ms\n\n1 of 1 plan differs\n"
    yield "two failovers", fault(done, 1, owed)
    back = "===\nboot a@x\nboot b@x\nplan back\npermit a@x web false\npermit a@x web true\npermit a@x web false\n"
    done = compared(program, folder, cluster(front="{profile, 1}.\n"), cluster(), plans=back)
    owed = "- profile 1\n+ profile 2\n\nplan back\n- failovers 0, takeovers 0\n+ failovers 0, takeovers 1\n\n1 of 1 plan differs\n"
    yield "another way to the same", fault(done, 1, owed)


def many(program: str, folder: str) -> Iterator[Test]:
    """Many plans in which the same differs stand in a line, of itself ten of them."""
    plans = "===\nboot a@x\nboot b@x\n" + "".join(f"plan p{number}\ncrash a@x\ntick 9000\n" for number in range(12))
    line = ", ".join(f"p{number}" for number in range(10))
    rows = "- web running b@x, without it 5000 ms\n+ web running b@x, without it 8000 ms\n\n12 of 12 plans differ\n"
    done = compared(program, folder, cluster(), cluster(8000), plans=plans)
    yield "twelve plans", fault(done, 1, f"\nplans {line} and 2 more\n{rows}")
    done = compared(program, folder, cluster(), cluster(8000), "--all", plans=plans)
    yield "twelve plans, each named", fault(done, 1, f"\nplans {line}, p10, p11\n{rows}")


def colours(program: str, folder: str) -> Iterator[Test]:
    """Colours stand on a terminal alone, and not where NO_COLOR is set."""
    compared(program, folder, cluster(), cluster(8000))
    for name, changed, has in (("a terminal", {"TERM": "xterm"}, True), ("NO_COLOR", {"TERM": "xterm", "NO_COLOR": "1"}, False),
                               ("a dumb one", {"TERM": "dumb"}, False)):
        env = {key: value for key, value in os.environ.items() if key != "NO_COLOR"}
        ours, theirs = pty.openpty()
        with subprocess.Popen([COMPANION, "--rehearse", program, "old", "new"], cwd=folder, stdin=subprocess.DEVNULL, stdout=theirs,
                              stderr=theirs, env={**env, **changed}) as child:
            os.close(theirs)
            told = read_all(ours)
            status = child.wait(timeout=LONGEST_RUN)
        is_right = (b"\x1b[31m- web running b@x" in told) == has == (b"\x1b[0m" in told) and status == 1 and b"8000 ms" in told
        yield f"colours: {name}", None if is_right else f"status {status}: {told}"


def read_all(terminal: int) -> bytes:
    """All that is written to a terminal until nobody has it open."""
    found = b""
    try:
        while more := os.read(terminal, 65536):
            found += more
    except OSError:
        pass
    os.close(terminal)
    return found


def faults(program: str, folder: str) -> Iterator[Test]:
    """What is refused, and wrong command lines."""
    for name, old, new, plans, told in (
            ("the old file", "{node", cluster(), "", "compare: old: cluster refused C1 T1 syntax line 2\n"),
            ("the new file", cluster(), "{node, a@x, []}. {node, a@x, []}.", "", "compare: new: cluster refused C4 duplicate_name\n"),
            ("no plans", cluster(), cluster(), "===\nboot a@x\n", "compare: plans: it has no plans\n"),
            ("a bad line", cluster(), cluster(), "===\nplan p\nsmash a@x\n",
             "compare: plans line 3 (line 2 behind ===): it is no command here: smash a@x\n"),
            ("a base that isn't at its end", cluster(), cluster(), "===\nboot a@x\nundo\nplan p\n",
             "compare: old: sweep refused V2 base_not_at_end\n")):
        done = compared(program, folder, old, new, plans=plans)
        is_right = done.returncode == 2 and done.stderr.decode() == told and not done.stdout
        yield f"refused: {name}", None if is_right else f"{done}"
    for words, told in ((["--nonsense"], "unrecognized arguments"), (["--plans", "-", "old", "-"], "only one of the files"),
                        (["--rehearse", "/nowhere/rehearse"], "there is no program /nowhere/rehearse")):
        done = subprocess.run([COMPANION, *words, *(["old", "new"] if "-" not in words else [])], cwd=folder, capture_output=True)
        yield f"a wrong command line: {words}", None if done.returncode == 4 and told in done.stderr.decode() else f"{done}"
    done = subprocess.run([COMPANION, "--rehearse", program, "-", "new"], cwd=folder, input=cluster().encode(), capture_output=True,
                          timeout=LONGEST_RUN)
    is_right = done.stdout.decode() == "--- standard input\n+++ new\n" + SAME and done.returncode == 0
    yield "standard input", None if is_right else f"{done}"
    done = compared(program, folder, cluster(), cluster(), "--help")
    yield "--help", None if done.returncode == 0 and b"companions/compare old.txt new.txt" in done.stdout else f"{done}"


def least(program: str, folder: str) -> Iterator[Test]:
    """The least losses that leave it wanted, where they differ: of three nodes no two do; of two nodes the loss of both does."""
    fewer = cluster(groups="[a@x, b@x]", nodes=("a@x", "b@x"))
    lines = compared(program, folder, cluster(), fewer, "--least").stdout.decode().splitlines()
    place = lines.index("least losses that leave it wanted") if "least losses that leave it wanted" in lines else len(lines)
    yield "--least", None if lines[place + 1:place + 3] == ["- web none", "+ web a@x+b@x"] else f"{lines}"
    done = compared(program, folder, cluster(), cluster(8000), "--least")
    yield "--least, the same ones", fault(done, 1, LONGER)
    done = compared(program, folder, cluster(), fewer)
    yield "without --least", None if b"least" not in done.stdout else f"{done}"


TESTS = tuple(Group(in_folder(tests)) for tests in (whole_texts, names, given_plans, many, colours, least, faults))
