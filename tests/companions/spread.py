"""Tests of companions/spread: its output is that of one run of the program, whatever happens to the runs that share it."""
import os
import signal
import subprocess
import tempfile
import time

from support import LONGEST_RUN, TOP, difference, fault_of, read, run

NEEDS = ("python3", "parallel", "perl")
COMPANION = os.path.join(TOP, "companions", "spread")
EXAMPLE = read(os.path.join(TOP, "examples", "five-nodes-sweep.txt"))
HEAD = EXAMPLE.split(b"plan ", 1)[0]
# The program, which writes down each process that sweeps.
COUNTED = '#!/bin/sh\n[ "$1" != sweep ] || echo $$ >> "%s"\nexec "%s" "$@"\n'
# The same, but the first run gets no input, and so doesn't end by itself.
FIRST_WAITS = """#!/bin/sh
[ "$1" != sweep ] && exec "%(program)s" "$@"
echo $$ >> "%(starts)s"
[ "$(wc -l < "%(starts)s")" -gt 1 ] || exec "%(program)s" "$@" <> "%(nothing)s"
exec "%(program)s" "$@"
"""
# In place of ssh, which sets SHELL: the machine `gone` reads what it is sent, answers a part of it and is lost.
MACHINES = """#!/usr/bin/env bash
while [[ $1 == -* && $1 != -- ]]; do shift; done
host=$1
shift
[[ $1 != -- ]] || shift
echo "$host" >> "%s"
if [[ $host == gone ]]; then
  head -c 100 > /dev/null
  echo "plan core1 accep"
  exit 255
fi
SHELL=$BASH exec bash -c "$*"
"""


def spread(program, words, text, **options):
    """A finished run of the companion, with an input."""
    return subprocess.run([COMPANION, "--rehearse", program, *words], input=text, capture_output=True, timeout=LONGEST_RUN, **options)


def script(path, text):
    """Writes a script that can be run."""
    with open(path, "w") as file:
        file.write(text)
    os.chmod(path, 0o700)
    return path


def as_one_run(program, words, text, pick="first"):
    """What is wrong with what is printed for an input, where what one run prints is right."""
    alone = run(program, ["sweep", "--pick", pick, *(["--json"] if "--json" in words else [])], input=text)
    return fault_of(spread(program, [*words, "--pick", pick], text), alone.returncode, alone.stdout)


def shares(program):
    """The example in several shares."""
    for number in ("1", "2", "7", "17", "100"):
        yield f"{number} shares", as_one_run(program, ["--shares", number, "--jobs", "2"], EXAMPLE)
        yield f"{number} shares, as JSON", as_one_run(program, ["--json", "--shares", number, "--jobs", "2"], EXAMPLE)
    yield "one at once", as_one_run(program, ["--shares", "5", "--jobs", "1"], EXAMPLE)
    yield "as many as there are processors", as_one_run(program, [], EXAMPLE)
    yield "--pick last, 3 workers", as_one_run(program, ["--shares", "4", "--workers", "3"], EXAMPLE, "last")
    with tempfile.NamedTemporaryFile() as file:
        file.write(EXAMPLE)
        file.flush()
        owed = run(program, ["sweep"], input=EXAMPLE).stdout
        done = subprocess.run([COMPANION, "--shares", "2", file.name], capture_output=True, timeout=LONGEST_RUN,
                              env={**os.environ, "REHEARSE": program})
        yield "from a file, by the program of the environment", fault_of(done, 0, owed)


def odd_texts(program):
    """Texts that are cut badly if somebody isn't careful, and those that one run refuses."""
    for name, text in [
            ("no line end", EXAMPLE + b"plan last\ncrash edge1@site"),
            ("lines end with CR LF", EXAMPLE.replace(b"\n", b"\r\n")),
            ("blanks, comments, empty plans",
             HEAD + b"# plan no\n  plan  a \ncrash core1@site\n\n# plan b\nplan c\nplan d\n# end\n"),
            ("names of applications in the base",
             HEAD + b"show\nundo\nshow\nredo\nplan p\ncrash core1@site\nplan p\nplan p\n"),
            ("what looks like a plan in the cluster file",
             HEAD.replace(b"ledger, []", b'ledger, [{description, "\nplan x\nboot core1@site\n"}]') + b"plan p\nplan q\n"),
            ("a bad line of the base", HEAD + b"\nreboot core1@site\nplan a\nplan b\nplan c\n"),
            ("a bad line of a plan", HEAD + b"plan a\nplan b\nplan c\ncrash\nplan d\nundo\n"),
            ("a plan with two names", HEAD + b"plan a\nplan b c\nplan d\n"),
            ("a plan without a name", HEAD + b"plan a\nplan\nplan d\n"),
            ("bytes that aren't UTF-8", HEAD + b"plan a\n# \xff\nplan b\ncrash \xff\n"),
            ("a base that isn't at its end", HEAD + b"undo\nplan a\nplan b\n"),
            ("too long a plan", HEAD + b"plan a\n" + b"tick 1\n" * 65_531 + b"plan b\n"),
            ("commands at all nodes",
             HEAD + b"stop_all ledger\ntick 5\nstart_all ledger permanent\nplan a\nstop_all gateway\nplan b\nstop_all nobody\n"
             b"plan c\nstop_all monitor\nstart_all monitor temporary\nplan d\nstart_all gateway transient\n"),
            ("a command at all nodes without its type", HEAD + b"plan a\nstop_all ledger\nplan b\nstart_all ledger\nplan c\n"),
            ("a profile behind a comment", b"% plan x\n{profile %\n, 2}.\n" + EXAMPLE),
            ("a profile that is none", b"{profile, 3}.\n" + EXAMPLE),
            ("a profile that isn't the first term", EXAMPLE.replace(b"\n===", b"\n{profile, 2}.\n===", 1)),
            ("a cluster that is refused", EXAMPLE.replace(b"ledger, 3000", b"ledger, 3001", 1)),
            ("no plan", HEAD), ("no script", HEAD.split(b"===")[0])]:
        yield name, as_one_run(program, ["--shares", "3", "--jobs", "2"], text)


# web is forbidden at a@x behind the base, so it runs at b@x. Each plan, and what is told of it by profile 1, and by 2 where that
# is something else.
GIVEN_BACK = "".join(f"{{node, {node}, [{{kernel, [{{distributed, [{{web, 500, [a@x, b@x]}}]}}]}},\n"
                     "  {rehearse, [{boot, [{web, permanent}]}]}]}.\n" for node in ("a@x", "b@x")) + "{application, web, []}.\n"
GIVEN_BACK_BASE = "===\nboot a@x\nboot b@x\npermit a@x web false\n"
GIVEN_BACK_TOLD = """ok
up a@x
started web a@x normal
ok
up b@x
waits web b@x
ok
stopped web a@x
started web b@x normal
"""
GIVEN_BACK_PLANS = [
    ("plan given-back\npermit a@x web true\n",
     "plan given-back accepted 1 failovers 0 takeovers 0\napp web running b@x\n",
     "plan given-back accepted 1 failovers 0 takeovers 1\napp web running a@x\n"),
    ("plan stopped\nstop_all web\n", "plan stopped accepted 1 failovers 0 takeovers 0\napp web quiet\n", None),
    # It waits at a@x, where it is forbidden still.
    ("plan again\nstop_all web\nstart_all web temporary\n",
     "plan again accepted 2 failovers 0 takeovers 0\napp web running b@x\n", None),
    ("plan twice\nstart_all web permanent\n",
     "plan twice accepted 0 failovers 0 takeovers 0\nrefused 1 S11 already_started\napp web running b@x\n", None),
    # It is lost with b@x, and permitted at a@x before its timer fires: then it fails over.
    ("plan lost\ncrash b@x\npermit a@x web true\ntick 500\n",
     "plan lost accepted 3 failovers 1 takeovers 0\napp web running a@x\n", None)]


def profiles(program):
    """Each share is swept by the profile of the whole."""
    for name, front, number in [("no profile", "", 1), ("profile 1", "{profile, 1}.\n", 1),
                                ("profile 2", "% Mine.\n{profile,\n 2}. ", 2)]:
        text = front + GIVEN_BACK + GIVEN_BACK_BASE + "".join(plan for plan, _, _ in GIVEN_BACK_PLANS)
        owed = GIVEN_BACK_TOLD + "".join(second if number == 2 and second else first for _, first, second in GIVEN_BACK_PLANS)
        for count in ("2", "5"):
            done = spread(program, ["--shares", count, "--jobs", "2"], text.encode())
            yield f"{name} in {count} shares", fault_of(done, 0, owed.encode())


def greatest():
    """The greatest cluster of profile 2 but for its first term, with plans, and what is told of it. Applications p0 and p64 run at
    node n0 alone, and so on. Each plan loses both of a node, and stops the first, which is started nowhere then."""
    entries = ", ".join(f"{{p{app}, 500, [n{app % 64}]}}" for app in range(128))
    text = ""
    for node in range(64):
        boot = f"{{p{node}, permanent}}, {{p{node + 64}, permanent}}"
        text += f"{{node, n{node}, [{{kernel, [{{distributed, [{entries}]}}]}}, {{rehearse, [{{boot, [{boot}]}}]}}]}}.\n"
    text += "".join(f"{{application, p{app}, []}}.\n" for app in range(128)) + "===\n"
    text += "".join(f"boot n{node}\n" for node in range(64))
    text += "".join(f"plan n{node}\ncrash n{node}\nstop_all p{node}\n" for node in range(64))
    owed = "".join(f"ok\nup n{node}\nstarted p{node} n{node} normal\nstarted p{node + 64} n{node} normal\n" for node in range(64))
    for node in range(64):
        owed += f"plan n{node} accepted 1 failovers 0 takeovers 0\nrefused 2 S12 never_started\n"
        owed += "".join(f"app p{app} {'lost' if app % 64 == node else 'running'} n{app % 64}\n" for app in range(128))
    return text, owed


def limits(program):
    """As many nodes and applications as profile 2 has, which are more than profile 1 has."""
    text, owed = greatest()
    done = spread(program, ["--shares", "5", "--jobs", "2"], ("{profile, 2}.\n" + text).encode())
    yield "64 nodes and 128 applications", fault_of(done, 0, owed.encode())
    done = spread(program, ["--shares", "5", "--jobs", "2"], text.encode())
    yield "64 nodes and 128 applications of profile 1", fault_of(done, 2, b"cluster refused C3 too_many\n")


def larger_input(program):
    """An input that one run doesn't read: each share of it is below the limit."""
    plain = HEAD + b"".join(b"plan p%d\ncrash core1@site\ntick 3000\n" % number for number in range(6))
    text = plain.replace(b"tick 3000\n", b"tick 3000\n#" + b"x" * 3_000_000 + b"\n")
    owed = run(program, ["sweep"], input=plain).stdout
    yield "18,000,000 bytes", fault_of(spread(program, ["--shares", "3", "--jobs", "2"], text), 0, owed)
    alone = run(program, ["sweep"], input=text)
    yield "18,000,000 bytes in one run", fault_of(alone, 4, b"")


def wait_for(told):
    """Waits until something is told, and gives it."""
    end = time.monotonic() + LONGEST_RUN
    while time.monotonic() < end:
        found = told()
        if found:
            return found
        time.sleep(0.005)
    raise TimeoutError


def at_work(path, program):
    """The first process of a list that runs the program."""
    for line in read(path).split() if os.path.exists(path) else []:
        try:
            if os.path.realpath(f"/proc/{int(line)}/exe") == os.path.realpath(program):
                return int(line)
        except OSError:
            pass
    return None


def killed(program):
    """A run that is killed while it works is done again."""
    text = HEAD + b"".join(b"plan p%d\ncrash edge%d@site\ntick 1\n" % (number, number % 3 + 1) for number in range(4))
    with tempfile.TemporaryDirectory() as folder:
        starts, nothing = os.path.join(folder, "starts"), os.path.join(folder, "nothing")
        os.mkfifo(nothing)
        waiting = script(os.path.join(folder, "program"), FIRST_WAITS % {"program": program, "starts": starts, "nothing": nothing})
        with open(os.path.join(folder, "input"), "wb") as file:
            file.write(text)
        with subprocess.Popen([COMPANION, "--rehearse", waiting, "--shares", "2", "--jobs", "1", file.name],
                              stdout=subprocess.PIPE, stderr=subprocess.PIPE) as child:
            os.kill(wait_for(lambda: at_work(starts, program)), signal.SIGKILL)
            out, told = child.communicate(timeout=LONGEST_RUN)
        owed = run(program, ["sweep"], input=text)
        wrong = f"status {child.returncode}, {told}\n{difference(owed.stdout, out)}"
        yield "a run is killed", wrong if (out, told, child.returncode) != (owed.stdout, b"", 0) else None
        tries = len(read(starts).split())
        yield "its share is done again", None if tries == 3 else f"{tries} runs, want 3"


def machines(program):
    """Machines that are lost, or never there. Each is a process here, since GNU parallel is told another ssh."""
    with tempfile.TemporaryDirectory() as folder:
        seen = os.path.join(folder, "seen")
        ssh = script(os.path.join(folder, "ssh"), MACHINES % seen)
        both = f"1/{ssh} gone,1/{ssh} good"
        yield "a machine is lost", as_one_run(program, ["--shares", "7", "--sshlogin", both], EXAMPLE)
        hosts = read(seen).split()
        is_right = hosts.count(b"good") == 7 and b"gone" in hosts
        yield "its shares are done elsewhere", None if is_right else f"{hosts}"
        with open(os.path.join(folder, "machines"), "w") as file:
            file.write(f"2/{ssh} good\n:\n")
        yield "machines of a file", as_one_run(program, ["--sshloginfile", file.name, "--shares", "6"], EXAMPLE)
        there = script(os.path.join(folder, "there"), COUNTED % (os.path.join(folder, "starts"), program))
        yield "another program there", as_one_run(
            program, ["--sshlogin", f"{ssh} good", "--remote", there, "--shares", "3"], EXAMPLE)
        tries = len(read(os.path.join(folder, "starts")).split())
        yield "it is the one that runs", None if tries == 3 else f"{tries} runs, want 3"
        yield "a machine tells a bad line", as_one_run(
            program, ["--sshlogin", f"{ssh} good", "--shares", "2"], EXAMPLE + b"undo\n")
        done = spread(program, ["--sshlogin", f"{ssh} gone", "--retries", "2", "--shares", "2"], EXAMPLE)
        is_right = done.returncode == 9 and done.stdout == b"" and b"2 of 2 shares weren't done" in done.stderr
        yield "no machine is left", None if is_right else f"{done}"


def faults(program):
    """Wrong command lines, programs that aren't ours, and help."""
    for words, told in [(["--nonsense"], "unrecognized arguments: --nonsense"), (["--shares", "0"], "--shares: '0' is no number from 1 on"),
                        (["--workers", "17"], "--workers: '17' is no number from 1 to 16"),
                        (["--jobs"], "--jobs: expected one argument"), (["a", "b"], "unrecognized arguments: b"),
                        (["--rehearse", "/nowhere/rehearse"], "no program /nowhere/rehearse"),
                        (["--pick", "best"], "--pick: invalid choice: 'best'")]:
        done = spread(program, words, EXAMPLE)
        is_right = done.returncode == 1 and done.stdout == b"" and told in done.stderr.decode()
        yield f"refused: {told}", None if is_right else f"{done}"
    done = spread(program, ["--remote", "/bin/false", "--retries", "1"], EXAMPLE)
    yield "no share is done", None if done.returncode == 9 and b"status 1" in done.stderr else f"{done}"
    done = spread(program, ["--remote", "/bin/true"], EXAMPLE)
    yield "nothing is answered", None if done.returncode == 9 and b"17 plans" in done.stderr else f"{done}"
    done = spread(program, ["/nowhere/plans"], b"")
    is_right = done.returncode == 2 and done.stderr == b"spread: /nowhere/plans: No such file or directory\n"
    yield "no file", None if is_right else f"{done}"
    done = spread(program, ["--help"], b"")
    yield "--help", fault_of(done, 0, None) or (None if b"--sshlogin" in done.stdout else f"{done}")


def nothing_left(program):
    """No file is left behind."""
    with tempfile.TemporaryDirectory() as folder:
        for text in (EXAMPLE, HEAD + b"undo\nplan a\n"):
            spread(program, ["--shares", "2"], text, env={**os.environ, "TMPDIR": folder})
        left = os.listdir(folder)
        yield "files that are left", None if not left else f"{left}"


TESTS = (shares, odd_texts, profiles, limits, larger_input, killed, machines, faults, nothing_left)
