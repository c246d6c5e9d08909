"""Tests of companions/shell: conversations through a pipe, and at a terminal with the TAB key."""
import os
import pty
import re
import select
import signal
import subprocess
import tempfile
import time

from support import LONGEST_RUN, TOP, difference, fault_of, read, run

NEEDS = ("python3",)
COMPANION = os.path.join(TOP, "companions", "shell")
# Only the first four names are applications: the others stand in a comment, a string, other places, or in quotes.
CLUSTER = """% Here a quote isn't closed: {application, nobody, []}. {node, no@where, []}.
{node, a@x, [{kernel, [{distributed, [{web, 700, [a@x, 'b-1@x']}]}, {sync_nodes_optional, ['b-1@x']},
    {sync_nodes_timeout, 900}]}, {sasl, [{dir, "{application, text, []}. 'x"}]},
  {rehearse, [{boot, [{'it\\'s', temporary}, {web, permanent}]}, {platform, [ssl]}]}]}.
{node, 'b-1@x', [{kernel, [{distributed, [{web, 700, [a@x, 'b-1@x']}]}, {sync_nodes_timeout, 900}]},
  {rehearse, [{boot, [{web, permanent}]}]}]}.
{application,web,[{applications, [kernel]}]}. {application, 'it\\'s', []}. {application, 'Ops', []}.
{ application % the fourth one
, spare, [{mod, {spare_app, [web_arg]}}]}.
"""
BANNER = "2 nodes, 4 applications, profile 1; help lists the commands\n"


def talk(program, entered, file, words=()):
    """A finished run of the companion on a file, with lines that are entered."""
    return subprocess.run([COMPANION, "--rehearse", program, *words, file], input=entered.encode(), capture_output=True,
                          timeout=LONGEST_RUN)


class Files:
    """A folder with a cluster file, which goes away again."""

    def __enter__(self):
        self.folder = tempfile.TemporaryDirectory()
        return self

    def __exit__(self, *_):
        self.folder.cleanup()

    def path(self, name, text=None):
        """The path of a file of the folder, which gets a text if there is one."""
        path = os.path.join(self.folder.name, name)
        if text is not None:
            with open(path, "w") as file:
                file.write(text)
        return path


# a@x waits for b-1@x, which waits for nobody.
BOTH = "ok\nok\nup a@x\nup b-1@x\nstarted it's a@x normal\nstarted web a@x normal\nwaits web b-1@x\n"


def conversations(program):
    """What is answered, line by line."""
    with Files() as files:
        file = files.path("cluster", CLUSTER)
        for name, entered, owed in [
                ("nothing", "", ""),
                ("names", "names\n", "nodes: a@x b-1@x\napplications: web it's Ops spare\n"),
                ("two nodes", "boot a@x\nboot b-1@x\nundo\nredo\nundo_all\nredo_all\nredo\n",
                 BOTH + "ok\nok\nok 2\nok 2\nrefused at_end\n"),
                ("the state", "  boot   b-1@x\n\ntick 900\nshow\n",
                 "ok\nup b-1@x\nstarted web b-1@x normal\nok\nok\nnow 900\nnode a@x down 0\nnode b-1@x up 1\n"
                 "  running web permanent normal\napp web running b-1@x\n"),
                ("what is no command",
                 "boot\nboot a@x b-1@x\nreboot a@x\ntick -1\nexit a@x web badly\nstart_all web\nstop_all a@x web\n===\nplan p\nundo",
                 "that is no command: boot N\n" * 2 + "that is no command (did you mean boot?): help lists them\n"
                 "that is no command: tick MILLISECONDS\nthat is no command: exit N A normal|abnormal\n"
                 "that is no command: start_all A permanent|transient|temporary\nthat is no command: stop_all A\n"
                 + "that is no command: help lists them\n" * 2 + "refused at_start\n"),
                ("what is refused", "crash a@x\nboot c@x\nstart a@x web permanent\n",
                 "refused S5 not_alive\nrefused S1 unknown_node\nrefused S8 node_not_up\n"),
                ("at all nodes", "boot a@x\nboot b-1@x\nstop_all web\nstop_all web\nstart_all web temporary\n"
                 "start_all web permanent\nstart_all it's permanent\nstop_all nobody\nundo\nredo\n",
                 BOTH + "ok\nstopped web a@x\nrefused S12 never_started\nok\nstarted web a@x normal\nwaits web b-1@x\n"
                 "refused S11 already_started\nrefused S9 not_distributed\nrefused S2 unknown_app\nok\nok\n"),
                ("a permission that is given back", "boot a@x\nboot b-1@x\npermit a@x web false\npermit a@x web true\n",
                 BOTH + "ok\nstopped web a@x\nstarted web b-1@x normal\nok\n"),
                ("a command that is nearly one", "crsh a@x\nhepl\nstart a@x web permament\n",
                 "that is no command (did you mean crash?): help lists them\nthat is no command (did you mean help?): help lists them\n"
                 "that is no command: start N A permanent|transient|temporary (did you mean permanent?)\n"),
                ("a name that is nearly one", "boot b-2@x\nboot c@x\nstart_all spar permanent\n",
                 "refused S1 unknown_node\ndid you mean b-1@x?\nrefused S1 unknown_node\nrefused S2 unknown_app\ndid you mean spare?\n"),
                ("help of a command", "help stop_all\nhelp names\nhelp bot\nhelp tick now\n",
                 "stop_all A: stops A at all its nodes\nas: stop_all web\nwhat follows from it: stopped\n"
                 "it is refused as: S2, S9, S12 (`./rehearse help S2` tells more)\nnames lists the nodes and the applications\n"
                 "there is no command bot (did you mean boot?): help lists them\n"
                 "help, or help COMMAND\n"),
                ("quit", "boot a@x\nquit\nboot b-1@x\n", "ok\n"), ("exit", "exit\nboot a@x\n", "")]:
            yield name, fault_of(talk(program, entered, file), 0, (BANNER + owed).encode())
        done = talk(program, "help\n", file)
        yield "help", fault_of(done, 0, None) or (None if b"\nstart_all A T " in done.stdout and b"\nstop_all A " in done.stdout else f"{done}")


# Live nodes start web elsewhere before they stop it, as a takeover; and pull it back where it may run again, also in profile 1.
AT_TWO = "".join(
    f"{{node, {node}, [{{kernel, [{{distributed, [{{web, 700, [a@x, b@x]}}]}}, {{sync_nodes_optional, [{other}]}}, {{sync_nodes_timeout, 900}}]}},\n"
    "  {rehearse, [{boot, [{web, permanent}]}]}]}.\n" for node, other in (("a@x", "b@x"), ("b@x", "a@x"))) + "{application, web, []}.\n"
BY_THE_RULES = "ok\nok\nup a@x\nup b@x\nstarted web a@x normal\nwaits web b@x\n"
FORBIDDEN = "ok\nstopped web a@x\nstarted web b@x normal\n"
FORBIDDEN_LIVE = "> started web b@x takeover a@x\n< started web b@x normal\n! why: .*#forbid-moves\\)\n"
GIVEN_BACK_LIVE = "> started web a@x takeover b@x\n> stopped web b@x\n! why: .*#profile-1-permission\\)\n"


def live_nodes(program):
    """What live nodes do otherwise: at the last command, or beside each answer."""
    with Files() as files:
        file = files.path("cluster", AT_TWO)
        for name, entered, owed in [
                ("at the last command", "live\nboot a@x\nboot b@x\nlive\npermit a@x web false\nlive\nlive\n",
                 "there is no command yet\n" + BY_THE_RULES + "live nodes do the same\n" + FORBIDDEN + FORBIDDEN_LIVE * 2),
                ("beside each answer", "boot a@x\nboot b@x\nlive on\npermit a@x web false\npermit a@x web true\nundo\nlive off\nundo\nlive now\n",
                 BY_THE_RULES + "beside each answer .*\n" + FORBIDDEN + FORBIDDEN_LIVE + "ok\n" + GIVEN_BACK_LIVE
                 + "ok\nlive nodes do the same\nwithout live nodes\nok\nlive, live on, or live off\n")]:
            done = talk(program, entered, file)
            told = done.stdout.decode().partition("help lists the commands\n")[2]
            yield f"live nodes {name}", fault_of(done, 0, None) or (None if re.fullmatch(owed, told) else told)


# A start waits for a better node, which is up and never starts it.
HANGING = """{node, n1@lab, [
  {kernel, [{distributed, [{svc, 1000, [n1@lab, n2@lab]}]},
    {sync_nodes_optional, [n2@lab]}, {sync_nodes_timeout, 1000}]}]}.
{node, n2@lab, [
  {kernel, [{distributed, [{svc, 1000, [n1@lab, n2@lab]}]},
    {sync_nodes_optional, [n1@lab]}, {sync_nodes_timeout, 1000}]}]}.
{application, svc, []}.
"""
HANGS = "boot n1@lab\nboot n2@lab\nstart n2@lab svc transient\n"
HUNG = "ok\nok\nup n2@lab\nup n1@lab\nno answer\n"
HUNG_REPORT = ("ok\nnow 0\nnode n1@lab up 1\nnode n2@lab up 1\n  starting svc\n  blocked dist_ac start svc for n1@lab\n"
               "app svc nowhere\nopen start n2@lab svc transient\n")
HUNG_STORY = """boot n1@lab
#= ok
boot n2@lab
#= ok
#= up n2@lab
#= up n1@lab
start n2@lab svc transient
#= no answer
#- n2@lab blocked dist_ac start svc for n1@lab
"""


def by_live_nodes(program):
    """With --rules otp25 live nodes answer: what is said, shown, taken back and saved."""
    live = ("--rules", "otp25")
    banner = "2 nodes, 1 application, profile 1, live nodes of OTP 25; help lists the commands\n"
    with Files() as files:
        file, story = files.path("cluster", HANGING), files.path("story")
        for name, entered, owed in [
                ("a start that hangs", HANGS + "show\ncrash n1@lab\nundo\nundo\nredo\nshow\n",
                 HUNG + HUNG_REPORT + "ok\nended n1@lab\nstarted svc n2@lab normal\nanswered start n2@lab svc transient: ok\nok\nok\nok\n" + HUNG_REPORT),
                ("what is refused", "start n1@lab svc transient\nboot n1@lap\nboots n1@lab\n",
                 "refused S8 node_not_up\nrefused S1 unknown_node\ndid you mean n1@lab?\nthat is no command (did you mean boot?): help lists them\n"),
                ("live", "live\n", "live nodes answer here; without --rules otp25 the manual's rules do, and live tells where they differ\n")]:
            yield f"by live nodes: {name}", fault_of(talk(program, entered, file, live), 0, (banner + owed).encode())
        done = talk(program, f"# A start that waits.\n{HANGS}boot n1@lab\nshow\nsave {story}\n", file, live)
        saved = banner + HUNG + "refused S3 already_alive\n" + HUNG_REPORT + f"saved: rehearse verify --rules otp25 < {story}\n"
        yield "by live nodes: save", fault_of(done, 0, saved.encode())
        text, kept = f"{HANGING}===\n# A start that waits.\n{HUNG_STORY}".encode(), read(story)
        yield "by live nodes: what is saved", None if kept == text else difference(text, kept)
        done = run(program, ["verify", *live], input=read(story))
        yield "by live nodes: it holds", fault_of(done, 0, b"ok 3 of 3 commands checked\n")
        done = talk(program, "show\n", story, live)
        behind = banner.replace("; help", ", behind 3 commands of the script; help")
        yield "by live nodes: behind a story", fault_of(done, 0, (behind + HUNG_REPORT).encode())


def second_profile(program):
    """A file of profile 2: a permission that is given back pulls web back, and what is saved is of that profile too."""
    text = "% The profile of a live OTP.\n{profile, 2}. " + CLUSTER
    entered = "boot a@x\nboot b-1@x\npermit a@x web false\npermit a@x web true\n"
    told = BOTH + "ok\nstopped web a@x\nstarted web b-1@x normal\nok\nstarted web a@x takeover b-1@x\nstopped web b-1@x\n"
    banner = BANNER.replace("profile 1", "profile 2")
    with Files() as files:
        file, story = files.path("cluster", text), files.path("story")
        done = talk(program, f"{entered}save {story}\n", file)
        yield "profile 2", fault_of(done, 0, (banner + told + f"saved: rehearse verify < {story}\n").encode())
        yield "profile 2, a run of the story", fault_of(run(program, ["run"], input=read(story)), 0, told.encode())
        yield "profile 2, on from the story", fault_of(talk(program, "undo\n", story), 0, (banner.replace(
            "2;", "2, behind 4 commands of the script;") + "ok\n").encode())


def banners(program):
    """The first line counts one of each as one."""
    with Files() as files:
        for name, text, owed in [
                ("none", "{node, a, []}.\n", "1 node, 0 applications, profile 1; help lists the commands\n"),
                ("one", "{node, a, []}. {application, b, []}.\n===\n# A note.\nboot a\nplan p\nboot a\n",
                 "1 node, 1 application, profile 1, behind 1 command of the script; help lists the commands\n")]:
            yield f"the first line: {name} of each", fault_of(talk(program, "", files.path(name, text)), 0, owed.encode())


def like_a_run(program):
    """Each example, entered line by line, is answered as by one run of the program."""
    for name in ("failover-and-takeover", "repaired-node", "release", "local-applications", "rolling-restart",
                 "rolling-restart-by-permissions", "rolling-restart-by-permissions-profile-2", "release-at-all-nodes",
                 "waiting-nodes"):
        source = read(os.path.join(TOP, "examples", f"{name}.txt")).decode()
        cluster, script = source.split("===\n")
        owed = run(program, ["run", "--pick", "last"], input=source.encode()).stdout
        with Files() as files:
            done = talk(program, script, files.path("cluster", cluster), ["--pick", "last"])
        told = done.stdout.split(b"; help lists the commands\n", 1)[-1]
        yield f"examples/{name}.txt", fault_of(done, 0, None) or (difference(owed, told) if told != owed else None)


ENTERED = """boot a@x
# Now the other one.
boot b-1@x
crash a@x
undo
crash b-1@x
crash b-1@x
undo_all
redo_all
show
# The end.
"""
STORY = """boot a@x
#= ok
#- waits for b-1@x until 900
# Now the other one.
boot b-1@x
#= ok
#= up a@x
#= up b-1@x
#= started it's a@x normal
#= started web a@x normal
#= waits web b-1@x
#- runs at a@x
crash b-1@x
#= ok
#= ended b-1@x
# The end.
"""
TAKEN_BACK = "crash a@x\n#= ok\n#= ended a@x\nundo\n#= ok\n"
WHOLE = STORY.replace("crash b-1@x\n", TAKEN_BACK + "crash b-1@x\n").replace("# The end.\n", """\
crash b-1@x
#= refused S5 not_alive
undo_all
#= ok 3
redo_all
#= ok 3
show
#= ok
#= now 0
#= node a@x up 1
#=   running it's temporary normal
#=   running web permanent normal
#= node b-1@x down 1
#= app web running a@x
# The end.
""")
# Behind a story stands where each distributed application ran: by the steps that stand web never ended.
TABLE = "\n#| web ran at a@x 0 to now\n"


def stories(program):
    """What is saved, and how a session goes on from it."""
    with Files() as files:
        file, story, whole = files.path("cluster", CLUSTER), files.path("story"), files.path("whole")
        talk(program, f"{ENTERED}save {story}\nsave {whole} all\n", file)
        for name, path, text in [("story", story, STORY), ("whole story", whole, WHOLE)]:
            owed = (CLUSTER + "===\n" + text + TABLE).encode()
            yield f"the {name}", difference(owed, read(path)) if read(path) != owed else None
            told = "".join(f"{line[3:]}\n" for line in text.splitlines() if line.startswith("#= "))
            yield f"a run of the {name}", fault_of(run(program, ["run"], input=read(path)), 0, told.encode())
            count = {"story": 3, "whole story": 9}[name]
            yield f"the {name} holds", fault_of(run(program, ["verify"], input=read(path)), 0,
                                                f"ok {count} of {count} commands checked\n".encode())
            done = talk(program, f"save {path}.again{' all' if path == whole else ''}\n", path)
            yield f"the {name} as it was", fault_of(done, 0, None) or (
                difference(owed, read(path + ".again")) if read(path + ".again") != owed else None)
        done = talk(program, f"undo\nundo\nredo\ntick 5\nredo\nsave {story}\nsave {story}.b\nundo\nsave {story}.b\n", story)
        owed = BANNER.replace("1;", "1, behind 3 commands of the script;")
        owed += f"ok\nok\nok\nok\nrefused at_end\n{story}: File exists\nsaved: rehearse verify < {story}.b\nok\n"
        owed += f"saved: rehearse verify < {story}.b\n"
        yield "on from a story", fault_of(done, 0, owed.encode())
        owed = (CLUSTER + "===\n" + STORY.split("crash ")[0] + TABLE).encode()
        yield "the story that is left", difference(owed, read(story + ".b")) if read(story + ".b") != owed else None
        talk(program, f"boot a@x\nboot b-1@x\nundo_all\nboot b-1@x\nundo\nredo_all\nsave {story}.d\n", file)
        owed = (CLUSTER + "===\nboot b-1@x\n#= ok\n#= up b-1@x\n#= started web b-1@x normal\n" + TABLE.replace("a@x", "b-1@x")).encode()
        yield "all is taken back", difference(owed, read(story + ".d")) if read(story + ".d") != owed else None
        # Steps at all nodes are steps: of three, the last one is taken back.
        talk(program, f"boot b-1@x\nstop_all web\nstart_all web temporary\nundo_all\nredo_all\nundo\nsave {story}.e\n", file)
        owed = (CLUSTER + "===\nboot b-1@x\n#= ok\n#= up b-1@x\n#= started web b-1@x normal\nstop_all web\n#= ok\n"
                "#= stopped web b-1@x\n\n#| web ran at b-1@x 0 to 0; nowhere for 0 ms in 1 piece\n").encode()
        yield "a story of steps at all nodes", difference(owed, read(story + ".e")) if read(story + ".e") != owed else None
        done = talk(program, f"save\nsave /nowhere/story\nsave {story}.c some\n", file)
        owed = BANNER + "save PATH, or save PATH all\n/nowhere/story: No such file or directory\nsave PATH, or save PATH all\n"
        yield "what can't be saved", fault_of(done, 0, owed.encode())
    sweep = os.path.join(TOP, "examples", "five-nodes-sweep.txt")
    done = talk(program, "crash core1@site\n", sweep)
    owed = b"5 nodes, 3 applications, profile 1, behind 5 commands of the script; help lists the commands\nok\nended core1@site\n"
    yield "a file with plans", fault_of(done, 0, owed)


class Terminal:
    """The companion at a terminal."""

    def __init__(self, program, file, **more):
        self.child, self.side = pty.fork()
        if self.child == 0:
            # What is entered is kept beside the file.
            plain = {**os.environ, "TERM": "dumb", "INPUTRC": "/dev/null", "XDG_STATE_HOME": os.path.dirname(file), **more}
            os.execve(COMPANION, [COMPANION, "--rehearse", program, file], plain)
        self.text = self.raw = ""

    def __enter__(self):
        return self

    def __exit__(self, *_):
        try:
            os.kill(self.child, signal.SIGKILL)
            os.waitpid(self.child, 0)
        except (ProcessLookupError, ChildProcessError):
            pass
        os.close(self.side)

    def fault(self, keys, *owed):
        """Presses keys, and gives None as soon as the screen shows what is owed, one text behind the other, else what it
        shows."""
        if keys:
            self.wait_for_idleness()
            os.write(self.side, keys.encode())
        for text in owed:
            if not self.shows(text):
                return f"the screen shows {self.text!r}, want {text!r}"
            self.text = self.text.split(text, 1)[1] if text else self.text
        return None

    def shows(self, text):
        """Whether the screen shows a text in time."""
        end = time.monotonic() + LONGEST_RUN
        while text not in self.text:
            ready, _, _ = select.select([self.side], [], [], max(0, end - time.monotonic()))
            try:
                more = os.read(self.side, 65536) if ready else b""
            except OSError:
                more = b""
            if not more:
                return False
            self.raw += more.decode()
            # A read may end within an escape sequence, or between CR and LF.
            self.text = re.sub(r"\x1b\[[0-9;?]*[a-zA-Z]", "", (self.text + more.decode()).replace("\r\n", "\n"))
        return True

    def wait_for_idleness(self):
        """Waits until the companion waits for keys. Python misses a Ctrl-C between what it shows and that."""
        end = time.monotonic() + LONGEST_RUN
        while time.monotonic() < end:
            with open(f"/proc/{self.child}/stat") as file:
                if file.read().rsplit(")", 1)[1].split()[0] == "S":
                    return
            time.sleep(0.005)

    def status(self):
        """The exit status, once the companion has ended."""
        end = time.monotonic() + LONGEST_RUN
        while time.monotonic() < end:
            ended, status = os.waitpid(self.child, os.WNOHANG)
            if ended:
                return os.waitstatus_to_exitcode(status)
            time.sleep(0.01)
        return None


def keys(program):
    """The TAB key, Ctrl-C and Ctrl-D."""
    with Files() as files, Terminal(program, files.path("cluster", CLUSTER)) as terminal:
        # Where a command was answered the next keys wait for the prompt.
        for name, pressed, *owed in [
                ("the prompt", "", "0 ms> "),
                ("a command", "bo\t", "boot "), ("a node", "b\t", "b-1@x "), ("a command is done", "\r", "up b-1@x\n", "0 ms> "),
                ("what two commands begin with", "sta\t", "rt"), ("the shorter one", " b\t", "b-1@x "), ("an application", "O\t", "Ops "),
                ("a restart type", "tr\t", "transient "), ("it starts", "\r", "started Ops b-1@x normal\n", "0 ms> "),
                ("a node that is down", "boot \t", "boot a@x "),
                ("it boots", "\r", "started web a@x takeover b-1@x\n", "0 ms> "),
                ("what stops it everywhere", "stop_\t", "stop_all "), ("the only one that is distributed", "\t", "web "),
                ("it stops", "\r", "stopped web a@x\n", "0 ms> "), ("what starts it everywhere", "start_\t", "start_all "),
                ("the same one", "\t", "web "), ("with a type", "te\t", "temporary "),
                ("it starts at both", "\r", "started web a@x normal\nwaits web b-1@x\n", "0 ms> "),
                ("its application is lost", "crash a@x\r", "ended a@x\n", "0 ms> "),
                ("the time to the next timer", "tick \t", "tick 700 "),
                ("time passes", "\r", "started web b-1@x normal\n", "700 ms> "),
                ("a line is begun", "crash", "crash"), ("it is left", "\x03", "700 ms> "),
                ("the next line", "sh\t", "show "), ("the state", "\r", "now 700\n", "700 ms> "),
                ("it is lost again", "crash b-1@x\r", "ended b-1@x\n", "700 ms> "),
                ("the time from now on", "tick \t", "tick 700 "), ("a line is wiped out", "\x15", ""),
                ("what two others begin with", "un\t", "do"), ("a list of them", "\t\t", "undo_all"),
                ("all of them", "_\t\r", "ok 8\n", "0 ms> ")]:
            yield f"at a terminal: {name}", terminal.fault(pressed, *owed)
        yield "at a terminal: Ctrl-D", terminal.fault("\x04", "\n")
        status = terminal.status()
        yield "at a terminal: the status", None if status == 0 else f"{status}"


def history(program):
    """What was entered comes back another time, and where it can't be kept nothing is said."""
    with Files() as files:
        file = files.path("cluster", CLUSTER)
        with Terminal(program, file) as terminal:
            # It is killed behind this, as where a terminal is closed.
            yield "history: a line is entered", terminal.fault("", "0 ms> ") or terminal.fault("boot b-1@x\r", "up b-1@x\n", "0 ms> ")
        with Terminal(program, file) as terminal:
            yield "history: it comes back", terminal.fault("", "0 ms> ") or terminal.fault("\x10\r", "boot b-1@x\n", "up b-1@x\n", "0 ms> ")
        kept = read(files.path("rehearse/shell-history"))
        yield "history: the file", None if kept == b"boot b-1@x\n" else f"{kept}"
        with Terminal(program, file, XDG_STATE_HOME="/dev/null") as terminal:
            told = terminal.fault("", "0 ms> ") or terminal.fault("\x04", "\n")
            yield "history: it can't be kept", told or (None if terminal.status() == 0 else "the status")


def colours(program):
    """Answers have colours at a terminal, and not where NO_COLOR is set."""
    with Files() as files:
        file = files.path("cluster", CLUSTER)
        for name, more, has in (("a terminal", {"TERM": "xterm"}, True), ("NO_COLOR", {"TERM": "xterm", "NO_COLOR": "1"}, False),
                                ("a dumb terminal", {}, False)):
            with Terminal(program, file, **more) as terminal:
                told = terminal.fault("", "0 ms> ") or terminal.fault("boot b-1@x\r", "up b-1@x\n", "0 ms> ") or terminal.fault("crash a@x\r", "S5", "0 ms> ")
                shown = [text in terminal.raw for text in ("\x1b[32mup b-1@x\x1b[0m", "\x1b[31mrefused S5 not_alive\x1b[0m")]
                yield f"colours: {name}", told or (None if shown == [has, has] else repr(terminal.raw))


# ---- One process of the program


class Calls:
    """A program that keeps its calls, each with the number of its process. What stands in `first` it does before."""

    def __init__(self, files, program, first=""):
        self.file = files.path("calls", "")
        self.text = f'#!/bin/sh\necho "$$ $*" >> "{self.file}"\n{first}exec "{program}" "$@"\n'
        self.path = files.path("program")
        self.make()

    def make(self):
        """Writes it."""
        with open(self.path, "w") as file:
            file.write(self.text)
        os.chmod(self.path, 0o755)

    def runs(self):
        """The processes that were to make commands, in their order."""
        calls = [line.split(" ") for line in read(self.file).decode().splitlines()]
        return [int(number) for number, word, *_ in calls if word == "run"]


def is_alive(number):
    """Whether a process is there, and hasn't ended."""
    try:
        with open(f"/proc/{number}/stat") as file:
            return file.read().rsplit(")", 1)[1].split()[0] not in "ZX"
    except FileNotFoundError:
        return False


def ends(number):
    """What is wrong where a process doesn't end in time."""
    end = time.monotonic() + LONGEST_RUN
    while is_alive(number):
        if time.monotonic() > end:
            return f"process {number} is still there"
        time.sleep(0.01)
    return None


class Piped:
    """The companion behind a pipe that stays open."""

    def __init__(self, program, file):
        self.child = subprocess.Popen([COMPANION, "--rehearse", program, file], stdin=subprocess.PIPE, stdout=subprocess.PIPE,
                                      stderr=subprocess.PIPE)

    def __enter__(self):
        return self

    def __exit__(self, *_):
        self.child.kill()
        self.child.communicate()

    def fault(self, line, owed):
        """Enters a line, and gives None as soon as what is owed has come, and else what came."""
        self.child.stdin.write(line.encode())
        self.child.stdin.flush()
        told = b""
        while len(told) < len(owed) and select.select([self.child.stdout], [], [], LONGEST_RUN)[0]:
            more = os.read(self.child.stdout.fileno(), 65536)
            if not more:
                break
            told += more
        return None if told == owed.encode() else f"{told}, want {owed}"

    def end(self):
        """What is wrong with its end, when no more lines come."""
        out, error = self.child.communicate(timeout=LONGEST_RUN)
        return None if (self.child.returncode, out, error) == (0, b"", b"") else f"{self.child.returncode} {out} {error}"


def same(owed, shown):
    """What is wrong with a value, or None."""
    return None if owed == shown else f"want {owed}, have {shown}"


UP_B = "ok\nup b-1@x\nstarted web b-1@x normal\n"


def one_process(program):
    """All commands are made by one process of the program, but behind a line that is none."""
    with Files() as files:
        file, calls = files.path("cluster", CLUSTER), Calls(files, program)
        done = talk(calls.path, "boot b-1@x\n# A note.\n\n" + "tick 1\n" * 400 + "undo\ncrash b-1@x\n", file)
        yield "many commands", fault_of(done, 0, (BANNER + UP_B + "ok\n" * 401 + "ok\nended b-1@x\n").encode())
        yield "many commands: one process", same(1, len(calls.runs()))
        yield "many commands: it has ended", same([False], list(map(is_alive, calls.runs())))
        calls, bad = Calls(files, program), "that is no command: tick MILLISECONDS\n"
        done = talk(calls.path, "boot b-1@x\ntick\ntick -1\ntick 7\nredo\nshow\nundo_all\n", file)
        yield "bad lines in between", fault_of(done, 0, (
            BANNER + UP_B + bad + bad + "ok\nrefused at_end\nok\nnow 7\nnode a@x down 0\nnode b-1@x up 1\n"
            "  running web permanent normal\napp web running b-1@x\nok 2\n").encode())
        yield "bad lines in between: a process behind each", same(3, len(calls.runs()))
        # The script is more than a pipe holds, and so are its answers.
        long, calls = files.path("long", CLUSTER + "===\nboot b-1@x\n" + "tick 1\n" * 20_000), Calls(files, program)
        owed = BANNER.replace("1;", "1, behind 20001 commands of the script;") + "ok\nok\ncommand?\nok 20001\n"
        done = talk(calls.path, "undo\nredo\ncommand?\nundo_all\n", long)
        yield "a long script", fault_of(done, 0, owed.replace("command?", "that is no command: help lists them").encode())
        yield "a long script: one process, and one behind the bad line", same(2, len(calls.runs()))


def deaths(program):
    """Each answer comes before the next line is entered. Where the process has died, a line tells it and nothing is lost."""
    with Files() as files:
        file, calls = files.path("cluster", CLUSTER), Calls(files, program)
        with Piped(calls.path, file) as piped:
            yield "an answer before the next line", piped.fault("boot b-1@x\n", BANNER + UP_B) or piped.fault("tick 5\n", "ok\n")
            os.kill(calls.runs()[0], signal.SIGKILL)
            yield "it was killed", piped.fault("tick 6\n", f"{file}: {calls.path} was ended by signal 9\n")
            yield "on behind the commands before", piped.fault("crash b-1@x\n", "ok\nended b-1@x\n") or piped.fault("undo_all\n", "ok 3\n")
            os.kill(calls.runs()[1], signal.SIGKILL)
            os.remove(calls.path)
            yield "it was killed again", piped.fault("redo\n", f"{file}: {calls.path} was ended by signal 9\n")
            yield "it isn't there", piped.fault("redo\n", f"{calls.path} can't be run: {calls.path}: No such file or directory\n")
            calls.make()
            yield "it is there again", piped.fault("redo\n", "ok\n") or piped.fault("crash a@x\n", "refused S5 not_alive\n")
            yield "its end", piped.end()
        yield "three processes, of which none is left", same([False] * 3, list(map(is_alive, calls.runs())))
        calls = Calls(files, program)
        with Piped(calls.path, file) as piped:
            yield "it goes on", piped.fault("boot b-1@x\n", BANNER + UP_B)
            piped.child.kill()
            yield "the companion was killed", ends(calls.runs()[0])
        for name, first, told in [
                ("an older program", 'case "$*" in *--interactive*) exit 1 ;; esac\n',
                 "{program} is older than this tool: its `run` has no --interactive"),
                ("one that ends at once", 'case "$1" in run) exit 0 ;; esac\n', "{file}: {program} ended with status 0"),
                ("one that refuses nothing", 'case "$1" in run) exit 2 ;; esac\n', "{file}: {program} ended with status 2"),
                ("one that tells no bad line", 'case "$1" in run) exit 3 ;; esac\n', "{file}: {program} ended with status 3"),
                ("one that answers something else", 'case "$1" in run) while read -r line; do echo "{\\"line\\":1}"; done; exit ;; esac\n',
                 "{program} isn't the program: it doesn't answer each command")]:
            calls = Calls(files, program, first)
            done = talk(calls.path, "boot b-1@x\n", file)
            owed = (2, b"", f"shell: {told.format(program=calls.path, file=file)}\n".encode())
            yield f"at the start: {name}", same(owed, (done.returncode, done.stdout, done.stderr))


def interrupts(program):
    """Ctrl-C at the prompt leaves the process alone; where an answer is waited for it leaves the command."""
    with Files() as files:
        file, calls = files.path("cluster", CLUSTER), Calls(files, program)
        with Terminal(calls.path, file) as terminal:
            yield "Ctrl-C: a command", terminal.fault("", "0 ms> ") or terminal.fault("boot b-1@x\r", "up b-1@x\n", "0 ms> ")
            yield "Ctrl-C at the prompt", terminal.fault("crash", "crash") or terminal.fault("\x03", "0 ms> ")
            yield "Ctrl-C: the next command", terminal.fault("tick 5\r", "ok\n", "5 ms> ")
            yield "Ctrl-C: the same process", same(1, len(calls.runs()))
            stopped = calls.runs()[0]
            os.kill(stopped, signal.SIGSTOP)
            yield "Ctrl-C where it doesn't answer", terminal.fault("tick 6\r", "tick 6\n") or terminal.fault("\x03", "5 ms> ")
            yield "Ctrl-C: that process has ended", ends(stopped)
            yield "Ctrl-C: the command wasn't made", terminal.fault("tick 7\r", "ok\n", "12 ms> ")
            yield "Ctrl-C: another process", same(2, len(calls.runs()))
            yield "Ctrl-C: the end", terminal.fault("\x04", "\n") or same(0, terminal.status())
        yield "Ctrl-C: no process is left", same([False] * 2, list(map(is_alive, calls.runs())))


# Behind the crash of a@x web is lost for 700 ms, and far for 1300.
TWO_TIMERS = "".join(
    f"{{node, {node}, [{{kernel, [{{distributed, [{{web, 700, [a@x, b@x]}}, {{far, 1300, [a@x, b@x]}}]}}]}},\n"
    "  {rehearse, [{boot, [{web, permanent}, {far, permanent}]}]}]}.\n" for node in ("a@x", "b@x")
) + "{application, web, []}. {application, far, []}.\n===\nboot a@x\nboot b@x\ncrash a@x\n"


def timers(program):
    """The TAB key behind tick knows the times of all timers."""
    with Files() as files, Terminal(program, files.path("timers", TWO_TIMERS)) as terminal:
        for name, pressed, *owed in [("the prompt", "", "0 ms> "), ("both of them", "tick \t\t", "1300", "700"),
                                     ("the later one", "1\t\r", "started far b@x", "1300 ms> ")]:
            yield f"two timers: {name}", terminal.fault(pressed, *owed)


def faults(program):
    """Wrong command lines, and files that are refused."""
    with Files() as files:
        for name, words, status, told in [
                ("a syntax fault", [files.path("c", "{node, a@x, [}.")], 2, "cluster refused C1 T1 syntax line 1"),
                ("a bad line", [files.path("s", CLUSTER + "===\n# One.\nboot a@x\nreboot a@x\n")], 2,
                 f"line {CLUSTER.count(chr(10)) + 4} (line 3 behind ===): it is no command here: reboot a@x\n"),
                ("no file", ["/nowhere/cluster"], 2, "/nowhere/cluster: No such file"),
                ("no word", [], 1, "FILE"), ("a strange word", ["--nonsense", "x"], 1, "--nonsense")]:
            done = subprocess.run([COMPANION, "--rehearse", program, *words], input=b"", capture_output=True, timeout=LONGEST_RUN)
            is_right = done.returncode == status and done.stdout == b"" and told in done.stderr.decode()
            yield f"refused: {name}", None if is_right else f"{done}"
    done = subprocess.run([COMPANION, "--help"], capture_output=True, timeout=LONGEST_RUN)
    yield "--help", fault_of(done, 0, None) or (None if b"save PATH" in done.stdout else f"{done}")


TESTS = (conversations, live_nodes, by_live_nodes, second_profile, banners, like_a_run, stories, keys, history, colours, one_process, deaths, interrupts, timers,
         faults)
