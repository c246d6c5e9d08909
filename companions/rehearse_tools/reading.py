"""What the program tells as lines of JSON (docs/SCRIPTS.md), read into dataclasses. The other modules ask these.

A field has the words that the program prints without --json. So what it prints can be written from the fields again, for who shows
it or compares it with other lines: `Answer.lines` and `Report.lines` are byte for byte what `run` prints.
"""
import json
from collections.abc import Mapping
from dataclasses import dataclass
from functools import cached_property
from typing import Any, Optional

from rehearse_tools.endings import Refused

# An object of JSON, by its fields.
Fields = Mapping[str, Any]
# The statuses of the program: what it read is refused; a line of the script is no command.
CLUSTER_REFUSED, BAD_LINE, SWEEP_REFUSED = 2, 3, 6


def fields_of(line: str) -> dict[str, Any]:
    """The object of a line."""
    try:
        found = json.loads(line)
    except ValueError:
        found = None
    if not isinstance(found, dict):
        raise Refused(f"the program wrote a line that is no JSON: {line[:100]}")
    return found


def refusal_in(fields: Fields) -> str:
    """What the program prints in place of a line that tells of a refused cluster file or sweep."""
    what = "sweep" if fields["refused"].startswith("V") else "cluster"
    return f"{what} refused {fields['refused']} {fields['reason']}"


# ---- A report


@dataclass(frozen=True)
class Standing:
    """Where a distributed application stands: running, lost, wanted or quiet, and the node behind that word or ""."""
    word: str
    node: str = ""

    def __str__(self) -> str:
        return f"{self.word} {self.node}".rstrip()

    @property
    def is_running(self) -> bool:
        return self.word == "running"


@dataclass(frozen=True)
class Timer:
    """A timer: of a node that waits (sync) or of an application that is lost (failover), and the clock at which it fires."""
    kind: str
    name: str
    due: int

    def __str__(self) -> str:
        return f"timer {self.kind} {self.name} {self.due}"


@dataclass(frozen=True)
class NodeState:
    """A node: down, waiting or up, how often it was booted, what runs there (its restart type, how it was started), what waits there
    (its restart type), and what is forbidden there."""
    name: str
    mode: str
    starts: int
    runs: tuple[tuple[str, str, str], ...]
    waits: tuple[tuple[str, str], ...]
    forbidden: tuple[str, ...]

    @property
    def is_alive(self) -> bool:
        return self.mode != "down"

    @property
    def running(self) -> tuple[str, ...]:
        """The applications that run there."""
        return tuple(app for app, _, _ in self.runs)

    @property
    def waiting(self) -> tuple[str, ...]:
        """The applications that wait there."""
        return tuple(app for app, _ in self.waits)

    @cached_property
    def text(self) -> str:
        """It as the program prints it, with the lines below it."""
        return "\n".join([f"node {self.name} {self.mode} {self.starts}", *(f"  running {' '.join(app)}" for app in self.runs),
                          *(f"  waiting {' '.join(app)}" for app in self.waits), *(f"  forbidden {app}" for app in self.forbidden)])


# A node stands in many reports alike, so each is kept once.
known_nodes: dict[tuple[Any, ...], NodeState] = {}


def start_of(fields: Fields) -> str:
    """How an application was started, and the node that it came from where there is one."""
    return f"{fields['start']} {fields['from']}" if "from" in fields else str(fields["start"])


def node_state(node: Fields) -> NodeState:
    """A node of a report."""
    key = (node["name"], node["mode"], node["starts"],
           tuple([(app["application"], app["restart"], start_of(app)) for app in node["running"]]),
           tuple([(app["application"], app["restart"]) for app in node["waiting"]]), tuple(node["forbidden"]))
    return known_nodes.get(key) or known_nodes.setdefault(key, NodeState(*key))


@dataclass(frozen=True)
class Report:
    """A report: the clock, the nodes and where each distributed application stands, in order, and the timers in the order in which they
    will fire."""
    now: int
    nodes: dict[str, NodeState]
    apps: dict[str, Standing]
    timers: tuple[Timer, ...]

    @property
    def alive(self) -> list[str]:
        """The nodes that are alive, in order."""
        return [node.name for node in self.nodes.values() if node.is_alive]

    def dues_until(self, end: int) -> list[int]:
        """The moments before an end at which a timer fires, each once, in order."""
        return sorted({timer.due for timer in self.timers if self.now < timer.due < end})

    def places(self) -> list[str]:
        """What the program prints in each place of a report: the clock, each node with the lines below it, each distributed
        application, and all timers together."""
        return [f"now {self.now}", *(node.text for node in self.nodes.values()),
                *(f"app {app} {standing}" for app, standing in self.apps.items()), "\n".join(map(str, self.timers))]

    @property
    def lines(self) -> list[str]:
        """The lines that the program prints."""
        return [line for place in self.places() if place for line in place.split("\n")]


def report_of(fields: Fields) -> Report:
    """A report."""
    nodes = map(node_state, fields["nodes"])
    timers = (Timer(timer["timer"], timer["node" if timer["timer"] == "sync" else "application"], timer["due"])
              for timer in fields["timers"])
    return Report(fields["time"], {node.name: node for node in nodes},
                  {app["name"]: Standing(app["standing"], app.get("node", "")) for app in fields["applications"]}, tuple(timers))


# ---- Answers


@dataclass(frozen=True)
class Notice:
    """What followed from a command: up or ended, with a node; started (and how), stopped or waits, with an application and a node. In a
    tick it has the time at which a timer told it."""
    word: str
    node: str
    app: str = ""
    start: str = ""
    time: Optional[int] = None

    def __str__(self) -> str:
        return " ".join(word for word in (self.word, self.app, self.node, self.start) if word)


def notice_of(fields: Fields) -> Notice:
    """A notice."""
    return Notice(fields["kind"], fields["node"], fields.get("application", ""), start_of(fields) if "start" in fields else "",
                  fields.get("time"))


@dataclass(frozen=True)
class Answer:
    """What a command was answered by: its line, which is read each time when something of it is asked. Many answers never are, and
    objects of a whole run take much memory."""
    line: str

    @property
    def fields(self) -> Fields:
        return fields_of(self.line)

    @property
    def first(self) -> str:
        """In front: `ok`, `ok K`, or why it was refused."""
        return str(self.fields["answer"])

    @property
    def is_ok(self) -> bool:
        return not self.first.startswith("refused ")

    @property
    def refusal(self) -> str:
        """Why it was refused, or ""."""
        first = self.first
        return first.removeprefix("refused ") if first.startswith("refused ") else ""

    @property
    def steps(self) -> int:
        """How many steps were taken back or made again, by a command that tells it; else one."""
        word, *count = self.first.split(" ")
        return int(count[0]) if word == "ok" and count else 1

    @property
    def notices(self) -> list[Notice]:
        """What followed."""
        return [notice_of(notice) for notice in self.fields.get("notices", ())]

    @property
    def report(self) -> Report:
        """The report that the command asked for."""
        return report_of(self.fields["report"])

    @property
    def lines(self) -> list[str]:
        """The lines that the program prints."""
        fields = self.fields
        return [fields["answer"], *(str(notice_of(notice)) for notice in fields.get("notices", ())),
                *(report_of(fields["report"]).lines if "report" in fields else [])]


# ---- Runs


@dataclass(frozen=True)
class Names:
    """A cluster file's profile, its nodes and its applications, in the order in which they stand there."""
    profile: int
    nodes: list[str]
    apps: list[str]


@dataclass(frozen=True)
class Run:
    """A finished run of the program: its status and its lines."""
    status: int
    lines: list[str]

    @property
    def why(self) -> str:
        """The line that the program prints where an input is refused, which tells why; or ""."""
        raise NotImplementedError


class PlainRun(Run):
    """A run that printed lines for people."""

    @property
    def why(self) -> str:
        return self.lines[-1] if self.lines and self.status == CLUSTER_REFUSED else ""


class JsonRun(Run):
    """A run that told lines of JSON: one of the cluster, or why it is refused, and then one of each command, and of each plan of a
    sweep, or why that is refused."""

    @property
    def last(self) -> Fields:
        """The object of the last line, if there is one."""
        return fields_of(self.lines[-1]) if self.lines else {}

    @property
    def why(self) -> str:
        last = self.last if self.status in (CLUSTER_REFUSED, SWEEP_REFUSED) else {}
        return refusal_in(last) if "refused" in last else ""

    @property
    def bad_line(self) -> Optional[int]:
        """The number of the line that is no command, counted behind ===, where that is why the program ended."""
        last = self.last if self.status == BAD_LINE else {}
        return int(last["line"]) if "bad" in last else None

    @property
    def names(self) -> Names:
        """What the first line tells."""
        fields = fields_of(self.lines[0])
        return Names(fields["profile"], fields["nodes"], [app["name"] for app in fields["applications"]])

    @property
    def answers(self) -> list[Answer]:
        """The answers to the commands, up to a line that is none."""
        return [Answer(line) for line in self.lines[1:len(self.lines) - (self.status == BAD_LINE)]]
