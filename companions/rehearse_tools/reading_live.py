"""What the program tells of live nodes as lines of JSON (`run --rules otp25 --json`, docs/SCRIPTS.md), read into dataclasses.

`LiveAnswer.lines` and `LiveReport.lines` are byte for byte what `run --rules otp25` prints.
"""
from collections.abc import Iterator
from dataclasses import dataclass

from rehearse_tools.reading import Answer, Fields, NodeState, Report, Standing, Timer, start_of

# What a call takes at last, by its word.
LAST = {"start": "restart", "takeover": "restart", "permit": "permission", "exit": "reason"}
NOWHERE = "nowhere"


def call_text(call: Fields) -> str:
    """A call, as the command that makes it."""
    last = call.get(LAST.get(call["call"], ""))
    word = str(last).lower() if isinstance(last, bool) else last
    return " ".join(str(part) for part in (call["call"], call["node"], call["application"], word) if part is not None)


def notice_line(notice: Fields) -> str:
    """A line of what followed from a command."""
    if notice["kind"] == "answered":
        return f"answered {call_text(notice)}: {notice['answer']}"
    start = start_of(notice) if "start" in notice else None
    parts = (notice["kind"], notice.get("application"), notice["node"], start, notice.get("error"))
    return " ".join(part for part in parts if part is not None)


def block_text(block: Fields) -> str:
    """For what a dist_ac waits."""
    what = f"{block['for']} {block['application']}" if "application" in block else str(block["for"])
    return f"{what} for {block['node']}" if "node" in block else what


def timer_of(node: Fields, timer: Fields) -> Timer:
    """A timer that is set at a node."""
    return Timer(timer["timer"], timer.get("application", node["name"]), timer["due"])


def timer_line(timer: Fields) -> str:
    """A timer, below its node."""
    return " ".join(str(part) for part in ("  timer", timer["timer"], timer.get("application"), timer["due"]) if part is not None)


def node_of(node: Fields) -> NodeState:
    """What a node of the report has in common with one by the manual's rules."""
    return NodeState(node["name"], node["mode"], node["starts"],
                     tuple((app["application"], app["restart"], start_of(app)) for app in node["running"]),
                     tuple((app["application"], app["restart"]) for app in node["waiting"]), tuple(node["forbidden"]))


def node_lines(node: Fields) -> Iterator[str]:
    """A node, with the lines below it."""
    yield node_of(node).text
    yield from (f"  starting {app}" for app in node["starting"])
    if "dist_ac" in node:
        yield f"  blocked dist_ac {block_text(node['dist_ac'])}"
    if "boot" in node:
        yield f"  blocked boot {node['boot']}"
    yield from map(timer_line, node["timers"])


def standing_of(nodes: list[str]) -> Standing:
    """Where an application runs: at several nodes, if it does."""
    return Standing("running", " ".join(nodes)) if nodes else Standing(NOWHERE)


@dataclass(frozen=True)
class LiveReport(Report):
    """A report of live nodes, with the lines that tell it."""
    told: tuple[str, ...]

    @property
    def lines(self) -> list[str]:
        """The lines that the program prints."""
        return list(self.told)


def report_lines(fields: Fields) -> Iterator[str]:
    """The lines of a report."""
    yield f"now {fields['time']}"
    for node in fields["nodes"]:
        yield from "\n".join(node_lines(node)).split("\n")
    yield from (f"app {app['name']} {standing_of(app['nodes'])}" for app in fields["applications"])
    yield from (f"open {call_text(call)}" for call in fields["open"])


def report_of(fields: Fields) -> LiveReport:
    """A report of live nodes."""
    timers = sorted((timer_of(node, timer) for node in fields["nodes"] for timer in node["timers"]), key=lambda timer: timer.due)
    nodes = {node["name"]: node_of(node) for node in fields["nodes"]}
    places = {app["name"]: standing_of(app["nodes"]) for app in fields["applications"]}
    return LiveReport(fields["time"], nodes, places, tuple(timers), tuple(report_lines(fields)))


class LiveAnswer(Answer):
    """What live nodes answered to a command."""

    @property
    def is_ok(self) -> bool:
        """Whether something was done: an answer of a node is a step, which `undo` takes back, also where it is an error."""
        return "notices" in self.fields or self.first.startswith("ok")

    @property
    def report(self) -> LiveReport:
        """The report that the command asked for."""
        return report_of(self.fields["report"])

    @property
    def lines(self) -> list[str]:
        """The lines that the program prints."""
        fields = self.fields
        return [fields["answer"], *map(notice_line, fields.get("notices", ())),
                *(report_lines(fields["report"]) if "report" in fields else ())]
