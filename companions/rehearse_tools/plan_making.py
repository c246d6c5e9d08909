"""Making plans: which nodes crash, or are restarted, and how long time has to pass behind that. `plans`, `compare` and `report` have
them."""
import itertools
import math
from collections.abc import Iterable, Iterator, Sequence
from dataclasses import dataclass
from typing import Callable, Optional

from rehearse_tools.inputs import Plan, text_of
from rehearse_tools.program import Program
from rehearse_tools.reading import Report

INPUT_LIMIT = 16_777_216
BACK = ("no", "same", "reverse", "every")


@dataclass(frozen=True)
class Crashes:
    """Which crashes there are: of up to so many nodes, in every order or in that of the file, with so much time between one and the next,
    and in which order the nodes boot again. Of itself every node, and every two of them at once."""
    crashes: int = 2
    orders: bool = False
    between: Sequence[int] = (0,)
    back: str = "no"

    @property
    def choose(self) -> Callable[[Iterable[str], int], Iterator[tuple[str, ...]]]:
        """The ways to take so many of some nodes."""
        return itertools.permutations if self.orders else itertools.combinations

    def times(self, size: int) -> Sequence[int]:
        """The times between crashes of so many nodes."""
        return self.between if size > 1 else (0,)


def longest_wait(program: Program, cluster: str, base: Sequence[str], nodes: Sequence[str], source: str) -> int:
    """The longest failover timeout and wait of a booting node that the program tells: each node boots alone, and each one
    that is alive crashes, behind the base and where all nodes are booted."""
    boots = boots_of(nodes)
    waits = waits_behind(program, cluster, [], boots, source)
    for script in (base, boots):
        alive = report_behind(program, cluster, script, source).alive
        waits += waits_behind(program, cluster, script, [f"crash {node}" for node in alive], source)
    return max(waits, default=0)


def waits_behind(program: Program, cluster: str, script: Sequence[str], steps: Sequence[str], source: str) -> list[int]:
    """How far off each timer is behind each of some steps, which are made one by one behind a script."""
    told = program.answers(cluster, [*script, *(line for step in steps for line in (step, "show", "undo"))], source)
    reports = [answer.report for answer in told[len(script) + 1::3]]
    return [timer.due - report.now for report in reports for timer in report.timers]


def boots_of(nodes: Sequence[str]) -> list[str]:
    """The commands that boot some nodes."""
    return [f"boot {node}" for node in nodes]


def report_behind(program: Program, cluster: str, script: Sequence[str], source: str) -> Report:
    """The report behind a script."""
    return program.answers(cluster, [*script, "show"], source)[-1].report


def drained_in(report: Report) -> dict[str, list[str]]:
    """For each node of a report the distributed applications that are started there and permitted."""
    return {name: [app for app in report.apps if app in node.running + node.waiting and app not in node.forbidden]
            for name, node in report.nodes.items()}


def ticks(time: int) -> list[str]:
    """The lines that let a time pass."""
    return [f"tick {time}"] if time else []


def crashes_of(nodes: Sequence[str], between: int, after: int) -> Plan:
    """Some nodes crash."""
    name = (f"+{between}ms+" if between else "+").join(nodes)
    steps = [[f"crash {node}"] for node in nodes]
    return Plan(name, [line for step in steps[:-1] for line in step + ticks(between)] + steps[-1] + ticks(after))


def returns_of(nodes: Sequence[str], back: str) -> Sequence[Sequence[str]]:
    """The orders in which nodes that crashed boot again."""
    if back == "every":
        return list(itertools.permutations(nodes))
    one = {"same": nodes, "reverse": nodes[::-1]}.get(back)
    return [one] if one is not None else []


def crash_plans(nodes: Sequence[str], given: Crashes, after: int) -> Iterator[Plan]:
    """The plans with crashes: single ones first, then pairs and so on."""
    sizes = range(1, min(given.crashes, len(nodes)) + 1)
    every = ((chosen, between) for size in sizes for chosen in given.choose(nodes, size) for between in given.times(size))
    for chosen, between in every:
        plan = crashes_of(chosen, between, after)
        if given.back == "no":
            yield plan
        for order in returns_of(chosen, given.back):
            yield Plan(f"{plan.name},back:{'+'.join(order)}", plan.events + boots_of(order) + ticks(after))


def crash_count(nodes: int, given: Crashes) -> int:
    """How many plans with crashes there are."""
    return sum((math.perm(nodes, size) if given.orders else math.comb(nodes, size)) * len(given.times(size))
               * (math.factorial(size) if given.back == "every" else 1) for size in range(1, min(given.crashes, nodes) + 1))


def order_of(place: int, nodes: Sequence[str]) -> list[str]:
    """The order of nodes that stands at this place, from 0, among all of them, as itertools.permutations lists them."""
    left, order = list(nodes), []
    while left:
        first, place = divmod(place, math.factorial(len(left) - 1))
        order.append(left.pop(first))
    return order


def restart(node: str, after: int, apps: Sequence[str]) -> list[str]:
    """The events of a node's restart. These applications are forbidden there before, and permitted when it is back."""
    away, back = [[f"permit {node} {app} {word}" for app in apps] for word in ("false", "true")]
    return [*away, f"crash {node}", *ticks(after), f"boot {node}", *ticks(after), *back]


def rolling_plans(nodes: Sequence[str], most: int, after: int, drained: Optional[dict[str, list[str]]]) -> Iterator[Plan]:
    """The plans of a rolling restart: every order of the nodes, or evenly spread ones. Where it isn't None, `drained` has the
    applications that are sent away from each node."""
    word = "rolling" if drained is None else "drained"
    orders = math.factorial(len(nodes))
    chosen = min(orders, most)
    for number in range(chosen):
        order = order_of(number * orders // chosen, nodes)
        steps = [restart(node, after, drained[node] if drained is not None else []) for node in order]
        yield Plan(f"{word}:{'+'.join(order)}", [line for step in steps for line in step])


def text_of_plans(plans: Iterable[Plan]) -> str:
    """Plans as the lines of a script."""
    return text_of(line for plan in plans for line in plan.lines)
