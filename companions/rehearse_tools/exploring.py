"""Every order of losses and repairs, as `rehearse explore --json` tries it. `report` has it.

The events that may come are a crash of each node, a boot of each, and the longest wait that the program tells. So a list of them has
what no plan of losses has: nodes that come back while others are lost.
"""
from collections.abc import Iterator, Sequence
from dataclasses import dataclass
from typing import Optional

from rehearse_tools.endings import Refused
from rehearse_tools.inputs import joined
from rehearse_tools.program import Program
from rehearse_tools.reading import fields_of
from rehearse_tools.words import plural

# More states than that aren't kept, nor more MiB of keys, which takes some seconds: of large clusters shorter lists are tried then.
LIMITS = ("--states", "200000", "--memory", "256")


@dataclass(frozen=True)
class Scope:
    """Which lists are tried: of up to so many events, or of any length; with at most so many nodes not up; and how long a wait is."""
    steps: Optional[int]
    down: int
    wait: int

    def lines(self, apps: Sequence[str]) -> Iterator[str]:
        """The lines behind a base that ask for them, and whether each of these applications runs."""
        yield from ("may crash *", "may boot *")
        if self.wait:
            yield f"may tick {self.wait}"
        if self.steps is not None:
            yield f"steps {self.steps}"
        yield f"down {self.down}"
        yield from (f"ask app {app} running" for app in apps)


@dataclass(frozen=True)
class Explored:
    """What was found: in how many states, behind lists of up to how many events, if not behind all, whether these are all that were asked
    for, and for each application a shortest list behind which it runs nowhere though no timer is set, or None."""
    states: int
    steps: Optional[int]
    is_finished: bool
    lists: dict[str, Optional[list[str]]]

    def told(self, scope: Scope) -> str:
        """What was found, in some sentences."""
        waits = f"crashes, boots and waits of {scope.wait} ms" if scope.wait else "crashes and boots"
        lists = f"every order of {waits}, however long" if self.steps is None else f"every list of up to {self.steps} {waits}"
        told = [f"Explored: {lists}, with at most {plural(scope.down, 'node')} not up ({plural(self.states, 'state')})."]
        if not self.is_finished:
            told.append("Longer lists lead to more states than a report looks at.")
        running = [app for app, events in self.lists.items() if events is None]
        nowhere = [app for app, events in self.lists.items() if events is not None]
        if running:
            told.append(f"Behind each of them, where no timer is set, {'this application runs' if len(running) == 1 else 'these run'}: "
                        f"{', '.join(running)}.")
        if nowhere:
            told.append(f"Behind some of them {'this one runs' if len(nowhere) == 1 else 'these run'} nowhere: {', '.join(nowhere)}.")
        return " ".join(told)


def explored(program: Program, cluster: str, base: Sequence[str], apps: Sequence[str], scope: Scope, source: str) -> Optional[Explored]:
    """What explore tells, or None where the program is older and hasn't it, or tells it only for people."""
    lines = program.explored(joined(cluster, [*base, *scope.lines(apps)]), LIMITS, source)
    if lines is None:
        return None
    told = list(map(fields_of, lines))
    heads = [fields for fields in told if "states" in fields]
    lists = [fields.get("events") for fields in told if "ask" in fields]
    if len(heads) != 1 or len(lists) != len(apps):
        raise Refused(f"{source}: {program.path} isn't the program: explore doesn't answer each question")
    return Explored(heads[0]["states"], heads[0].get("steps"), heads[0]["finished"], dict(zip(apps, lists)))
