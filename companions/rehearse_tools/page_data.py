"""What the script of a page reads: the steps of the base and those of each plan, with what has changed in the report behind each.

A report has places: the clock, each node with the lines below it, each distributed application, and all timers together. Of a
step only the places are kept whose text has changed, as pairs of a place and the number of a text; each text stands there once.
"""
import json
from collections.abc import Iterable, Sequence
from dataclasses import astuple, dataclass
from typing import Any

from rehearse_tools.page_names import Names
from rehearse_tools.reading import Report

# A step as the script of a page reads it.
Row = list[Any]


@dataclass(frozen=True)
class Step:
    """A command with the comments above it, the lines of its answer, and the report behind it. The first one has no command."""
    command: str
    notes: list[str]
    answer: list[str]
    report: Report


class Data:
    """The data of a page, as they grow step by step."""

    def __init__(self) -> None:
        self.numbers: dict[str, int] = {}

    def text(self, text: str) -> int:
        """The number of a text."""
        return self.numbers.setdefault(text, len(self.numbers))

    def changes(self, before: Sequence[str], parts: Sequence[str]) -> list[int]:
        """The places of a report whose text is another one than before, each with the number of that."""
        found = []
        for place, part in enumerate(parts):
            if place >= len(before) or part != before[place]:
                found += [place, self.text(part)]
        return found

    def steps(self, steps: Iterable[Step], before: Sequence[str] = ()) -> list[Row]:
        """Steps as the script reads them: each as its command, its answer, what has changed and, where there are any, its
        comments."""
        found = []
        for step in steps:
            parts = step.report.places()
            told: Row = [self.text(step.command), self.text("\n".join(step.answer)), self.changes(before, parts)]
            found.append(told + [step.notes] if step.notes else told)
            before = parts
        return found

    def written(self, base: list[Row], plans: list[tuple[str, list[Row]]], names: Names) -> str:
        """All as a text that ends no element."""
        told = {"texts": list(self.numbers), "names": [astuple(name) for name in names.all.values()], "base": base, "plans": plans}
        return json.dumps(told, ensure_ascii=False, separators=(",", ":")).replace("<", "\\u003c")


def data_of(base: Sequence[Step], plans: Iterable[tuple[str, Sequence[Step]]], names: Names) -> str:
    """The data of a page: the steps of the base, and for each plan its name and its steps, which begin where the base ends."""
    data = Data()
    first = data.steps(base)
    end = base[-1].report.places()
    return data.written(first, [(name, data.steps(steps, end)) for name, steps in plans], names)
