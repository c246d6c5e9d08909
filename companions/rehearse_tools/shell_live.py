"""Live nodes beside the prompt of `shell`, as the model of `live` has them."""
from collections.abc import Sequence
from typing import Any

from rehearse_tools.inputs import words_of
from rehearse_tools.live_sides import Ruled, Sides, rules_of
from rehearse_tools.live_text import answer_lines
from rehearse_tools.otp25.cluster import cluster_of
from rehearse_tools.program import Program
from rehearse_tools.reading import Answer, Report

ORDERS = 8
SAME = "live nodes do the same"


class Beside:
    """Live nodes, which have made so many of the commands of a session."""

    def __init__(self, program: Program, cluster: str):
        self.program, self.cluster = program, cluster
        self.sides = Sides(cluster_of(cluster), ORDERS, goes_back=True)
        self.count = 0
        self.begun: dict[Any, Any] = {}
        self.last: list[str] = []

    def follow(self, commands: Sequence[str], last: Answer, report: Report) -> list[str]:
        """What live nodes do otherwise at the last of these commands, of which they have made the first ones already. To that one the
        program gave this answer, with this report behind it."""
        left = list(commands[self.count:])
        ruled = [Ruled(last.lines, report.lines)]
        if len(left) > 1:
            ruled = rules_of(self.program, self.cluster, list(commands))[1][self.count:]
        for command, rules in zip(left, ruled):
            self.count += 1
            answer = self.sides.answer(self.count, " ".join(words_of(command)), rules)
            _, *lines = answer_lines(answer, ORDERS, self.begun)
            self.last = [line for line in lines if not line.startswith("  ")] or [SAME]
        return self.last
