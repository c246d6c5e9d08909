"""What the program's `lint` finds in an input (docs/LINT.md). Its lines of JSON are read here, and nowhere else."""
import shlex
from collections.abc import Sequence
from dataclasses import dataclass
from typing import Optional

from rehearse_tools.endings import Refused
from rehearse_tools.reading import Fields, fields_of
from rehearse_tools.words import plural

KINDS = ("error", "warning", "hint")
# Of itself a hint is no reason to act.
COUNTING = ("error", "warning")
# How lint ends where nothing counts, and where something does.
NOTHING, FOUND = 0, 9


@dataclass(frozen=True)
class Finding:
    """What was found: the line of the input on which it stands, where that is known; its kind; its code; and what is wrong, in words."""
    line: Optional[int]
    kind: str
    code: str
    words: str

    def __str__(self) -> str:
        place = "" if self.line is None else f"line {self.line}: "
        return f"{self.kind}: {place}{self.code}: {self.words}"


@dataclass(frozen=True)
class Row:
    """A finding, with what stands on its line."""
    finding: Finding
    text: str


@dataclass(frozen=True)
class Findings:
    """All that was found in an input, in the order of its lines."""
    all: tuple[Finding, ...] = ()

    @property
    def counting(self) -> list[Finding]:
        """What is more than a hint."""
        return [finding for finding in self.all if finding.kind in COUNTING]

    def count(self, kind: str) -> int:
        """How many there are of a kind."""
        return sum(finding.kind == kind for finding in self.all)

    def headline(self, kinds: Sequence[str] = COUNTING) -> str:
        """How many there are of some kinds, or "" where there is none."""
        told = [plural(self.count(kind), kind) for kind in kinds if self.count(kind)]
        return f"lint has {', '.join(told)}" if told else ""

    def rows(self, text: str) -> list[Row]:
        """The findings with what stands on the lines of the input."""
        lines = text.split("\n")
        return [Row(finding, "" if finding.line is None else lines[finding.line - 1].strip()) for finding in self.all]


def told_by(line: str) -> Fields:
    """The fields of a line, or none where it has none."""
    try:
        return fields_of(line)
    except Refused:
        return {}


def finding_of(line: str) -> Finding:
    """The finding that a line tells. The way to what is at fault stands in brackets behind the words, as where lint writes for people."""
    fields = told_by(line)
    if fields.get("kind") not in KINDS or not {"code", "words"} <= fields.keys():
        raise Refused(f"the program's lint wrote a line that is no finding: {line[:100]}")
    way = f" ({fields['path']})" if "path" in fields else ""
    return Finding(fields.get("line"), fields["kind"], fields["code"], f"{fields['words']}{way}")


def findings_in(lines: Sequence[str]) -> Findings:
    """The findings that the lines of a run tell. The last line has their counts."""
    *told, last = lines or [""]
    findings = Findings(tuple(map(finding_of, told)))
    if told_by(last) != {f"{kind}s": findings.count(kind) for kind in KINDS}:
        raise Refused(f"the program's lint doesn't end with its counts: {last[:100]}")
    return findings


def notice_of(findings: Findings, path: str, has_plans: bool) -> str:
    """How many errors and warnings an input has, and how to read them, or "" where it has none. `-` is standard input. To lint the
    lines of a plan are no commands, so they are cut off."""
    if not findings.counting:
        return ""
    file = "" if path == "-" else f" {shlex.quote(path)}"
    command = f"sed '/^plan /,$d'{file} | ./rehearse lint" if has_plans else f"./rehearse lint{file}"
    return f"{findings.headline()}: {command} tells them{'' if file else ' of the same input'}"
