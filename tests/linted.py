"""What lint owes for inputs that were typed in a hurry, and for the examples of the repository.

A mistaken input is a file tests/mistaken/NAME.mistake. It was written before lint was asked, by what the mistake is:

    about: a parameter is misspelt       what the mistake is
    line: 4                              the line that has to be changed, where one is known
    says: distribted                     what the answer has to name; again for more
    kind: hint                           left out: an error or a warning tells it
    untold: a time with a unit           left out; else lint doesn't name it yet, and docs/LINT.md says so in these words
    --- input                            as in a worked row (row_files.py)

One finding has to name all of it. An example for which lint has errors or warnings names their codes in a comment, which says why it
is as it is: `% lint: no_lists, forbid_moves. The reason.` One of examples/refused has the fault that its name tells, and no other.
"""
import glob
import os
import re
from collections.abc import Iterator
from dataclasses import dataclass, field
from typing import Optional

from row_files import SECTIONS, RowFault, lines_of, section_of, text_of
from support import TOP, example_files, read, run

MISTAKEN = os.path.join(TOP, "tests", "mistaken")
PAGE = os.path.join(TOP, "docs", "LINT.md")
FEWEST = 60
COUNTING = ("error", "warning")
FINDING = re.compile(r"(?:([0-9]+): )?(error|warning|hint) (\w+): (.*)")
NAMED = re.compile(r"(?m)^[%#] lint: ([\w, ]+)\. ")
REFUSED = os.path.join("examples", "refused", "")

Test = tuple[str, Optional[str]]


@dataclass
class Mistake:
    """A mistaken input, and what one finding has to name."""
    about: str = ""
    line: Optional[str] = None
    says: list[str] = field(default_factory=list)
    kinds: tuple[str, ...] = COUNTING
    untold: str = ""
    text: bytes = b""

    def is_named(self, told: list[tuple[str, ...]]) -> bool:
        """Whether a finding names what to change."""
        return any(kind in self.kinds and (self.line is None or self.line == line) and all(word in f"{code}: {words}" for word in self.says)
                   for line, kind, code, words in told)


def mistake_at(path: str) -> Mistake:
    """The mistaken input of a file."""
    lines, mistake = lines_of(path), Mistake()
    begin = next((place for place, line in enumerate(lines) if line.startswith("---")), -1)
    if begin < 0:
        raise RowFault(path, len(lines), "it has no section `--- input`")
    for number, line in enumerate(lines[:begin], 1):
        key, _, value = line.partition(": ")
        if key == "says" and value:
            mistake.says.append(value)
        elif key == "kind" and value == "hint":
            mistake.kinds = ("hint",)
        elif key in ("about", "line", "untold") and value and not getattr(mistake, key):
            setattr(mistake, key, value)
        else:
            raise RowFault(path, number, f"what is {line!r}?")
    if not mistake.about or not mistake.says:
        raise RowFault(path, begin, "it doesn't tell what it is about, or what has to be named")
    _, marks = section_of(path, begin + 1, lines[begin], SECTIONS[:1])
    mistake.text = text_of(path, begin + 1, lines[begin + 1:], marks)
    return mistake


def findings_of(program: str, text: bytes) -> tuple[list[tuple[str, ...]], str]:
    """What lint finds in a text, as the line, the kind, the code and the words of each; and all that it prints."""
    printed = run(program, ["lint"], input=text).stdout.decode("utf-8", "replace")
    found = map(FINDING.fullmatch, printed.split("\n"))
    return [tuple(one.groups()) for one in found if one], printed


def fault_of_mistake(program: str, path: str, page: str) -> Optional[str]:
    """What is wrong with a mistaken input, or with what lint answers to it, or None."""
    try:
        mistake = mistake_at(path)
    except RowFault as fault:
        return str(fault)
    told, printed = findings_of(program, mistake.text)
    if not mistake.untold:
        return None if mistake.is_named(told) else f"{mistake.about}: line {mistake.line} and {mistake.says} aren't named by one of\n{printed}"
    if mistake.untold not in page:
        return f"docs/LINT.md doesn't say of it: {mistake.untold}"
    return "it is named now: take `untold` away, and its words from docs/LINT.md" if mistake.is_named(told) else None


def mistaken(program: str) -> Iterator[Test]:
    """Each mistaken input is answered by a finding that names what to change, and so are at least 60."""
    page = re.sub(r"\s+", " ", read(PAGE).decode())
    paths = sorted(glob.glob(os.path.join(MISTAKEN, "*")))
    named = 0
    for path in paths:
        wrong = fault_of_mistake(program, path, page)
        named += wrong is None and not mistake_at(path).untold
        yield f"mistaken/{os.path.basename(path)}", wrong
    yield f"{FEWEST} mistaken inputs are named", None if named >= FEWEST else f"{named} of {len(paths)}"


def wrong_with_example(program: str, path: str) -> Optional[str]:
    """What is wrong with an example, or None."""
    name, text = os.path.relpath(path, TOP), read(path)
    told, printed = findings_of(program, text)
    have = {words.split(":")[0] if code[:1].isupper() else code for _, kind, code, words in told if kind in COUNTING}
    if name.startswith(REFUSED):
        owed = {os.path.splitext(os.path.basename(path))[0].replace("-", "_")}
    else:
        owed = {code for codes in NAMED.findall(text.decode()) for code in codes.split(", ")}
    return None if have == owed else f"its comments name {sorted(owed)}, and lint tells\n{printed}"


def examples(program: str) -> Iterator[Test]:
    """Each example is clean, or says why it isn't."""
    for path in example_files():
        yield f"lint of {os.path.relpath(path, TOP)}", wrong_with_example(program, path)


TESTS = (mistaken, examples)
