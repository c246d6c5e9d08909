"""Stories beside what was written by hand: the row of an example, which tells what `run` owes for it, laid behind its commands.

Of each example that `run` answers to its end: `verify` finds nothing to differ in it with the row's answers, `story`
prints just these, a story of a whole story is itself, and `verify` finds nothing to differ in a story. With one line of an answer left
out, changed or put behind another command `verify` tells it. examples/stories keeps the whole story of each: its answers are those of
the row, and its times, reasons and courses were read through beside the rules.
"""
import glob
import os
from collections.abc import Iterator

from row_files import EXAMPLES, EXAMPLE_ROWS, RowFault, row_at
from support import fault_of, read, run

STORIES = os.path.join(EXAMPLES, "stories")
ANSWER, OTHERS = b"#= ", (b"#@ ", b"#- ", b"#| ")

Test = tuple[str, str | None]


def examples() -> list[tuple[str, bytes, bytes]]:
    """The examples that `run` answers to their end: the name of each, its text, and its answers as they were written by hand."""
    found = []
    for path in sorted(glob.glob(os.path.join(EXAMPLE_ROWS, "*.row"))):
        try:
            row = row_at(path)
        except RowFault:
            continue
        if row.words == ["run"] and row.status == 0 and row.input is not None:
            found.append((os.path.basename(path)[:-len(".row")], row.input, row.output))
    return found


def answers_in(output: bytes) -> list[list[bytes]]:
    """The lines of the answers that `run` printed."""
    found: list[list[bytes]] = []
    for line in output.splitlines():
        if line == b"ok" or line.startswith((b"ok ", b"refused ")):
            found.append([])
        found[-1].append(line)
    return found


def is_command(line: bytes) -> bool:
    """Whether a line of a script gets an answer."""
    return bool(line.strip(b" ")) and not line.startswith(b"#")


def woven(text: bytes, answers: list[list[bytes]]) -> bytes:
    """A text with each answer behind its command, in comments."""
    lines = text.splitlines()
    place = lines.index(b"===") + 1
    left = list(answers)
    script = []
    for line in lines[place:]:
        script.append(line)
        if is_command(line):
            script += [ANSWER + told for told in left.pop(0)]
    return b"".join(line + b"\n" for line in lines[:place] + script)


def without_others(story: bytes) -> bytes:
    """A story without the lines that tell times and reasons, and without its table and the blank line above that."""
    lines = story.splitlines()
    table = [place for place, line in enumerate(lines) if line.startswith(b"#| ")]
    if table and not lines[table[0] - 1]:
        del lines[table[0] - 1]
    return b"".join(line + b"\n" for line in lines if not line.startswith(OTHERS))


def verified(count: int) -> bytes:
    """What `verify` prints where all holds, and something is expected of each command."""
    return b"ok %d of %d commands checked\n" % (count, count)


def differing(answers: list[list[bytes]]) -> Iterator[tuple[str, list[list[bytes]]]]:
    """The same answers with one mistake each: the mistake, and the answers."""
    yield "a line left out", [answers[0][:-1] or [b"ok", b"ok"], *answers[1:]]
    yield "a longer line", [[answers[0][0] + b" "] + answers[0][1:], *answers[1:]]
    yield "one more line", [*answers[:-1], answers[-1] + [b"up nobody"]]


def stories_of_examples(program: str) -> Iterator[Test]:
    """Each example with its answers."""
    for name, text, output in examples():
        answers = answers_in(output)
        whole = woven(text, answers)
        count = len(answers)
        yield f"verify {name}", fault_of(run(program, ["verify"], input=whole), 0, verified(count))
        for mistake, wrong in differing(answers):
            done = run(program, ["verify"], input=woven(text, wrong))
            is_told = done.returncode == 9 and done.stdout.endswith(b"\ndiffers 1 of %d\n" % count)
            yield f"verify {name}: {mistake}", None if is_told else f"status {done.returncode}: {done.stdout[-200:]!r}"
        story = run(program, ["story", "--whole"], input=text)
        told = without_others(story.stdout)
        is_woven = story.returncode == 0 and told == whole
        yield f"story {name}", None if is_woven else f"it isn't the example with the answers of its row: {told[-300:]!r}"
        again = run(program, ["story", "--whole"], input=story.stdout)
        yield f"story of the story of {name}", fault_of(again, 0, story.stdout)
        yield f"verify the story of {name}", fault_of(run(program, ["verify"], input=story.stdout), 0, verified(count))


def kept_stories(program: str) -> Iterator[Test]:
    """A whole story is kept of each example and of nothing else. It has the answers of the row, it holds, and it is what `story`
    prints of the example and of itself."""
    kept = {os.path.basename(path)[:-len(".txt")]: read(path) for path in glob.glob(os.path.join(STORIES, "*.txt"))}
    found = examples()
    other = sorted(set(kept) ^ {name for name, _, _ in found})
    yield "each example is kept as a story", f"kept or an example alone: {', '.join(other)}" if other or not kept else None
    for name, text, output in found:
        story, answers = kept.get(name, b""), answers_in(output)
        has_answers = without_others(story) == woven(text, answers)
        yield f"the story of {name} has the answers of its row", None if has_answers else f"{story[-300:]!r}"
        yield f"the story of {name} holds", fault_of(run(program, ["verify"], input=story), 0, verified(len(answers)))
        yield f"the story of {name} is told", fault_of(run(program, ["story", "--whole"], input=text), 0, story)
        yield f"the story of {name} is told of itself", fault_of(run(program, ["story", "--whole"], input=story), 0, story)


TESTS = (stories_of_examples, kept_stories)
