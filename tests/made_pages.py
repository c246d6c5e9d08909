"""Tests of docs/make, and whether the documents are as it makes them."""
import os
import re
import shutil
import subprocess
import sys

from support import LONGEST_RUN, TOP, difference, files_below, in_folder, read

sys.path.append(os.path.join(TOP, "docs", "making"))
from sources import seen_in  # noqa: E402
from tree import proved_crates  # noqa: E402

# What docs/make reads, apart from docs and from the crates' sources and definitions.
BESIDE = ("companions", "tests", "wrong-bodies", "README.md", "rehearse", "build", "test")
# A file, a text that stands in it, one that takes the place of the first such, and what is told then.
CHANGES = [
    ("crates/rh_step/src/step.rt", "    ensures ", "    ensures another_", "docs/CONTRACTS.md line"),
    ("crates/rh_trace/specs/Validity.antt", "\n-- ", "\n-- changed: ", "docs/DEFINITIONS.md line"),
    ("crates.txt", "\nrh_plans: ", "\nrh_plans: rh_trail ", "docs/ARCHITECTURE.md line"),
    ("crates/rh_script/src/forms.rt", '"boot"', '"reboot"', "companions/rehearse_tools/commands.json line"),
    ("docs/help/run.txt", "\n  boot N ", "\n  reboot N ", "docs/help/run.txt line"),
    ("crates/rh_command_line/src/help.rt", "says whether it is one", "tells whether it is one", "docs/help/check.txt line"),
    ("crates/rh_command_line/src/table.rt", '"story"', '"tale"', "shipped/front.sh line"),
    ("crates/rh_command_line/src/building.rt", '.long("workers")', '.long("threads")', "docs/help/sweep.txt line"),
    ("crates/rh_rules/src/event.rt", "StopA", "StopEveryA", "docs/CHANGING.md line"),
    ("docs/DEFINITIONS.md", "\n- `", "\n- by hand `", "docs/DEFINITIONS.md line"),
    ("docs/parts/contracts.md", "`", "`no_such_name` `", "docs/parts/contracts.md names what no source has: no_such_name"),
    ("docs/parts/notes.md", "\n- `", "\n- `served`: nothing\n- `", "tells of definitions that aren't there"),
    ("crates/rh_settle/must-fail/same_group_calls_away.edit", "# A takeover", "# Another takeover", "docs/GUARDS.md line"),
    ("crates/rh_settle/must-fail/same_group_calls_away.edit", "# Refused by", "# Told by", "same_group_calls_away.edit doesn't begin with"),
    ("crates/rh_step_findings/specs/Levels.antt", "is_warning (OwnEnd n a) = false\n", "", "docs/LINT.md line"),
    ("docs/parts/lint.md", "| `own_end` ", "| `kind_after_loss` ", "docs/parts/lint.md hasn't one row for own_end, kind_after_loss"),
]


def made(folder, *words):
    """A finished run of docs/make in a folder that is as the top of the repository."""
    return subprocess.run([os.path.join(folder, "docs", "make"), *words], stdin=subprocess.DEVNULL, capture_output=True, text=True,
                          timeout=LONGEST_RUN)


def made_pages(program):
    """What the documents say of the sources is what `docs/make` makes of these."""
    done = made(TOP, "--check")
    yield "docs/make --check", None if done.returncode == 0 else done.stdout + done.stderr


def is_whole(text, item):
    """Whether the lines of a function stand so in the text, with its body behind them."""
    shown = (re.escape("\n".join(indent + line if line else line for line in item.lines)) for indent in ("", "    "))
    return any(re.search(rf"(?m)^{lines}(?: |\n *)\{{", text) for lines in shown)


def whole_functions(program):
    """Each function that the page of contracts shows, it shows up to its body, with all clauses."""
    for crate in proved_crates():
        found = [(read(path).decode(), seen) for path, every in seen_in(crate) for seen in every if seen.item.kind == "fn"]
        cut = [seen.name for text, seen in found if not is_whole(text, seen.item)]
        yield f"docs/make shows the functions of {crate.name} whole", f"it cuts {cut}" if cut else None


def copy_to(folder):
    """A copy of what docs/make reads; what it only searches for words is linked."""
    shutil.copytree(os.path.join(TOP, "docs"), os.path.join(folder, "docs"), ignore=shutil.ignore_patterns("images", "__pycache__"))
    shutil.copy(os.path.join(TOP, "crates.txt"), folder)
    os.mkdir(os.path.join(folder, "shipped"))
    shutil.copy(os.path.join(TOP, "shipped", "front.sh"), os.path.join(folder, "shipped"))
    for name in BESIDE:
        os.symlink(os.path.join(TOP, name), os.path.join(folder, name))
    for crate in os.listdir(os.path.join(TOP, "crates")):
        for part in ("src", "specs", "proofs", "must-fail"):
            source, copy = os.path.join(TOP, "crates", crate, part), os.path.join(folder, "crates", crate, part)
            if os.path.isdir(source) and part != "proofs":
                shutil.copytree(source, copy)
            elif os.path.isdir(source):
                os.symlink(source, copy)


def change_fault(folder, change):
    """What is wrong with what is told of a change, or None."""
    name, old, new, owed = change
    path = os.path.join(folder, name)
    text = read(path).decode()
    if old not in text:
        return f"{old!r} isn't in {name}"
    with open(path, "w", encoding="utf-8") as file:
        file.write(text.replace(old, new, 1))
    done = made(folder, "--check")
    with open(path, "w", encoding="utf-8") as file:
        file.write(text)
    is_told = done.returncode == 1 and owed in done.stdout and not done.stderr
    return None if is_told else f"status {done.returncode}: {done.stdout[:500]}{done.stderr[:500]}"


@in_folder
def stale_pages(program, folder):
    """A change of a source, of crates.txt, of a made page or of a part that is written by hand is told. Pages that are taken away
    are made again, byte for byte."""
    copy_to(folder)
    for change in CHANGES:
        yield f"docs/make: {change[0]}, {change[1].strip()} is {change[2].strip()}", change_fault(folder, change)
    pages = [os.path.join(folder, "docs", name) for name in ("CONTRACTS.md", "DEFINITIONS.md", "GUARDS.md", "LINT.md")]
    for page in pages:
        os.remove(page)
    before = files_below(os.path.join(folder, "docs"))
    done = made(folder)
    is_made = done.returncode == 0 and set(files_below(os.path.join(folder, "docs"))) == {*before, *pages}
    yield "docs/make makes pages and leaves no other file", None if is_made else f"{done}"
    for page in pages if is_made else ():
        want, have = read(os.path.join(TOP, "docs", os.path.basename(page))), read(page)
        yield f"docs/make makes {os.path.basename(page)}", None if have == want else difference(want, have)


TESTS = (made_pages, whole_functions, stale_pages)
