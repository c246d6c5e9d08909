"""Tests of the six commands of README.md, from a release's own files to a page with a picture, and of the one that does all of them:
they are run as they stand there, on the release that examples/shop/make makes by systools, and the page is opened in a real browser.
What they print stands in README.md too, worked out by hand from the lists in examples/shop/sys.config.
"""
import base64
import os
import re
import struct
import subprocess
import tempfile

from browser import Browser
from support import TOP, difference, read

NEEDS = ("erl", "escript", "erlc", "chromium", "jinja2")
LONGEST_COMMAND = 120
PICTURE = os.path.join(TOP, "docs", "images", "six-commands.png")
SIZE = (1280, 1020)
# The plans' table: what became of both applications.
TABLE = """Object.fromEntries([...document.querySelectorAll('#sweep tbody tr')].map(
  (row) => [row.firstChild.textContent, [...row.children].slice(1, 3).map((cell) => cell.textContent)]))"""
# The steps in which an application was lost, and the clock at each step.
LOSSES = "[view.story.losses, view.story.steps.map((_, step) => clockAt(view.story, step))]"
ROWS = {
    "a@host1": ["→ b@host2", "= c@host3"], "b@host2": ["= a@host1", "= c@host3"], "c@host3": ["= a@host1", "→ a@host1"],
    "a@host1+b@host2": ["→ c@host3", "= c@host3"], "a@host1+c@host3": ["→ b@host2", "✗ wanted, was at c@host3"],
    "b@host2+c@host3": ["= a@host1", "→ a@host1"]}


def shown():
    """The first two commands of the section, which make a release and a report of it; the six commands behind a comment; and what the
    fourth and the sixth print."""
    section = read(os.path.join(TOP, "README.md")).decode().split("\n## From your own release to a picture\n")[1].split("\n## ")[0]
    blocks = re.findall(r"(?ms)^```(\w+)\n(.*?)^```$", section)
    [commands] = [block.splitlines() for language, block in blocks if language == "sh"]
    told = [block for language, block in blocks if language == "text"]
    return commands[:2], commands[3:], told


def made(program, folder):
    """Runs all commands in a folder that looks like the repository, and gives each with its finished run."""
    os.symlink(os.path.join(TOP, "companions"), os.path.join(folder, "companions"))
    os.symlink(os.path.join(TOP, "examples"), os.path.join(folder, "examples"))
    os.symlink(program, os.path.join(folder, "rehearse"))
    first, six, _ = shown()
    return [(command, subprocess.run(["bash", "-c", f"set -o pipefail; {command}"], cwd=folder, stdin=subprocess.DEVNULL,
                                     capture_output=True, timeout=LONGEST_COMMAND, env={**os.environ, "REHEARSE": program}))
            for command in first + six]


def screenshot(folder, browser):
    """The picture of the page that the fifth command wrote, with the steps of a plan."""
    browser.open(os.path.join(folder, "plans.html"), "#plan=a@host1+c@host3")
    browser.call("Emulation.setDeviceMetricsOverride", width=SIZE[0], height=SIZE[1], deviceScaleFactor=1, mobile=False)
    return base64.b64decode(browser.call("Page.captureScreenshot", format="png")["data"])


def size_of(picture):
    """The width and the height of a PNG."""
    return struct.unpack(">II", picture[16:24]) if picture.startswith(b"\x89PNG") else None


def six_commands(program):
    """The commands, what they print, and the page."""
    with tempfile.TemporaryDirectory(ignore_cleanup_errors=True) as folder:
        runs = made(program, folder)
        for command, done in runs:
            yield command, None if done.returncode == 0 and not done.stderr else f"{done}"
        yield "there are six of them", None if len(runs) == 2 + 6 else f"{len(runs)}"
        told = [done.stdout for _, done in runs]
        fourth, sixth = (text.encode() for text in shown()[2])
        owed = [b"", b"", b"", b"ok 3 nodes 3 applications\n", b"", fourth, b"", sixth]
        yield "what they print", None if told == owed else difference(b"".join(owed), b"".join(told))
        page = read(os.path.join(folder, "report.html")).decode()
        yield "the report", None if "<title>What shop survives</title>" in page else page[:500]
        again = subprocess.run(["examples/shop/make", "target"], cwd=folder, capture_output=True, timeout=LONGEST_COMMAND)
        is_right = again.returncode == 1 and again.stderr == b"target is there already: remove it, or give another folder\n"
        yield "the release is made only once", None if is_right else f"{again}"
        browser = Browser(folder)
        try:
            picture = screenshot(folder, browser)
            rows = browser.value(TABLE)
            yield "the page's table of plans", None if rows == ROWS else f"{rows}"
            # Both are lost; at 2000 ms there is no node for report, at 5000 ms billing starts at the next one.
            steps = [browser.value(LOSSES), browser.text("report").split("\n")[-3:-1]]
            owed = [[[1, 2], [0, 0, 0, 2000, 5000, 10000]], ["app billing running b@host2", "app report wanted c@host3"]]
            yield "the steps of a plan", None if steps == owed else f"{steps}"
            yield "nothing went wrong in the page", browser.troubles()
            sizes = size_of(picture), size_of(read(PICTURE))
            yield "the picture is of this page's size", None if sizes == (SIZE, SIZE) else f"{sizes}"
        finally:
            browser.close()


TESTS = (six_commands,)
