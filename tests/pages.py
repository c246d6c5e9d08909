"""What the tests of companions/page share: pages that are made and opened in a real browser, and what is read from them."""
import os
import subprocess

from browser import Browser
from support import LONGEST_RUN, TOP, in_folder

COMPANION = os.path.join(TOP, "companions", "page")
# What a click would meet at a step, in each row that has a label.
COLUMN = """(() => {
  const cursor = document.getElementById("cursor").getBoundingClientRect();
  return [...document.querySelectorAll("#corner g, #names g")].map((row) => {
    const box = row.getBoundingClientRect();
    const there = document.elementFromPoint(cursor.left + cursor.width / 2, box.top + box.height / 2);
    const title = there && there.closest("g") && there.closest("g").querySelector("title");
    return [row.dataset.row, title ? title.textContent : ""];
  });
})()"""
# The labels of the nodes' rows as they are drawn, and what stands above the columns, each in its lines.
LABELS = """[...document.querySelectorAll('#names g')].filter((row) => row.querySelector('.node')).map(
  (row) => [...row.querySelectorAll('text')].map((line) => line.textContent).join('|'))"""
HEADS = """[...document.querySelectorAll('#head g')].filter((head) => head.querySelector('.command, .refused')).map(
  (head) => [...head.querySelectorAll('text')].map((line) => line.textContent).join('|'))"""
# The words that are drawn in the row with a label.
WORDS = """((label) => {
  const row = [...document.querySelectorAll('#corner g, #names g')].find((each) => each.dataset.row === label);
  const box = row.getBoundingClientRect();
  const middle = box.top + box.height / 2;
  return [...document.querySelectorAll('#head g, #body g')].filter((span) => {
    const there = span.querySelector('rect') && span.querySelector('rect').getBoundingClientRect();
    return there && there.top <= middle && middle <= there.bottom;
  }).map((span) => [...span.querySelectorAll('text')].map((text) => text.textContent).join(' '));
})"""
# Whether anything is wider than the window.
OVERFLOW = "document.documentElement.scrollWidth - document.documentElement.clientWidth"
SHOWN_PLANS = """[...document.querySelectorAll('#plans tbody tr')].filter((row) => row.offsetHeight).map(
  (row) => row.querySelector('.open').textContent)"""
REFUSED_COMMANDS = """[...document.querySelectorAll('#head g')].filter((head) => head.querySelector('.refused')).map(
  (head) => [...head.querySelectorAll('text')].map((line) => line.textContent).join(' '))"""
# The table of plans: each with its other cells.
ROWS_OF_PLANS = """Object.fromEntries([...document.querySelectorAll('#sweep tbody tr')].map(
  (row) => [row.firstChild.textContent, [...row.children].slice(1).map((cell) => cell.textContent)]))"""


def page(program, words, text=None):
    """A finished run of the companion."""
    return subprocess.run([COMPANION, "--rehearse", program, *words], input=text, capture_output=True, timeout=LONGEST_RUN)


def same(want, have):
    """What is wrong with a value, or None."""
    return None if want == have else f"want {want!r}, have {have!r}"


def all_same(*pairs):
    """What is wrong with the first of some values that isn't as wanted, or None."""
    return next((wrong for wrong in (same(*pair) for pair in pairs) if wrong), None)


def made(program, folder, words, text=None):
    """The path of a page that is made from words and an input."""
    path = os.path.join(folder, "page.html")
    done = page(program, [*words, "-o", path], text)
    if done.returncode != 0 or done.stdout or done.stderr:
        raise ValueError(f"status {done.returncode}: {done.stdout} {done.stderr}")
    return path


def example(name):
    """The path of an example."""
    return os.path.join(TOP, "examples", name)


def in_browser(part):
    """A group of tests: those of a function that takes a folder and a browser, too."""

    def tests(program, folder):
        browser = Browser(folder)
        try:
            yield from part(program, folder, browser)
        finally:
            browser.close()

    tests.__name__ = part.__name__
    return in_folder(tests)
