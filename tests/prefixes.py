"""Tests of cut inputs: every prefix of every sample cluster and of every example, by each subcommand.

The sources are the five sample clusters of the rows, with a script that goes through all kinds of lines, and each example. Where
a script is cut, its answer is measured by those to the whole lines before the cut.
"""
import os
import re
import subprocess

from groups import Group
from row_files import row_at
from support import LONGEST_RUN, TOP, example_files, read

SAMPLE = "sample cluster "
MARK = b"\n===\n"
HIDDEN = re.compile(rb"""%[^\n]*|'(?:[^'\\]|\\.)*(?:'|$)|"(?:[^"\\]|\\.)*(?:"|$)""", re.DOTALL)
FIRST_STATE = re.compile(rb"final\nnow 0\n(node [^ \n]+ down 0\n(  forbidden [^ \n]+\n)*)+(app [^ \n]+ quiet\n)*")
WORDS = ("check", "run", "sessions", "sweep")
OFF_END = b"sweep refused V2 base_not_at_end\n"


def source(name):
    """The input of this name: an example, or one that is made of a sample cluster."""
    if not name.startswith(SAMPLE):
        return read(os.path.join(TOP, name))
    cluster = row_at(os.path.join(TOP, "tests", "rows", "whole-files", name.replace(" ", "-") + ".row")).input
    nodes = re.findall(rb"\{node, ([^,]*),", cluster)
    lines = [b"boot %s" % node for node in nodes] + [b"tick 5000", b"", b"# again", b"crash %s" % nodes[0], b"show"]
    return cluster.rstrip(b"\n") + MARK + b"\n".join(lines) + b"\nplan p\nboot %s\n" % nodes[0]


def by_one_session(text):
    """The input with its commands by session 1, or None where it has no command that a session can make."""
    cluster, mark, script = text.partition(MARK)
    lines = [line for line in script.splitlines() if not line.startswith(b"plan ")]
    if not mark or re.search(rb"^[1-8] ", script, re.MULTILINE):
        return None
    return cluster + mark + b"".join((b"1 " + line if line.split() and line[:1] != b"#" else line) + b"\n" for line in lines)


def answer(program, word, text):
    """The status and the output; standard error makes it status -1."""
    done = subprocess.run([program, word], input=text, capture_output=True, timeout=LONGEST_RUN)
    return (-1, done.stderr) if done.stderr else (done.returncode, done.stdout)


def cut_terms_are_right(text, told):
    """Is this the answer of `check` to the front of a cluster file of ASCII whose terms can be read? Where a
    term is cut, the fault is in the last line; where none is, as many nodes and applications are counted as there are, or a
    later fault is found."""
    # Comments are left out, and what stands in quotes, which may be cut.
    bare = HIDDEN.sub(lambda found: b"" if found[0].startswith(b"%") else b"q", text)
    if bare.split() and not bare.rstrip().endswith(b"."):
        return told == (2, b"cluster refused C1 T1 syntax line %d\n" % (1 + text.count(b"\n")))
    counts = b"ok %d nodes %d applications\n" % (bare.count(b"{node,"), bare.count(b"{application,"))
    return told == (0, counts) or is_refused(told) and b" C1 " not in told[1]


def is_refused(told):
    return told[0] == 2 and re.fullmatch(rb"cluster refused C[0-9]+ [^\n]+\n", told[1]) is not None


class Told:
    """What is told of each front of an input, by each subcommand."""

    def __init__(self, program, text, words):
        self.text = text
        cluster, mark, _ = text.partition(MARK)
        # The front that ends with the mark, which may lack its line end.
        self.begin = len(cluster) + len(MARK) - 1 if mark else len(text) + 1
        fronts = [text[:size] for size in range(len(text) + 1)]
        self.told = {word: [answer(program, word, front) for front in fronts] for word in words}
        self.reads = "check" not in words or b" C1 " not in self.told["check"][-1][1]

    def is_right(self, word, size):
        """Is the answer to the front of this size as it must be?"""
        if size >= self.begin and self.text[self.begin + 1:size]:
            return self.script_is_right(word, size)
        told = self.told[word][size]
        if word == "check":
            front = self.text[:min(size, self.begin - len(MARK) + 1)] if size >= self.begin else self.text[:size]
            return cut_terms_are_right(front, told) if self.reads else told[0] in (0, 2)
        return self.is_bare(word, told, self.told["check"][size])

    def is_bare(self, word, told, checked):
        """Is this the answer to a cluster file without commands, of which `check` says that?"""
        if checked[0] == 2:
            return told == checked
        if word != "sessions":
            return told == (0, b"")
        nodes = int(checked[1].split()[1])
        return told[0] == 0 and FIRST_STATE.fullmatch(told[1]) is not None and told[1].count(b"\nnode ") == nodes

    def script_is_right(self, word, size):
        """Is the answer to a front that has a part of the script as it must be?"""
        told, base = self.told[word][size], self.told[word][self.line_begin(size)]
        if word == "check" or base[0] in (2, 3):
            return told == base
        front = self.text[self.begin + 1:size]
        bad = b"bad line %d\n" % (front.count(b"\n") + (not front.endswith(b"\n")))
        answers = {"run": self.run_answers, "sessions": self.session_answers, "sweep": self.sweep_answers}[word]
        return answers(size, front, told, base, bad)

    def line_begin(self, size):
        """The front without its last line, which may lack its line end."""
        return max(self.text.rfind(b"\n", 0, size - 1) + 1, self.begin)

    def run_answers(self, size, front, told, base, bad):
        """Each line is answered when it is read."""
        line = self.text[self.line_begin(size):size].strip()
        if told[0] == 3:
            return told[1] == base[1] + bad
        is_silent = not line or line.startswith(b"#")
        return told[0] == 0 and told[1].startswith(base[1]) and is_silent == (told[1] == base[1])

    def session_answers(self, size, front, told, base, bad):
        """All lines are read first."""
        if told[0] == 3:
            return told[1] == bad
        commands = [line for line in front.splitlines() if line.split() and not line.startswith(b"#")]
        entries = [line for line in told[1].splitlines() if line.startswith(b"entry ")]
        return told[0] == 0 and len(entries) == len(commands) and b"final\nnow " in told[1]

    def sweep_answers(self, size, front, told, base, bad):
        """All lines are read first; the commands before the first plan are answered as by `run`, and each plan by itself."""
        if told[0] == 3:
            return told[1] == bad
        plans = len(re.findall(rb"^plan ", front, re.MULTILINE))
        first = self.text.find(b"\nplan ", self.begin) + 1 if plans else size
        before = self.told["run"][first][1]
        if told[0] == 6:
            return told[1] == before + OFF_END
        if not plans:
            return told == (0, before)
        if told[0] != 0 or not told[1].startswith(before):
            return False
        behind = told[1][len(before):]
        # The last plan may have more events, but those before it are told as in the whole.
        done, last, _ = behind.rpartition(b"plan ")
        whole = self.told["sweep"][-1]
        found = len(re.findall(rb"^plan ", behind, re.MULTILINE))
        return found == plans and bool(last) and (whole[0] != 0 or whole[1].startswith(before + done))


def wrong_front(told, word):
    """The first front of an input that isn't answered as it must be, or None."""
    for size in range(len(told.text) + 1):
        if not told.is_right(word, size):
            return f"the first {size} bytes, which end in {told.text[max(size - 60, 0):size]!r}: {told.told[word][size]}"
    return None


def cut_inputs(program, name):
    """Every prefix of a source, by each subcommand."""
    text = source(name)
    told = Told(program, text, WORDS)
    for word in WORDS:
        yield f"{word} of each of {len(text) + 1} prefixes of {name}", wrong_front(told, word)
    own = by_one_session(text)
    if own is not None:
        told = Told(program, own, ("check", "sessions"))
        yield f"sessions of each of {len(own) + 1} prefixes of {name}, by session 1", wrong_front(told, "sessions")


# The longest sources first.
SOURCES = [os.path.relpath(path, TOP) for path in sorted(example_files(), key=os.path.getsize, reverse=True)]
TESTS = (Group(cut_inputs, SOURCES + [f"{SAMPLE}{number}" for number in range(1, 6)]),)
