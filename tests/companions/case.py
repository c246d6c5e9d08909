"""Tests of `rehearse-tools case`. The answers that are owed are worked out by hand from docs/RULES.md: a@x has web; where a@x is lost,
web, which waits at b@x, fails over to it after 5000 ms."""
import hashlib
import io
import os
import platform
import re
import subprocess
import tarfile

from support import LONGEST_RUN, TOP, in_folder, read

NEEDS = ("python3",)
COMMAND = os.path.join(TOP, "companions", "rehearse-tools")
CLUSTER = b"""{node, a@x, [{kernel, [{distributed, [{web, 5000, [a@x, b@x]}]}]}, {rehearse, [{boot, [{web, permanent}]}]}]}.
{node, b@x, [{kernel, [{distributed, [{web, 5000, [a@x, b@x]}]}]}, {rehearse, [{boot, [{web, permanent}]}]}]}.
{application, web, []}.
"""
SCRIPT = b"===\n# a is lost\nboot a@x\nboot b@x\ncrash a@x\ntick 5000\n"
ANSWERS = b"ok\nup a@x\nstarted web a@x normal\nok\nup b@x\nwaits web b@x\nok\nended a@x\nok\nstarted web b@x normal\n"
PLAN = b"plan one\ncrash b@x\n"
SWEPT = ANSWERS + b"plan one accepted 1 failovers 0 takeovers 0\napp web lost b@x\n"
# FILE, the status and the answers of the program, and its words.
INPUTS = [
    ("a rehearsal", CLUSTER + SCRIPT, 0, ANSWERS, "run --pick first"), ("a cluster file", CLUSTER, 0, b"ok 2 nodes 1 applications\n", "check"),
    ("plans", CLUSTER + SCRIPT + PLAN, 0, SWEPT, "sweep --pick first"),
    ("a line that is no command", CLUSTER + b"===\nboot a@x\nreboot\n", 3, b"ok\nup a@x\nstarted web a@x normal\nbad line 2\n", "run --pick first"),
    ("a refused cluster file", b"{node, a@x, []\n===\n", 2, None, "run --pick first")]


def case(program, folder, *words, **options):
    """A finished run of the tool, in a folder."""
    options.setdefault("stdin", subprocess.DEVNULL)
    return subprocess.run([COMMAND, "case", "--rehearse", program, *words], cwd=folder, capture_output=True, timeout=LONGEST_RUN, **options)


def opened(data):
    """What is in an archive, by its names, and its entries."""
    with tarfile.open(fileobj=io.BytesIO(data), mode="r:gz") as archive:
        return {entry.name: archive.extractfile(entry).read() for entry in archive}, archive.getmembers()


def write(folder, name, data):
    with open(os.path.join(folder, name), "wb") as file:
        file.write(data)


@in_folder
def inputs(program, folder):
    """A case of each kind of input."""
    for name, data, status, owed, words in INPUTS:
        write(folder, "file.txt", data)
        done = case(program, folder, "file.txt")
        if done.returncode != 0 or done.stderr:
            yield name, f"{done}"
            continue
        files, _ = opened(done.stdout)
        is_right = set(files) == {"case/about.txt", "case/answers.txt", "case/rehearsal.txt"} and files["case/rehearsal.txt"] == data
        yield f"{name}: what is packed", None if is_right else f"{files}"
        answers = files.get("case/answers.txt")
        is_owed = re.fullmatch(rb"cluster refused C1 T1 syntax line \d+\n", answers) if owed is None else answers == owed
        yield f"{name}: the answers", None if is_owed else f"{answers}"
        lines = files.get("case/about.txt", b"").decode().splitlines()
        want = [f"command rehearse {words} < rehearsal.txt", f"status {status}"]
        yield f"{name}: the command", None if lines[:2] == want else f"{lines}"


@in_folder
def about(program, folder):
    """The versions, and nothing of who packed it."""
    write(folder, "file.txt", CLUSTER + SCRIPT)
    files, entries = opened(case(program, folder, "file.txt").stdout)
    lines = files["case/about.txt"].decode().splitlines()
    own = hashlib.sha256(read(program)).hexdigest()
    for line in ("rehearse 0.1.0", f"program sha256 {own}", f"python {platform.python_version()}"):
        yield f"about.txt has {line.split()[0]}", None if line in lines else f"{lines}"
    kinds = [line.split(" ")[0] for line in lines if not line.startswith("program's text: ")]
    yield "its lines", None if kinds == ["command", "status", "rehearse", "program", "python", "erlang", "system", "libc"] else f"{lines}"
    host = platform.node()
    told = [line for line in lines if host and re.search(rf"\b{re.escape(host)}\b", line)]
    yield "no name of a machine", f"{told}" if len(host) > 3 and told else None
    is_plain = all((entry.uid, entry.gid, entry.uname, entry.gname, entry.mtime) == (0, 0, "", "", 0) for entry in entries)
    yield "nobody's name and no time", None if is_plain else f"{entries}"
    # The script in front tells which program it would run: that is told of, with its text.
    front = os.path.join(folder, "front")
    text = os.path.join(folder, "program")
    write(folder, "program", b'#!/bin/sh\n[ "$1" != --version ] || { echo rehearse 9.9.9; exit; }\nexec "%s" "$@"\n' % program.encode())
    write(folder, "program.txt", b"kit some-kit\ncommit none\n")
    write(folder, "front", b'#!/bin/sh\n[ "$1" != --which ] || { echo "%s"; exit; }\nexec "%s" "$@"\n' % (text.encode(), text.encode()))
    for name in (front, text):
        os.chmod(name, 0o755)
    lines = opened(case(front, folder, "file.txt").stdout)[0]["case/about.txt"].decode().splitlines()
    owed = ["rehearse 9.9.9", f"program sha256 {hashlib.sha256(read(text)).hexdigest()}", "program's text: kit some-kit",
            "program's text: commit none"]
    yield "the program behind a script in front", None if lines[2:6] == owed else f"{lines}"


@in_folder
def outputs(program, folder):
    """What shows that it is otherwise is packed as it stands; the archive is the same each time."""
    write(folder, "file.txt", CLUSTER + SCRIPT)
    write(folder, "replay.txt", b"9 of 9 commands agree\n")
    os.mkdir(os.path.join(folder, "logs"))
    write(os.path.join(folder, "logs"), "a.log", b"\xff\x00\n")
    first = case(program, folder, "file.txt", "replay.txt", "logs/a.log")
    files, _ = opened(first.stdout)
    is_right = files["case/outputs/replay.txt"] == b"9 of 9 commands agree\n" and files["case/outputs/a.log"] == b"\xff\x00\n"
    yield "two outputs", None if is_right and len(files) == 5 else f"{files}"
    done = case(program, folder, "file.txt", "replay.txt", "logs/a.log", "-o", "made.tar.gz")
    is_same = not done.stdout and read(os.path.join(folder, "made.tar.gz")) == first.stdout
    yield "-o, and the same bytes", None if is_same else f"{done}"
    with open(os.path.join(folder, "file.txt"), "rb") as file:
        done = case(program, folder, "-", stdin=file)
    yield "standard input", None if opened(done.stdout)[0]["case/rehearsal.txt"] == CLUSTER + SCRIPT else f"{done}"
    write(os.path.join(folder, "logs"), "replay.txt", b"other\n")
    for words, status, told in ((("file.txt", "replay.txt", "logs/replay.txt"), 1, b"case: two files are called replay.txt: give one of them another name"),
                                (("-", "-"), 1, b"case: only one of the files can be standard input"),
                                (("file.txt", "none.log"), 2, b"case: none.log: No such file or directory"),
                                (("file.txt", "-o", "none/made.tar.gz"), 2, b"case: none/made.tar.gz: No such file or directory")):
        done = case(program, folder, *words)
        is_right = done.returncode == status and done.stderr.splitlines()[-1:] == [told] and not done.stdout
        yield " ".join(words), None if is_right else f"{done}"


TESTS = (inputs, about, outputs)
