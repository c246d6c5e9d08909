"""Tests of what each companion does where something is wrong with its surroundings: one line on standard error, a status, and no
traceback. A row is a mistake, and it is made with every companion that can make it."""
import os
import shutil
import signal
import subprocess
import sys
import time
from collections.abc import Iterator
from typing import NamedTuple, Optional

from groups import Group, Test
from support import LONGEST_RUN, TOP, in_folder, run

NEEDS = ("python3",)
COMPANIONS = os.path.join(TOP, "companions")
# Lint has nothing against these.
KERNEL = "{kernel, [{distributed, [{web, 5000, [a@x, b@x]}]}, {sync_nodes_optional, [a@x, b@x]}, {sync_nodes_timeout, 1000}]}"
CLUSTER = f"""{{node, a@x, [{KERNEL}, {{rehearse, [{{boot, [{{web, permanent}}]}}]}}]}}.
{{node, b@x, [{KERNEL}, {{rehearse, [{{boot, [{{web, permanent}}]}}]}}]}}.
{{application, web, []}}.
===
boot a@x
boot b@x
"""
PLANS = "plan p\ncrash a@x\ntick 5000\n"
CONFIG = f"[{KERNEL}]."
FULL = "/dev/full"
# It says that it runs, and waits.
WAITS = "#!/bin/sh\nexec 2> /dev/null\n: > %s\nexec sleep 20\n"


class Call(NamedTuple):
    """How a companion is called where nothing is wrong: its words, where FILE, PLANS, OUTPUT and CONFIG stand for files; which of them
    is the file that it reads; the status of a wrong command line; and whether it asks the program."""
    words: tuple[str, ...]
    file: str = "FILE"
    wrong: int = 1
    asks: bool = True


CALLS = {
    "plans": Call(("FILE",)), "survey": Call(("--of", "PLANS", "OUTPUT"), "OUTPUT"), "page": Call(("FILE",)), "shell": Call(("FILE",)),
    "live": Call(("FILE",), wrong=4), "compare": Call(("FILE", "FILE"), wrong=4), "spread": Call(("PLANS",), "PLANS"),
    "replay": Call(("FILE",)), "report": Call(("FILE",)), "case": Call(("FILE",)),
    "gather": Call(("--bare", "--config", "CONFIG", "--node", "a@x", "--node", "b@x"), "CONFIG", asks=False)}
# These have no path of their own.
NEW = ("report", "case")
# Files that aren't what is to be read, with the end of what is told of them.
FILES = {"no file": "No such file or directory", "a folder": "Is a directory", "an empty file": "it is empty"}


def files_in(program: str, folder: str) -> dict[str, str]:
    """Writes the files that a good call reads, and gives their paths."""
    texts = {"FILE": CLUSTER, "PLANS": CLUSTER + PLANS, "CONFIG": CONFIG,
             "OUTPUT": run(program, ["sweep", "--json"], input=(CLUSTER + PLANS).encode()).stdout.decode()}
    paths = {name: os.path.join(folder, f"{name.lower()}.config" if name == "CONFIG" else f"{name.lower()}.txt") for name in texts}
    for name, text in texts.items():
        with open(paths[name], "w", encoding="utf-8") as file:
            file.write(text)
    return paths


def call_of(name: str, program: str, paths: dict[str, str]) -> list[str]:
    """The command line of a companion."""
    asked = ["--rehearse", program] if CALLS[name].asks else []
    tool = ["rehearse-tools", name] if name in NEW else [name]
    return [os.path.join(COMPANIONS, tool[0]), *tool[1:], *asked, *(paths.get(word, word) for word in CALLS[name].words)]


def finished(words: list[str], **options) -> subprocess.CompletedProcess:
    """A finished run."""
    options.setdefault("stdout", subprocess.PIPE)
    return subprocess.run(words, stdin=subprocess.DEVNULL, stderr=subprocess.PIPE, text=True, timeout=LONGEST_RUN, **options)


def line_fault(name: str, done: subprocess.CompletedProcess, status: int, *parts: str, most: int = 1) -> Optional[str]:
    """What is wrong with a run that owes a status and a line on standard error, of itself that alone."""
    lines = done.stderr.splitlines()
    is_told = any(line.startswith(f"{name}: ") and all(part in line for part in parts) for line in lines)
    is_right = done.returncode == status and is_told and len(lines) <= most and not done.stdout
    return None if is_right else f"status {done.returncode}, want {status} and {parts}: {done.stderr[:600]} {(done.stdout or '')[:100]}"


def files(program: str, folder: str, name: str) -> Iterator[Test]:
    """What is to be read isn't there, or has nothing."""
    paths, call = files_in(program, folder), CALLS[name]
    wrong = {"no file": os.path.join(folder, "none.config"), "a folder": folder, "an empty file": os.path.join(folder, "empty.config")}
    with open(wrong["an empty file"], "w", encoding="utf-8"):
        pass
    for mistake, told in FILES.items():
        done = finished(call_of(name, program, {**paths, call.file: wrong[mistake]}))
        yield f"{name}: {mistake}", line_fault(name, done, 2, os.path.basename(wrong[mistake]))
        # Erlang has words of its own, and by it a folder is a release that lacks something.
        is_told = told in done.stderr or name in ERLANG or name == "report" and mistake == "a folder"
        yield f"{name}: {mistake}, the reason", None if is_told else done.stderr


def programs(_: str, folder: str, name: str) -> Iterator[Test]:
    """The program isn't the program, or there is none."""
    if not CALLS[name].asks:
        return
    paths = files_in(_, folder)
    text = os.path.join(folder, "text")
    with open(text, "w", encoding="utf-8") as file:
        file.write("\x00 no program\n")
    os.chmod(text, 0o755)
    for other in ("/bin/echo", "/bin/false", "/bin/cat", text):
        done = finished(call_of(name, other, paths))
        yield f"{name}: {os.path.basename(other)} as the program", line_fault(name, done, 2, other)
    for other in (os.path.join(folder, "none"), folder):
        done = finished(call_of(name, other, paths))
        yield f"{name}: no program", line_fault(name, done, CALLS[name].wrong, "there is no program", other, most=20)


def outputs(program: str, folder: str, name: str) -> Iterator[Test]:
    """Standard output can't be written, or nobody reads it any longer."""
    words = call_of(name, program, files_in(program, folder))
    with open(FULL, "w", encoding="utf-8") as full:
        done = finished(words, stdout=full)
    yield f"{name}: a full device", None if done.returncode in (2, 4) and is_short(done) and done.stderr else f"{done}"
    if name not in ERLANG:
        done = finished(["sh", "-c", 'exec "$@" >&-', "sh", *words], stdout=None)
        yield f"{name}: closed standard output", None if done.returncode in (2, 4) and is_short(done) and done.stderr else f"{done}"
    reader, writer = os.pipe()
    os.close(reader)
    done = finished(words, stdout=writer)
    os.close(writer)
    # Nodes go on as long as somebody reads what they do. Else the status is that of what was done.
    owed = (4, 1) if name == "replay" else (finished(words, stdout=subprocess.DEVNULL).returncode, 0)
    yield f"{name}: nobody reads", None if (done.returncode, len(done.stderr.splitlines())) == owed else f"{done}, want {owed}"


def is_short(done: subprocess.CompletedProcess) -> bool:
    """Whether a run told at most one line."""
    return len(done.stderr.splitlines()) <= 1


def interrupted(_: str, folder: str, name: str) -> Iterator[Test]:
    """Ctrl-C at a terminal, while the program runs or a file is read: all processes of the group are interrupted."""
    paths, started, waits = files_in(_, folder), os.path.join(folder, "started"), os.path.join(folder, "waits")
    with open(waits, "w", encoding="utf-8") as file:
        file.write(WAITS % started)
    os.chmod(waits, 0o755)
    if name == "gather":
        os.remove(paths["CONFIG"])
        os.mkfifo(paths["CONFIG"])
    with subprocess.Popen(call_of(name, waits, paths), stdin=subprocess.DEVNULL, stdout=subprocess.PIPE, stderr=subprocess.PIPE,
                          text=True, start_new_session=True) as child:
        if name == "gather":
            # It goes on where somebody reads.
            with open(paths["CONFIG"], "w", encoding="utf-8"):
                os.killpg(child.pid, signal.SIGINT)
                out, told = child.communicate(timeout=LONGEST_RUN)
        else:
            while not os.path.exists(started) and child.poll() is None:
                time.sleep(0.01)
            os.killpg(child.pid, signal.SIGINT)
            out, told = child.communicate(timeout=LONGEST_RUN)
    is_right = child.returncode in (-signal.SIGINT, 130) and not told and not out
    yield f"{name}: Ctrl-C", None if is_right else f"status {child.returncode}: {out} {told}"


def own_faults(_: str) -> Iterator[Test]:
    """A fault of a companion itself is one line, and all of it where that is asked for."""
    code = f"import sys; sys.path.insert(0, {COMPANIONS!r}); sys.dont_write_bytecode = True; from rehearse_tools import endings; endings.run_main('x', %s)"
    for body, status, told in (
            ("lambda: [][1]", 70, "x: a fault of this companion, IndexError: list index out of range (<string> line 1); "),
            ("lambda: open('/nowhere/file')", 2, "x: /nowhere/file: No such file or directory\n"),
            ("lambda: (_ for _ in ()).throw(endings.Refused('no\\nway'))", 2, "x: no way\n"),
            ("lambda: print('out')", 0, ""), ("lambda: sys.exit(7)", 7, ""),
            ("lambda: (_ for _ in ()).throw(KeyboardInterrupt)", -signal.SIGINT, "")):
        done = finished([sys.executable, "-c", code % body])
        is_right = done.returncode == status and done.stderr.startswith(told) and len(done.stderr.splitlines()) == bool(told)
        yield f"run_main: {body}", None if is_right else f"{done}"
    done = finished([sys.executable, "-c", code % "lambda: [][1]"], env={**os.environ, "REHEARSE_TRACE": "1"})
    yield "REHEARSE_TRACE", None if done.returncode == 70 and done.stderr.startswith("Traceback ") else f"{done}"


def all_companions(_: str) -> Iterator[Test]:
    """Every companion has its row."""
    there = {name for name in os.listdir(COMPANIONS)
             if os.path.isfile(os.path.join(COMPANIONS, name)) and os.access(os.path.join(COMPANIONS, name), os.X_OK)}
    yield "every companion has a row", None if there == {*CALLS, "rehearse-tools"} - set(NEW) else f"{there}"


def alone(_: str, folder: str) -> Iterator[Test]:
    """A companion that was copied without the package tells what it lacks; by a link it lacks nothing."""
    for name in sorted({*CALLS, "rehearse-tools"} - set(NEW)):
        copy, link = os.path.join(folder, name), os.path.join(folder, f"link-to-{name}")
        shutil.copy(os.path.join(COMPANIONS, name), copy)
        yield f"{name}: copied alone", line_fault(name, finished([copy]), 2, f"the folder rehearse_tools isn't in {os.path.realpath(folder)}:")
        os.symlink(os.path.join(COMPANIONS, name), link)
        done = finished([link, "--help"])
        yield f"{name}: by a link", None if (done.returncode, done.stderr) == (0, "") and done.stdout.startswith("usage: ") else f"{done}"


# Its lines tell of an error in words that Erlang has for it.
ERLANG = ("gather", "replay")
PYTHON = ("plans", "survey", "shell", "live", "compare", "case")
TESTS = (all_companions, own_faults, in_folder(alone), *(
    Group(in_folder(tests), items=names, needs=needs)
    for tests in (files, programs, outputs, interrupted)
    for names, needs in ((PYTHON, ()), (("page", "report"), ("jinja2",)), (("spread",), ("parallel",)), (("gather", "replay"), ("escript",)))))
