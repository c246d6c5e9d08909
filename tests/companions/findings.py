"""Tests of what the companions tell of the program's `lint`: gather of what it wrote; plans, survey, page and report of what they read.
What lint owes is worked out by hand from docs/LINT.md."""
import html
import os
import re
import shlex
import subprocess
import sys
import tempfile

import front
from gathered import gather
from groups import Group
from pages import in_browser, made, page
from releases import write
from support import LONGEST_RUN, TOP, fault_of, in_folder, run

sys.path.append(os.path.join(TOP, "companions"))
from rehearse_tools.endings import Refused  # noqa: E402
from rehearse_tools.findings import Finding, Findings, findings_in  # noqa: E402

NEEDS = ("python3",)
COMPANIONS = os.path.join(TOP, "companions")
NODE = "{node, %s, [{kernel, [{distributed, [{web, 500, [a@x, b@x]}]}%s]}, {rehearse, [{boot, [{web, temporary}]}]}]}.\n"
LISTS = ", {sync_nodes_optional, [a@x, b@x]}, {sync_nodes_timeout, 1000}"
WEB = "{application, web, []}.\n"
CLEAN = "{profile, 2}.\n" + NODE % ("a@x", LISTS) + NODE % ("b@x", LISTS) + WEB
# Neither node waits for the other one: lines 2 and 3.
ALONE = "{profile, 2}.\n" + NODE % ("a@x", "") + NODE % ("b@x", "") + WEB
# The cluster has no node c@x: line 7.
SCRIPT = "===\nboot a@x\nboot c@x\nboot b@x\n"
PLANS = "plan p\ncrash a@x\ntick 500\n"
# Where each has something: the text, what is told of it, and whether it has plans.
TOLD = ((CLEAN, "", False), (ALONE, "lint has 2 warnings", False), (CLEAN + SCRIPT, "lint has 1 error", False),
        (ALONE + SCRIPT, "lint has 1 error, 2 warnings", False), (ALONE + SCRIPT + PLANS, "lint has 1 error, 2 warnings", True))


def same(owed, have):
    """What is wrong with a value, or None."""
    return None if owed == have else f"want {owed!r}, have {have!r}"


def called(program, name, *words, text=b""):
    """A finished run of a companion."""
    return subprocess.run([os.path.join(COMPANIONS, name), "--rehearse", program, *words], input=text, capture_output=True,
                          timeout=LONGEST_RUN)


def counts_by(command, program):
    """The counts that lint has, by the command that a notice tells."""
    with tempfile.TemporaryDirectory() as folder:
        line = command.replace("./rehearse", shlex.quote(front.install(folder, program)))
        done = subprocess.run(["bash", "-c", line], cwd=folder, capture_output=True, text=True, timeout=LONGEST_RUN)
        return (done.stdout.splitlines() or [done.stderr])[-1]


# ---- Reading


def reader(_):
    """The lines of lint are read as they are; others are refused."""
    lines = ['{"kind":"warning","code":"no_distributed_application","words":"no application is distributed, so none fails over"}',
             '{"line":7,"kind":"error","code":"C10","words":"bad_value: a value: {a, \\"b\\"}","path":"node a@x, kernel"}',
             '{"line":12,"kind":"hint","code":"tie","words":"x"}', '{"errors":1,"warnings":1,"hints":1}']
    owed = (Finding(None, "warning", "no_distributed_application", "no application is distributed, so none fails over"),
            Finding(7, "error", "C10", "bad_value: a value: {a, \"b\"} (node a@x, kernel)"), Finding(12, "hint", "tie", "x"))
    none = '{"errors":0,"warnings":0,"hints":0}'
    yield "lines", same(Findings(owed), findings_in(lines))
    yield "no finding", same((), findings_in([none]).all)
    for wrong in ([], lines[:3], [*lines[:3], lines[3].replace('"hints":1', '"hints":2')], ["what is this?", none], [*lines, "ok"],
                  ["0 errors, 0 warnings, 0 hints"], ['{"line":3,"kind":"fault","code":"tie","words":"x"}', none],
                  ['{"line":3,"kind":"hint","code":"tie"}', none]):
        try:
            yield f"no lines of lint: {wrong[-1:]}", f"read as {findings_in(wrong)}"
        except Refused as fault:
            yield f"no lines of lint: {wrong[-1:]}", None if str(fault).startswith("the program's lint ") else str(fault)


# A lint that has lines for people alone, as in an older program.
WITHOUT_JSON = """case "$*" in *--json*) exit 1 ;; esac
echo "2: warning no_lists: a@x names nobody"; echo "0 errors, 1 warnings, 0 hints"; exit 9"""


def other_programs(program, folder):
    """A program that is older and has no lint, or none that tells JSON, is no reason to end; one whose lint ends otherwise is."""
    for name, code, status, told in (
            ("older", "exit 1", 0, b""), ("older than its JSON", WITHOUT_JSON, 0, b""),
            ("full", "exit 5", 2, b"plans: standard input: lint: "), ("strange", "echo yes", 2, b"plans: the program's lint ")):
        path = os.path.join(folder, name)
        write(folder, name, f'#!/bin/sh\n[ "$1" = lint ] && {{ cat > /dev/null; {code}; exit; }}\nexec "{program}" "$@"\n')
        os.chmod(path, 0o700)
        done = called(path, "plans", text=ALONE.encode())
        is_right = done.returncode == status and done.stderr.startswith(told) and bool(done.stderr) == bool(told)
        yield f"a program that is {name}", None if is_right else f"{done}"


# ---- What is read


def of_plans(program, folder):
    """A line on standard error, and what is written stays as it is."""
    for number, (text, told, has_plans) in enumerate(TOLD):
        name = f"a file {number}"
        write(folder, name, text)
        path = shlex.quote(os.path.join(folder, name))
        command = f"sed '/^plan /,$d' {path} | ./rehearse lint" if has_plans else f"./rehearse lint {path}"
        done = called(program, "plans", path.strip("'"))
        yield f"plans: {told or 'nothing'} in file {number}", same(
            f"plans: {told}: {command} tells them\n" if told else "", done.stderr.decode())
        yield f"plans: what is written of file {number}", None if done.stdout.startswith(text.encode()) else f"{done}"
        if told:
            owed = "{} errors, {} warnings".format(*([1, 0] if text == CLEAN + SCRIPT else [0, 2] if text == ALONE else [1, 2]))
            have = counts_by(command, program)
            yield f"plans: the command of file {number}", None if have.startswith(owed) else f"{command}: {have}"
        done = called(program, "plans", text=text.encode())
        cut = "sed '/^plan /,$d' | " if has_plans else ""
        yield f"plans: {told or 'nothing'} in standard input {number}", same(
            f"plans: {told}: {cut}./rehearse lint tells them of the same input\n" if told else "", done.stderr.decode())


def of_survey(program, folder):
    """The first line of a summary, where the sweep's input is known."""
    for text, told, _ in TOLD:
        source = (text if "===" in text else text + "===\nboot a@x\n") + PLANS
        write(folder, "plans.txt", source)
        path = os.path.join(folder, "plans.txt")
        swept = run(program, ["sweep", "--json"], input=source.encode()).stdout
        done = called(program, "survey", "--of", path, text=swept)
        front = f"{told}: sed '/^plan /,$d' {path} | ./rehearse lint tells them\n" if told else ""
        alone = called(program, "survey", text=swept).stdout.decode().splitlines()[0]
        yield f"survey --of: {told or 'nothing'}", fault_of(done, 0, None) or same(
            [*front.splitlines(), alone], done.stdout.decode().splitlines()[:1 + bool(front)])


def shown(markup):
    """What a page shows of lint: the headline, and the cells of each row; None where there is nothing."""
    found = re.search(r'(?s)<details id="lint"><summary>(.*?)</summary>(.*?)</details>', markup)
    rows = re.findall(r"(?s)<tr class=\w+>(.*?)</tr>", found[2]) if found else []
    cells = [[html.unescape(re.sub("<[^>]*>", "", cell)) for cell in re.split(r"</t[dh]>", row)[:-1]] for row in rows]
    return (found[1], cells) if found else None


def of_page(program):
    """The findings with the lines of the file, hints among them."""
    both = "waits for: live it connects to nobody, and may run an instance of its own"
    alone = [[str(2 + place), (NODE % (node, "")).strip(), "warning", "no_lists", f"{node} names no other node that it {both}"]
             for place, node in enumerate(("a@x", "b@x"))]
    missing = ["7", "boot c@x", "error", "unknown_node", "the cluster has no node c@x; a@x is near"]
    for name, words, text, owed in (
            ("nothing", [], CLEAN + "===\nboot a@x\n", None), ("an error", [], CLEAN + SCRIPT, ("lint has 1 error", [missing])),
            ("warnings", [], ALONE + "===\nboot a@x\n", ("lint has 2 warnings", alone)),
            ("of a sweep", ["--sweep"], ALONE + "===\nboot a@x\n" + PLANS, ("lint has 2 warnings", alone)),
            ("a hint", [], CLEAN.replace("{profile, 2}.", "% a < b") + "===\n",
             ("lint has 1 hint", [["", "", "hint", "no_profile", "no term is {profile, N}: in profile 1 a permission that is given back "
                                   "moves nothing, as in no live OTP"]]))):
        done = page(program, [*words, "-"], text.encode())
        yield f"page: {name}", fault_of(done, 0, None) or same(owed, shown(done.stdout.decode()))


def in_print(program, folder, browser):
    """The findings are closed at first; a click opens them, and so does printing."""
    is_open = "document.getElementById('lint').open"
    for name, opens in (("a click", "document.querySelector('#lint summary').click()"), ("printing", "dispatchEvent(new Event('beforeprint'))")):
        browser.open(made(program, folder, ["-"], (ALONE + SCRIPT).encode()))
        before = browser.value(is_open)
        browser.value(opens)
        yield f"page: {name} opens the findings", same([False, True], [before, browser.value(is_open)])
    yield "page: nothing went wrong in it", browser.troubles()


def of_report(program, folder):
    """A report shows them at its top, of the cluster file alone, and the command that tells them."""
    for text, owed in ((CLEAN, None), (ALONE, "lint has 2 warnings")):
        write(folder, "cluster.txt", text)
        path = os.path.join(folder, "cluster.txt")
        done = subprocess.run([os.path.join(COMPANIONS, "rehearse-tools"), "report", "--rehearse", program, "--no-live", path],
                              capture_output=True, text=True, timeout=LONGEST_RUN)
        have = shown(done.stdout)
        yield f"report: {owed}", same(owed, have and have[0])
        before = done.stdout.split('<section id="summary"')[0]
        yield f"report: {owed}, at the top", same(owed is not None, 'id="lint"' in before)
        yield f"report: {owed}, the command", None if f"./rehearse lint {path}" in done.stdout else done.stdout[:500]


# ---- What is written


def of_gather(program, folder):
    """Its warnings with the lines of what was written; hints alone are none."""
    spread = "{distributed, [{web, 500, [a@x, b@x]}]}"
    write(folder, "alone.config", f"[{{kernel, [{spread}]}}].")
    write(folder, "lists.config", f"[{{kernel, [{spread}{LISTS}]}}].")
    both, told = ("--bare", "--node", "a@x", "--node", "b@x"), "waits for: live it connects to nobody, and may run an instance of its own"
    for words, status in (((), 0), (("--strict",), 9)):
        done = gather(folder, "--config", "alone", *both, *words, REHEARSE=program)
        lines = done.stdout.split("\n")
        owed = [f"warning: line {1 + lines.index(f'{{node, {node}, [')}: no_lists: {node} names no other node that it {told}"
                for node in ("a@x", "b@x")]
        yield f"gather {' '.join(words)}: warnings", same((status, "", owed), (done.returncode, done.stderr, done.found))
        done = gather(folder, "--config", "lists", *both, *words, REHEARSE=program)
        yield f"gather {' '.join(words)}: hints alone", same((0, "", []), (done.returncode, done.stderr, done.found))
    done = gather(folder, "--config", "alone", *both, "--program", program, REHEARSE="/nowhere/rehearse")
    yield "gather --program", same((0, "", 2), (done.returncode, done.stderr, len(done.found)))


def of_gather_alone(program, folder):
    """Without the program the cluster file is written all the same, and a line says that lint tells nothing."""
    write(folder, "lists.config", f"[{{kernel, [{{distributed, [{{web, 500, [a@x, b@x]}}]}}{LISTS}]}}].")
    words = ("--config", "lists", "--bare", "--node", "a@x", "--node", "b@x")
    owed = gather(folder, *words, REHEARSE=program).stdout
    for more, status in (((), 0), (("--strict",), 2)):
        for path, why in (("/nowhere/rehearse", "there is no program /nowhere/rehearse: tell it by --program PATH"),
                          ("/bin/true", "the program's lint doesn't end with its counts: ")):
            done = gather(folder, *words, *more, REHEARSE=path)
            have = (done.returncode, done.stderr, done.found, done.stdout)
            yield f"gather {' '.join(more)}: {path}", same((status, f"gather: lint tells nothing: {why}\n", [], owed), have)
    done = gather(folder, *words, "--stric")
    yield "gather --stric", None if done.returncode == 1 and "is --strict meant?" in done.stderr else f"{done}"


TESTS = (reader, Group(in_folder(other_programs)), Group(in_folder(of_plans)), Group(in_folder(of_survey)),
         Group(of_page, needs=("jinja2",)), Group(in_browser(in_print), needs=("jinja2", "chromium")), Group(in_folder(of_report), needs=("jinja2",)),
         *(Group(in_folder(tests), needs=("escript",)) for tests in (of_gather, of_gather_alone)))
