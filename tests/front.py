"""The script ./rehearse in front of the program: help and version, files in place of standard input, what it tells where the
program ended without a word, and that it changes nothing else.

It is tested as in a package, where no sources are: a folder with a blank in its name, with the program that is tested or with one
that the test makes. What is owed is written by hand from the rules and from docs/SCRIPTS.md.
"""
import glob
import os
import pty
import re
import resource
import shutil
import signal
import subprocess
import time

from row_files import ROWS, row_at
from support import COMMANDS, TOP, difference, fault_of, files_below, in_folder, read

LONGEST = 60
LIMIT = 16_777_216
CLUSTER = b"{node, a@x, []}.\n{application, web, []}.\n"
SCRIPT = b"boot a@x\nstart a@x web permanent\n"
ANSWERS = b"ok\nup a@x\nok\nstarted web a@x normal\n"
SUBCOMMANDS = ("run", "check", "lint", "story", "verify", "sessions", "sweep", "explore")
FULL = b"rehearse: standard output can't be written: it may be full\n"
LONG = b"rehearse: standard input is over 16 MiB (16777216 bytes)\n"
TERMINAL = b"rehearse: reads standard input, which Ctrl-D on a line of its own ends; `rehearse run FILE..` reads files\r\n"


def install(folder, program=None, script=None):
    """Puts ./rehearse into a folder as a package does, with a program or with a shell script in its place, and gives its path."""
    top = os.path.join(folder, "in stalled")
    for name in ("shipped", "companions/rehearse_tools"):
        os.makedirs(os.path.join(top, name))
    shutil.copy(os.path.join(TOP, "rehearse"), top)
    for path in files_below(os.path.join(TOP, "shipped")):
        if path.endswith(".sh"):
            shutil.copy(path, os.path.join(top, "shipped"))
    shutil.copytree(os.path.join(TOP, "docs", "help"), os.path.join(top, "docs", "help"))
    for path in glob.glob(os.path.join(TOP, "docs", "*.md")):
        shutil.copy(path, os.path.join(top, "docs"))
    shutil.copy(os.path.join(TOP, "companions", "rehearse_tools", "commands.json"), os.path.join(top, "companions", "rehearse_tools"))
    place = os.path.join(top, "shipped", "rehearse-x86_64-linux")
    if program or script:
        if program:
            shutil.copy(program, place)
        else:
            write(folder, place, b"#!/bin/bash\n" + script)
        os.chmod(place, 0o755)
        write(folder, f"{place}.txt", b"commit 0123456789abcdef0123456789abcdef01234567\ntime 2026-11-24T10:20:30Z\n")
    os.mkdir(os.path.join(folder, "tmp"))
    return os.path.join(top, "rehearse")


def write(folder, name, text):
    """Writes a file in a folder."""
    with open(os.path.join(folder, name), "wb") as file:
        file.write(text)


def call(folder, words, **options):
    """A finished call of ./rehearse in a folder, whose copies of files lie below it."""
    if "input" not in options:
        options.setdefault("stdin", subprocess.DEVNULL)
    options.setdefault("stdout", subprocess.PIPE)
    environment = {**os.environ, "TMPDIR": os.path.join(folder, "tmp")}
    return subprocess.run([os.path.join(folder, "in stalled", "rehearse"), *words], cwd=folder, stderr=subprocess.PIPE, timeout=LONGEST,
                          env=environment, **options)


def shell(folder, line, **options):
    """A finished line of a shell in which "$R" is ./rehearse."""
    environment = {**os.environ, "TMPDIR": os.path.join(folder, "tmp"), "R": os.path.join(folder, "in stalled", "rehearse")}
    return subprocess.run(["bash", "-c", line], cwd=folder, capture_output=True, timeout=LONGEST, env=environment, **options)


def wrong(done, status, out, err):
    """What is wrong with a finished call, or None. Where `out` is None any output will do."""
    if done.stderr != err:
        return difference(err, done.stderr)
    return fault_of(subprocess.CompletedProcess(done.args, done.returncode, done.stdout, b""), status, out)


def left(folder):
    """The copies of files that were left behind, or None."""
    names = os.listdir(os.path.join(folder, "tmp"))
    return f"{names}" if names else None


def told(done, *texts):
    """What is wrong with a call that tells these texts on standard output with status 0 and nothing else, or None."""
    missing = [text for text in texts if text not in done.stdout]
    return wrong(done, 0, None, b"") or (f"it lacks {missing}: {done.stdout[:2000]}" if missing else None)


@in_folder
def helps(program, folder):
    """Help and version stand on standard output, with status 0, where no program is."""
    install(folder)
    whole = call(folder, ["--help"])
    files = b"\nFiles in place of standard input: `rehearse run cluster.txt plan.txt` reads\n"
    yield "--help", told(whole, b"Usage: rehearse <COMMAND>\n", files)
    statuses = re.findall(r"(?m)^ +(\d+)  \S", whole.stdout.decode().partition("\nExit status:\n")[2])
    yield "--help has each status once", None if statuses == [str(number) for number in range(11)] else f"{statuses}"
    yield "--help has one list of them", None if whole.stdout.count(b"Exit status") == 1 else "another one"
    for words in (["-h"], ["help"], ["help", "help"]):
        yield " ".join(words), wrong(call(folder, words), 0, whole.stdout, b"")
    for name in SUBCOMMANDS:
        own = read(os.path.join(TOP, "docs", "help", f"{name}.txt"))
        usage = re.search(rb"Usage: [^\n]*", own)[0]
        more = [read(os.path.join(TOP, "docs", "help", text)) for text in ("explain.txt", "files.txt")[name != "lint":]]
        owed = b"\n".join([own.replace(usage, usage + b" [FILE].."), *more])
        for words in (["help", name], [name, "--help"], [name, "-h"], [name, "--pick", "last", "x.txt", "-h"]):
            yield " ".join(words), wrong(call(folder, words), 0, owed, b"")
    boot = call(folder, ["help", "boot"])
    yield "help boot", told(boot, b"boot N: starts node N\n\nExample: boot a@x\n", b": up, started, stopped, waits.\n",
                            b"  S3 already_alive             boot of a node that waits or is up\n", b"N and A are names of the cluster file")
    for command in COMMANDS:
        head = f"{command['usage']}: {command['help']}\n\nExample: {command['example']}\n".encode()
        done = call(folder, ["help", command["word"]])
        codes = [f"\n  {code} ".encode() for code in command["refusals"]]
        yield f"help {command['word']}: its head", told(done, head, *codes) or (None if done.stdout.startswith(head) else f"{done.stdout}")
    yield "run boot --help", wrong(call(folder, ["run", "boot", "--help"]), 0, boot.stdout, b"")
    code = call(folder, ["help", "C5"])
    yield "help C5", told(code, b"C5 unknown_name\n\nCause: a value names a node, an application", b"\n\nRemedy: add its term")
    yield "help s12", told(call(folder, ["help", "s12"]), b"refused S12 never_started\n\nCause: stop where it neither runs nor waits")
    yield "help T1", told(call(folder, ["help", "T1"]), b"C1 T1 syntax line K\n\nCause: ")
    version = read(os.path.join(TOP, "docs", "help", "version.txt")).strip() + b" (no program is here: ./build makes it)\n"
    for words in (["--version"], ["-V"]):
        yield f"{words[0]} where there is no program", wrong(call(folder, words), 0, version, b"")
    for line in ('"$R" --help >&-', '"$R" --help > /dev/full', '"$R" help boot > /dev/full'):
        yield line, wrong(shell(folder, line), 4, b"", b"rehearse: standard output can't be written\n")
    done = shell(folder, '"$R" run --help | head -n 1')
    yield "help that is read in part", wrong(done, 0, b"Reads a cluster file and a script, and answers each command\n", b"")
    done = call(folder, ["run"])
    is_right = done.returncode == 7 and not done.stdout and b"there is no program" in done.stderr
    yield "nothing else without a program", None if is_right else f"{done}"


@in_folder
def explained_codes(program, folder):
    """What a code of lint says, for each code of its page, and with what live nodes do there; for any other word those that are near."""
    install(folder)
    page = read(os.path.join(TOP, "docs", "LINT.md")).decode()
    codes = [code for cell in re.findall(r"(?m)^\| (`[a-z][^|]*) \|", page) for code in re.findall(r"`(\w+)`", cell)]
    yield "the page has codes", None if len(codes) > 50 and len(set(codes)) == len(codes) else f"{codes}"
    for code in codes:
        done = call(folder, ["lint", "--explain", code])
        is_right = re.match(rf"{code}: (error|warning|hint)\n\n[A-Z`]", done.stdout.decode()) and not re.search(rb"\]\(|\*\*|\|", done.stdout)
        yield f"lint --explain {code}", wrong(done, 0, None, b"") or (None if is_right else f"{done.stdout}")
    name = call(folder, ["lint", "--explain", "near_name"]).stdout
    owed = b"near_name: warning\n\nA section of a node, a parameter of `kernel` or a key of an application is skipped, and nearly one that is read.\n"
    yield "a code without an entry of live nodes", None if name == owed else f"{name}"
    for words in (["lint", "--explain=near_name"], ["lint", "--explain", "NEAR_NAME"], ["help", "near_name"]):
        yield " ".join(words), wrong(call(folder, words), 0, owed, b"")
    zero = (b"sync_timeout_zero: warning\n\nThe timeout of the node's lists is 0, which ends a live node.\n\n"
            b"Live nodes (docs/LIVE_OTP.md): `{sync_nodes_timeout, 0}`\n\n- Rules: it fires at the next tick.")
    yield "a code with one", told(call(folder, ["lint", "--explain", "sync_timeout_zero"]), zero, b"\n- Do: write 1 or more, or leave it out.\n")
    hang = call(folder, ["lint", "--explain", "tuple_takeover"])
    yield "a code that hangs", told(hang, b"tuple_takeover: warning\n\nIt is started at a node of a tuple while ", b".\nLive nodes hang there, and have another past from there on: ")
    yield "a code of check", wrong(call(folder, ["lint", "--explain", "c5"]), 0, call(folder, ["help", "C5"]).stdout, b"")
    for words, owed in (
            (["--explain", "near_nmae"], b"lint has no code near_nmae; near: near_name; "),
            (["--explain", "sync_timeout"], b"lint has no code sync_timeout; near: sync_timeout_zero, sync_timeout_too_large; "),
            (["--explain=wat"], b"lint has no code wat; "), (["--explain", "a`.*"], b"lint has no code a`.*; "),
            (["--explain"], b"lint --explain takes a code and nothing else; "), (["--explain="], b"lint --explain takes a code and nothing else; "),
            (["--explain", "own_end", "c.txt"], b"lint --explain takes a code and nothing else; "),
            (["--strict", "--explain", "own_end"], b"lint --explain takes a code and nothing else; ")):
        yield f"lint {' '.join(words)}", wrong(call(folder, ["lint", *words]), 1, b"", b"rehearse: " + owed + b"docs/LINT.md has all codes\n")
    os.remove(os.path.join(folder, "in stalled", "docs", "LINT.md"))
    yield "without its page", wrong(call(folder, ["lint", "--explain", "own_end"]), 1, b"", b"rehearse: docs/LINT.md isn't here\n")


@in_folder
def refused_words(program, folder):
    """What the program refuses is its own, with its status and its name; the version is that of what is run."""
    install(folder, program)
    number = read(os.path.join(TOP, "docs", "help", "version.txt")).strip()
    yield "--version", wrong(call(folder, ["--version"]), 0, number + b" (commit 0123456789, built 2026-11-24)\n", b"")
    for words, text in ([["chek"], b"tip: a similar subcommand exists: 'check'"], [["help", "wat"], b"unrecognized subcommand 'wat'"],
                        [["run", "--nonsense"], b"unexpected argument '--nonsense' found\n\nUsage: rehearse run"],
                        [["run", "--pick"], b"a value is required for '--pick"], [[], b"'rehearse' requires a subcommand"],
                        [["run", "--pick", "--help"], b"a value is required for '--pick"], [["--", "x"], b"Usage: rehearse <COMMAND>"]):
        done = call(folder, words)
        is_right = done.returncode == 1 and not done.stdout and text in done.stderr
        yield f"refused: {' '.join(words)}", None if is_right else f"{done}"
    write(folder, "c.txt", CLUSTER)
    done = call(folder, ["run", "--nonsense", "c.txt"])
    is_right = done.returncode == 1 and done.stderr.startswith(b"error: ") and b"cat: " not in done.stderr
    yield "refused words, and a file", None if is_right else f"{done}"


@in_folder
def options(program, folder):
    """Each option goes to the program as it is, in its order, and files don't: a value of an option is no file."""
    install(folder, script=b'echo "$@"; cat\n')
    for name, text in ("c", CLUSTER + b"===\n"), ("-x", b"x\n"), ("--", b"y\n"), ("last", b"z\n"):
        write(folder, name, text)
    for words, passed, texts in (
            (["run", "--echo", "--strict", "c"], "--echo --strict", b""), (["run", "c", "--json", "last"], "--json", b"z\n"),
            (["story", "--whole", "--pick", "last", "c"], "--whole --pick last", b""), (["verify", "--pick=last", "c"], "--pick=last", b""),
            (["sweep", "--workers", "4", "c", "--pick", "first"], "--workers 4 --pick first", b""),
            (["sweep", "--workers=4", "--", "c", "-x", "--", "last"], "--workers=4", b"x\ny\nz\n"),
            (["explore", "--states", "5", "c", "--pick=last"], "--states 5 --pick=last", b""),
            (["explore", "--workers", "4", "c", "--states=5"], "--workers 4 --states=5", b""),
            (["explore", "--memory", "5", "c"], "--memory 5", b""), (["explore", "--json", "--memory=5", "c"], "--json --memory=5", b""),
            (["check", "--never-seen", "c"], "--never-seen", b""), (["run", "--", "c", "--"], "", b"y\n")):
        line = " ".join([words[0], passed]).strip().encode() + b"\n"
        yield " ".join(words), wrong(call(folder, words), 0, line + CLUSTER + b"===\n" + texts, b"")


@in_folder
def known_words(program, folder):
    """The script knows each subcommand of the help, and each of its options that take a value: what stands behind is a file."""
    install(folder, script=b'echo "$@"; cat > /dev/null\n')
    write(folder, "c", CLUSTER)
    whole = read(os.path.join(TOP, "docs", "help", "rehearse.txt")).decode()
    names = re.findall(r"(?m)^  (\w+)  +\w", whole.partition("\nCommands:\n")[2].partition("\n\n")[0])
    yield "the help has subcommands", None if set(SUBCOMMANDS) <= set(names) else f"{names}"
    for name in (name for name in names if name != "help"):
        text = read(os.path.join(TOP, "docs", "help", f"{name}.txt")).decode()
        options = re.findall(r"(?m)^ +(?:-\w, )?(--[\w-]+)( <)?", text.partition("\nOptions:\n")[2].partition("\n\n")[0])
        words = [word for option, has_value in options if option != "--help" for word in [option] + ["c"] * bool(has_value)]
        yield f"{name} with all its options", wrong(call(folder, [name, *words, "c"]), 0, " ".join([name, *words]).encode() + b"\n", b"")


@in_folder
def joined_files(program, folder):
    """The texts of files stand one after the other, behind a line === and each on lines of its own."""
    install(folder, script=b"cat\n")
    os.mkdir(os.path.join(folder, "a b"))
    mark = b"===\n"
    whole = CLUSTER + mark + b"boot a@x"
    for name, text in (("c.txt", CLUSTER), ("bare.txt", CLUSTER[:-1]), ("whole.txt", whole), ("crlf.txt", b"x.\r\n===\r\ny"),
                       ("a b/p q.txt", SCRIPT), ("p.txt", SCRIPT[:-1]), ("q.txt", b"undo\r"), ("empty", b""), ("nul", b"x\0"),
                       ("====", b"====\n")):
        write(folder, name, text)
    for words, owed in (
            (["c.txt"], CLUSTER + mark), (["bare.txt"], CLUSTER + mark), (["whole.txt"], whole),
            (["whole.txt", "p.txt"], whole + b"\n" + SCRIPT[:-1]), (["c.txt", "a b/p q.txt"], CLUSTER + mark + SCRIPT),
            (["bare.txt", "p.txt", "p.txt", "q.txt"], CLUSTER + mark + SCRIPT + SCRIPT + b"undo\r"), (["empty", "c.txt"], mark + CLUSTER),
            (["c.txt", "empty", "q.txt"], CLUSTER + mark + b"undo\r"), (["crlf.txt", "q.txt"], b"x.\r\n===\r\ny\nundo\r"),
            (["nul", "q.txt"], b"x\0\n===\nundo\r"), (["====", "q.txt"], b"====\n===\nundo\r"),
            (["c.txt", "whole.txt"], CLUSTER + mark + whole)):
        yield f"files: {' '.join(words)}", wrong(call(folder, ["run", *words]), 0, owed, b"")
    for words, owed in ((["c.txt", "-"], CLUSTER + mark + b"tick 5"), (["-", "q.txt"], b"tick 5\n===\nundo\r"),
                        (["c.txt", "-", "-", "q.txt"], CLUSTER + mark + b"tick 5\nundo\r")):
        yield f"files: {' '.join(words)}", wrong(call(folder, ["run", *words], input=b"tick 5"), 0, owed, b"")
    done = shell(folder, '"$R" run <(cat c.txt) <(cat q.txt)')
    yield "files: of other commands", wrong(done, 0, CLUSTER + mark + b"undo\r", b"")
    done = shell(folder, 'touch ./-; "$R" run c.txt ./- < p.txt')
    yield "files: one that is named -", wrong(done, 0, CLUSTER + mark, b"")
    for name, why in ("nosuch.txt", b"No such file or directory"), (".", b"Is a directory"), ("", b"No such file or directory"):
        done = call(folder, ["run", "c.txt", name, "p.txt"])
        yield f"files: '{name}' can't be read", wrong(done, 4, b"", b"rehearse: %s: %s\n" % (name.encode() or b"''", why))
    done = shell(folder, '"$R" run c.txt - <&-')
    yield "files: standard input that is closed", wrong(done, 4, b"", b"rehearse: standard input: it is closed\n")
    yield "files: where standard input is closed", wrong(shell(folder, '"$R" run c.txt <&-'), 0, CLUSTER + mark, b"")
    yield "files: where standard error is closed", wrong(shell(folder, '"$R" run nosuch.txt 2>&-'), 4, b"", b"")
    yield "no copy is left", left(folder)


@in_folder
def file_answers(program, folder):
    """The program answers files as it answers their text."""
    install(folder, program)
    for name, text in ("c.txt", CLUSTER), ("p.txt", SCRIPT), ("plans.txt", SCRIPT + b"plan p\ncrash a@x\n"), ("s.txt", b"1 boot a@x\n"):
        write(folder, name, text)
    final = b"final\nnow 0\nnode a@x up 1\n"
    for words, status, out in (
            (["check", "c.txt"], 0, b"ok 1 nodes 1 applications\n"), (["run", "c.txt", "p.txt"], 0, ANSWERS), (["run", "c.txt"], 0, b""),
            (["run", "--pick", "last", "c.txt", "p.txt", "p.txt"], 0, ANSWERS + b"refused S3 already_alive\nrefused S11 already_started\n"),
            (["sessions", "c.txt", "s.txt"], 0, b"entry 1 boot a@x\nok\nup a@x\n" + final),
            (["sweep", "--workers", "2", "c.txt", "plans.txt"], 0, ANSWERS + b"plan p accepted 1 failovers 0 takeovers 0\n")):
        yield " ".join(words), wrong(call(folder, words), status, out, b"")


@in_folder
def devices(program, folder):
    """Where the program can't read or write, one line says what."""
    install(folder, program)
    write(folder, "c.txt", CLUSTER)
    write(folder, "p.txt", SCRIPT)
    write(folder, "w.txt", CLUSTER + b"===\n" + SCRIPT)
    write(folder, "long.txt", CLUSTER + b" " * (LIMIT + 1 - len(CLUSTER)))
    write(folder, "most.txt", CLUSTER + b" " * (LIMIT - len(CLUSTER)))
    # Blanks alone are a line without words.
    write(folder, "near.txt", b" " * (LIMIT - len(CLUSTER) - len(b"===\n")))
    out, into = b"rehearse: standard output is closed\n", b"rehearse: standard input is closed\n"
    for line, status, text, err in (
            ('"$R" run < .', 4, b"", b"rehearse: standard input is a directory\n"), ('"$R" run <&-', 4, b"", into),
            ('"$R" check 0> p.txt.new', 4, b"", b"rehearse: standard input can't be read: Bad file descriptor\n"),
            ('"$R" run < w.txt >&-', 4, b"", out), ('"$R" run c.txt p.txt >&-', 4, b"", out), ('"$R" run <&- >&-', 4, b"", into),
            ('"$R" run < w.txt > /dev/full', 4, b"", FULL), ('"$R" run c.txt p.txt > /dev/full', 4, b"", FULL),
            ('"$R" run <&- >&- 2>&-', 4, b"", b""),
            ('cat w.txt | "$R" run > /dev/full', 4, b"", FULL[:-1] + b", or standard input is over 16 MiB (16777216 bytes)\n"),
            ('"$R" check < most.txt', 0, b"ok 1 nodes 1 applications\n", b""), ('"$R" check < long.txt', 4, b"", LONG),
            ('cat long.txt long.txt | "$R" check', 4, b"", LONG), ('"$R" run c.txt near.txt', 0, b"", b""),
            ('"$R" run c.txt near.txt p.txt', 4, b"", LONG.replace(b"standard input", b"the input")),
            ('"$R" run /dev/zero', 4, b"", LONG.replace(b"standard input", b"the input")), ('"$R" run c.txt p.txt 2>&-', 0, ANSWERS, b"")):
        yield line, wrong(shell(folder, line), status, text, err)
    shows = CLUSTER + b"===\n" + b"show\n" * 50_000
    write(folder, "shows.txt", shows)
    for line in ('"$R" run < shows.txt | head -n 1; echo ${PIPESTATUS[0]}', '"$R" run shows.txt | head -n 1; echo ${PIPESTATUS[0]}',
                 'cat shows.txt | "$R" run | head -n 1; echo ${PIPESTATUS[1]}'):
        yield f"{line}: ends as other commands do", wrong(shell(folder, line), 0, b"ok\n141\n", b"")
    yield "no copy is left", left(folder)


@in_folder
def statuses(program, folder):
    """The status is the program's, over standard input and over files, and nothing is told but of what it couldn't do."""
    install(folder, script=b"cat > /dev/null; [ ! -e kills ] || kill -s $(< kills) $$; exit $(< status)\n")
    write(folder, "c.txt", CLUSTER)
    memory = b"rehearse: the program asked for memory and was refused it\n"
    for status in (0, 1, 2, 3, 4, 5, 6, 9, 10):
        write(folder, "status", b"%d\n" % status)
        owed = {4: FULL[:-1] + b", or standard input is over 16 MiB (16777216 bytes)\n", 5: memory}.get(status, b"")
        yield f"status {status} over standard input", wrong(call(folder, ["run"], input=CLUSTER), status, b"", owed)
        with open(os.path.join(folder, "c.txt"), "rb") as file:
            done = call(folder, ["verify"], stdin=file)
        yield f"status {status} over a file that is standard input", wrong(done, status, b"", {4: FULL, 5: memory}.get(status, b""))
        if status not in (2, 3):
            yield f"status {status} over files", wrong(call(folder, ["story", "c.txt"]), status, b"", {4: FULL, 5: memory}.get(status, b""))
        if status in (6, 9):
            done = shell(folder, 'set -o pipefail; "$R" run c.txt c.txt | cat')
            yield f"status {status} in a pipe", wrong(done, status, b"", b"")
    for name, status in ("KILL", 137), ("SEGV", 139):
        write(folder, "kills", name.encode())
        for words in (["run"], ["run", "c.txt"]):
            owed = b"rehearse: the program was ended by the signal %s\n" % name.encode()
            yield f"{' '.join(words)}: {name}", wrong(call(folder, words), status, b"", owed)


@in_folder
def unchanged_rows(program, folder):
    """Over standard input the answers, the statuses and standard error are those of the program: a row of each group."""
    install(folder, program)
    found = {}
    for path in files_below(ROWS):
        row = row_at(path)
        if row.status != 1:
            found.setdefault((os.path.dirname(path), row.status), (path, row))
    for path, row in found.values():
        yield os.path.relpath(path, ROWS), wrong(call(folder, row.words, input=row.input), row.status, row.output, b"")


def until(descriptor, text):
    """What a terminal shows, up to this text or to its end."""
    shown, end = b"", time.monotonic() + LONGEST
    while text not in shown and time.monotonic() < end:
        try:
            more = os.read(descriptor, 4096)
        except OSError:
            break
        if not more:
            break
        shown += more
    return shown


def at_terminal(folder, words, typed):
    """What is shown at a terminal where ./rehearse reads what is typed, and how it ended."""
    process, descriptor = pty.fork()
    if process == 0:
        os.environ["TMPDIR"] = os.path.join(folder, "tmp")
        os.chdir(folder)
        path = os.path.join(folder, "in stalled", "rehearse")
        os.execv(path, [path, *words])
    shown = until(descriptor, b"\r\n") if words[-1:] != ["c.txt"] else b""
    # What waits for the signal is there by now: the note is written before the program is started.
    time.sleep(0.5)
    os.write(descriptor, typed)
    shown += until(descriptor, b"\0")
    _, status = os.waitpid(process, 0)
    os.close(descriptor)
    return shown, status


@in_folder
def terminal(program, folder):
    """At a terminal it says that it reads it, and how to end that; Ctrl-C ends it by SIGINT, without noise."""
    install(folder, program)
    write(folder, "c.txt", CLUSTER)
    typed = b"{node, a@x, []}.\n===\nboot a@x\n\4"
    echoed = typed[:-1].replace(b"\n", b"\r\n")
    shown, status = at_terminal(folder, ["run"], typed)
    yield "Ctrl-D", None if shown == TERMINAL + echoed + b"ok\r\nup a@x\r\n" and status == 0 else f"{status}: {shown}"
    shown, status = at_terminal(folder, ["run", "c.txt", "-"], b"boot a@x\n\4")
    note = TERMINAL.split(b";")[0] + b"\r\n"
    yield "Ctrl-D behind a file", None if shown == note + b"boot a@x\r\nok\r\nup a@x\r\n" and status == 0 else f"{status}: {shown}"
    shown, status = at_terminal(folder, ["check", "c.txt"], b"")
    yield "a file at a terminal", None if shown == b"ok 1 nodes 1 applications\r\n" and status == 0 else f"{status}: {shown}"
    for words, note in (["run"], TERMINAL), (["run", "c.txt", "-"], note):
        shown, status = at_terminal(folder, words, b"\3")
        is_right = shown == note + b"^C" and os.WIFSIGNALED(status) and os.WTERMSIG(status) == signal.SIGINT
        yield f"Ctrl-C: {' '.join(words)}", None if is_right else f"{status}: {shown}"
    yield "no copy is left", left(folder)


def is_running(process):
    """Whether there is a process, and it isn't a dead one that nobody waited for."""
    try:
        return read(f"/proc/{process}/stat").rpartition(b")")[2].split()[0] != b"Z"
    except OSError:
        return False


@in_folder
def signals(program, folder):
    """A signal that ends ./rehearse ends the program too, and is how it ended."""
    install(folder, script=b"echo $$; exec sleep 60\n")
    write(folder, "c.txt", CLUSTER)
    environment = {**os.environ, "TMPDIR": os.path.join(folder, "tmp")}
    for number in (signal.SIGTERM, signal.SIGINT, signal.SIGHUP):
        for words in (["run"], ["run", "c.txt"]):
            with subprocess.Popen([os.path.join(folder, "in stalled", "rehearse"), *words], cwd=folder, env=environment,
                                  stdin=subprocess.PIPE, stdout=subprocess.PIPE, stderr=subprocess.PIPE) as started:
                own = int(started.stdout.readline())
                started.send_signal(number)
                _, error = started.communicate(timeout=LONGEST)
            is_right = started.returncode == -number and not error and not is_running(own)
            fault = f"status {started.returncode}, {error}, running: {is_running(own)}"
            yield f"{' '.join(words)}: {number.name}", None if is_right else fault
    yield "no copy is left", left(folder)


@in_folder
def front_cost(program, folder):
    """What it costs: processor time of the script and its children, the least of several calls, at most about ten times that of a
    quiet machine."""
    install(folder, program)
    write(folder, "c.txt", CLUSTER)
    write(folder, "p.txt", SCRIPT)
    for words, most in (["run"], 0.08), (["--help"], 0.08), (["run", "c.txt", "p.txt"], 0.2), (["help", "boot"], 0.2):
        spent = []
        for _ in range(10):
            before = resource.getrusage(resource.RUSAGE_CHILDREN)
            call(folder, words, input=CLUSTER)
            after = resource.getrusage(resource.RUSAGE_CHILDREN)
            spent.append(after.ru_utime + after.ru_stime - before.ru_utime - before.ru_stime)
        yield f"what `{' '.join(words)}` costs", None if min(spent) < most else f"{min(spent):.3f} s of processor time, more than {most} s"


TESTS = (helps, explained_codes, refused_words, options, known_words, joined_files, file_answers, devices, statuses, unchanged_rows, terminal, signals,
         front_cost)
