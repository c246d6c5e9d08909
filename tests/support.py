"""What the tests of the built program share: running it, and what is wrong with a finished run."""
import difflib
import json
import os
import re
import subprocess
import tempfile

TOP = os.path.dirname(os.path.dirname(os.path.abspath(__file__)))
with open(os.path.join(TOP, "companions", "rehearse_tools", "commands.json"), encoding="utf-8") as _file:
    # The commands of a script in their order, of the table by which the program reads and prints them.
    COMMANDS = json.load(_file)
# What stands behind the word of each, and the words of those that are events.
ARGUMENTS = {command["word"]: command["arguments"] for command in COMMANDS}
EVENT_WORDS = [command["word"] for command in COMMANDS if command["refusals"]]
LONGEST_RUN = 300


def read(path):
    """The bytes of a file."""
    with open(path, "rb") as file:
        return file.read()


def files_below(folder):
    """The paths of all files in a folder and its folders, in order."""
    return sorted(os.path.join(where, name) for where, _, names in os.walk(folder) for name in names)


def example_files():
    """The paths of all examples: the files examples/**/NAME.txt. In examples/shop are the sources of a release, and in examples/stories the
    stories of other examples, which stories.py looks at."""
    top = os.path.join(TOP, "examples")
    return [path for path in files_below(top) if path.endswith(".txt") and not path.startswith(os.path.join(top, "stories", ""))]


def library_of(code, folder):
    """The path of a library that is made of this C code in the folder, to be loaded before the others."""
    source, library = os.path.join(folder, "library.c"), os.path.join(folder, "library.so")
    with open(source, "w") as file:
        file.write(code)
    subprocess.run(["cc", "-shared", "-fPIC", "-O1", "-o", library, source, "-ldl"], check=True)
    return library


def in_folder(part):
    """A group of tests: those of a function that takes a folder too, which is there as long as they are run."""

    def tests(program, *words):
        with tempfile.TemporaryDirectory(ignore_cleanup_errors=True) as folder:
            yield from part(program, folder, *words)

    tests.__name__ = part.__name__
    return tests


def run(program, words, **options):
    """A finished run of the program, by default with no input and with its output kept."""
    if "input" not in options:
        options.setdefault("stdin", subprocess.DEVNULL)
    options.setdefault("stdout", subprocess.PIPE)
    return subprocess.run([program] + words, stderr=subprocess.PIPE, timeout=LONGEST_RUN, **options)


# That lint has something for an input, as plans and survey tell it.
NOTICE = re.compile(rb"^(?:plans: )?lint has [^\n]* tells them(?: of the same input)?\n")


def without_notice(done):
    """A finished run, with the line that lint has something, or b"", kept apart from its outputs."""
    told = [NOTICE.match(text) for text in (done.stdout, done.stderr)]
    done.notice = b"".join(found[0] for found in told if found)
    done.stdout, done.stderr = NOTICE.sub(b"", done.stdout), NOTICE.sub(b"", done.stderr)
    return done


def difference(want, have):
    """The lines in which two texts that aren't the same differ, at most 40."""
    lines = difflib.unified_diff(
        want.decode("utf-8", "replace").splitlines(), have.decode("utf-8", "replace").splitlines(),
        "want", "have", lineterm="")
    shown = "\n".join(list(lines)[:40])
    return shown or f"their line ends differ, or bytes that aren't UTF-8: want {want[-80:]} at the end, have {have[-80:]}"


def fault_of(done, status, out):
    """What is wrong with a finished run, or None. Where `out` is None, any output will do; where the status is 1, any
    text on standard error."""
    if done.returncode != status:
        return f"status {done.returncode}, want {status}"
    if out is not None and done.stdout != out:
        return difference(out, done.stdout)
    if status != 1 and done.stderr:
        return f"standard error: {done.stderr[:200]}"
    return None


def chain(count):
    """The names of applications that each need the next one, and a cluster file, with the line behind it, of one node z
    that boots them in the worst order: the last one has to start first."""
    names = [b"a%d" % number for number in range(count)]
    boot = b", ".join(b"{%s, permanent}" % name for name in names)
    needs = [b"[%s]" % name for name in names[1:]] + [b"[]"]
    apps = b" ".join(b"{application, %s, [{applications, %s}]}." % pair for pair in zip(names, needs))
    return names, b"{node, z, [{rehearse, [{boot, [%s]}]}]}. %s\n===\n" % (boot, apps)
