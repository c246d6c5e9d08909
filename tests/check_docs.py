#!/usr/bin/env python3
"""Checks the documents against the repository and the built program: check_docs.py [--times] PROGRAM

Few pages are written by hand, and README.md and docs/PROVED.md are short.
In README.md, CONTRIBUTING.md, CHANGELOG.md and docs/*.md each link leads somewhere, also within a page. Each command of a block
```console, a line that begins with `$ ` (up to the line EOF where it has a <<), is run from the top of the repository, where
./rehearse runs the program: it prints what stands below it, where a line `...` stands for any lines, writes nothing to standard error, and
has the exit status 0 (a document shows another one by `; echo "status $?"`). Each block ```erlang is a cluster file that
`check` accepts. Each command in a help text runs, and docs/help has these texts. Each text that the program can print
stands in docs/SCRIPTS.md. Each definition that docs/RULES.md names stands where it says. Each construct that
docs/CLUSTER_FILES.md calls refused is. Each script of tests/live in which live nodes differ names its places in docs/LIVE_OTP.md.
Each wrong body can be applied (shelves.py). No clause of a source is too wide, and no file too long (source_form.py). What the documents
say of the sources is as docs/make makes it, which tells where it isn't (made_pages.py).

run_program.py counts these tests too. The last line is 'N passed, M failed'.
"""
import glob
import os
import re
import shlex
import subprocess
import tempfile

import front
import made_pages
import shelves
import source_form
from groups import Group, command_line, finish
from support import LONGEST_RUN, TOP, files_below, run

ANSWERS = "docs/SCRIPTS.md"
LIVE = "docs/LIVE_OTP.md"
# These subcommands end with status 9 where they find what they look for.
FINDERS, STATUSES = ("explore", "lint"), (0, 9)
# Differences that no line of an answer shows.
UNSEEN = {"weights-for-ever", "introductions-for-ever"}
# The definitions of what the program prints.
PRINTED = ["rh_calls/specs/Report", "rh_script/specs/Answers", "rh_script/specs/SweepAnswers", "rh_plans/specs/FaultWords",
           "rh_run/specs/CheckText", "rh_app/specs/Histories",
           "rh_rules/specs/Refusals", "rh_cluster/specs/FaultTexts", "rh_terms/specs/FaultTexts"]
# The pages that are written by hand. All others say in their first line that docs/make writes them.
BY_HAND = {"ARCHITECTURE", "CHANGING", "CLUSTER_FILES", "EVENING", "LAYERS", "LIVE_OTP", "MEASURED", "PERF", "PERF_CLAUSES", "PROVED", "RULES", "SCRIPTS", "TOOLS"}
# A reader is to come to the end of these: as many lines each may have.
MOST_LINES = {"README.md": 120, "docs/PROVED.md": 250}
# A subcommand has a page of help each.
SUBCOMMANDS = sorted({os.path.basename(path)[:-4] for path in glob.glob(os.path.join(TOP, "docs", "help", "*.txt"))} - {"rehearse", "version", "files", "statuses", "explain"})
HELPS = [["--help"]] + [[name, "--help"] for name in SUBCOMMANDS]


def text_of(name):
    with open(os.path.join(TOP, name), encoding="utf-8") as file:
        return file.read()


def documents():
    return ["README.md", "CONTRIBUTING.md", "CHANGELOG.md"] + sorted(os.path.relpath(path, TOP) for path in glob.glob(os.path.join(TOP, "docs", "*.md")))


def blocks(text):
    """The fenced blocks of a document: the line of each, its language and its lines."""
    found, language = [], None
    for number, line in enumerate(text.splitlines(), 1):
        if line.startswith("```"):
            if language is None:
                language, begin, lines = line[3:], number, []
            else:
                found.append((begin, language, lines))
                language = None
        elif language is not None:
            lines.append(line)
    return found


def prose(text):
    """A document without its fenced blocks and code in lines."""
    return re.sub(r"`[^`\n]*`", "``", re.sub(r"(?ms)^```.*?^```$", "", text))


def anchors(text):
    """The anchors of a document: those of its headings, and those that are written out."""
    plain = re.sub(r"(?ms)^```.*?^```$", "", text)
    heads = [re.sub(r"<[^>]*>", "", head) for head in re.findall(r"(?m)^#+ (.*)$", plain)]
    shown = [re.sub(r"\[([^\]]*)\]\([^)]*\)", r"\1", head).lower() for head in heads]
    return {re.sub(r"[^\w\- ]", "", head).replace(" ", "-") for head in shown} | set(named_anchors(plain))


def named_anchors(text):
    """The anchors that are written out in a document."""
    return re.findall(r'<a id="([^"]*)"></a>', text)


def targets(text):
    """Where the links of a document lead, and the short links that have no target."""
    plain = prose(text)
    named = dict(re.findall(r"(?m)^\[([^\]]+)\]: (\S+)$", plain))
    body = re.sub(r"(?m)^\[[^\]]+\]: \S+$", "", plain)
    short = {name for name in re.findall(r"\[([^\]\[]+)\](?![(:\[])", body) if name not in named}
    return re.findall(r"\]\(([^)\s]+)\)", plain) + list(named.values()), short


def link_fault(document, target):
    """What is wrong with a link, or None."""
    path, _, anchor = target.partition("#")
    name = os.path.normpath(os.path.join(os.path.dirname(document), path)) if path else document
    if "://" in target or os.path.isdir(os.path.join(TOP, name)):
        return None
    if not os.path.exists(os.path.join(TOP, name)):
        return f"{target}: there is no {name}"
    if anchor and anchor not in anchors(text_of(name)):
        return f"{target}: {name} has no such heading"
    return None


def pages_are_few(program):
    """A page that isn't known is made of the sources, and no page that has to be short is long."""
    pages = {os.path.basename(name)[:-3]: text_of(name) for name in documents() if name.startswith("docs/")}
    by_hand = {name for name, text in pages.items() if not text.startswith("<!-- `docs/make` writes this page")}
    yield "pages that are written by hand", None if by_hand == BY_HAND else f"they are {sorted(by_hand)}"
    for name, most in MOST_LINES.items():
        count = len(text_of(name).splitlines())
        yield f"{name}: at most {most} lines", None if count <= most else f"it has {count}"


def links(program):
    """Each link leads somewhere, and so does each name of a file in backquotes; that of a tool's or a test's may lack its folders."""
    there = [path for folder in ("companions", "docs", "tests") for path in files_below(os.path.join(TOP, folder))]
    for document in documents():
        text = text_of(document)
        found, short = targets(text)
        named = re.findall(r"`((?:docs|examples|tests)/[\w./-]+)`", text)
        wrong = [f"[{name}] has no target" for name in sorted(short)]
        wrong += [fault for fault in (link_fault(document, target) for target in found) if fault]
        wrong += [f"there is no {name}" for name in named if not os.path.exists(os.path.join(TOP, name))]
        code = re.findall(r"`([\w./-]+\.(?:py|erl|js|j2))`", text)
        wrong += [f"there is no {name}" for name in code if not any(path.endswith(f"/{name}") for path in there)]
        yield f"links of {document}", "; ".join(wrong) or None


def commands(lines):
    """The commands of a block, each with the lines below it."""
    found, is_open = [], False
    for line in lines:
        if is_open:
            found[-1][0] += "\n" + line
            is_open = line != "EOF"
        elif line.startswith("$ "):
            found.append([line[2:], []])
            is_open = "<<" in line
        elif found:
            found[-1][1].append(line)
    return found


def shell(program, command):
    """Runs a command as an operator would who stands at the top of the repository, where ./rehearse runs this program."""
    with tempfile.TemporaryDirectory() as folder:
        line = command.replace("./rehearse", shlex.quote(front.install(folder, program)))
        # By REHEARSE the companions are told the program.
        return subprocess.run(["bash", "-c", line], cwd=TOP, stdin=subprocess.DEVNULL, capture_output=True, timeout=LONGEST_RUN,
                              env={**os.environ, "REHEARSE": os.path.abspath(program)})


def shown_fault(done, lines):
    """What is wrong with a command that should have printed these lines, or None."""
    pattern = "".join(r"(?:[^\n]*\n)*?" if line == "..." else re.escape(line) + "\n" for line in lines)
    printed = done.stdout.decode("utf-8", "replace")
    if done.returncode != 0 or done.stderr:
        return f"status {done.returncode}, standard error: {done.stderr[:200]}"
    if re.fullmatch(pattern, printed) is None:
        return "it prints\n" + printed[:2000]
    return None


def shown_examples(program, document):
    """Each example of a document prints what the document shows."""
    for number, language, lines in blocks(text_of(document)):
        name = f"{document} line {number}"
        if language == "console":
            for command, owed in commands(lines):
                yield f"{name}: {command.splitlines()[0]}", shown_fault(shell(program, command), owed)
        elif language == "erlang":
            text = "\n".join(lines).encode()
            done = run(program, ["check"], input=text)
            yield f"{name}: a cluster file", None if done.returncode == 0 else f"{done.stdout}{done.stderr}"


def help_examples(program):
    """Each command in a help text runs when it is pasted, and no line is longer than a terminal's."""
    for words in HELPS:
        text = run(program, words).stderr.decode()
        # The line of an option with its values is put together by clap.
        long = [line for line in text.splitlines() if len(line) > 80 and "[default:" not in line]
        yield f"{' '.join(words)}: width", f"more than 80 columns: {long}" if long else None
        pasted = re.findall(r"(?ms)^ *(\./rehearse [^\n]*<< 'EOF'\n.*?^EOF$)", text)
        pasted += [line for line in re.findall(r"(?m)^ *(\./rehearse .*)$", text) if "<<" not in line]
        yield f"{' '.join(words)}: examples", None if pasted else "there is none"
        for command in pasted:
            done = shell(program, command)
            is_done = done.returncode in (STATUSES if words[0] in FINDERS else (0,)) and done.stdout and not done.stderr
            yield f"{' '.join(words)}: {command.splitlines()[0]}", None if is_done else f"{done}"


def printed_texts():
    """The codes of the sources, and the words of the definitions of what is printed."""
    texts = set()
    for path in glob.glob(os.path.join(TOP, "crates", "*", "src", "**", "*.rt"), recursive=True):
        texts |= set(re.findall(r'"([SCTPV][0-9]+ [a-z_]+[a-z0-9])', text_of(path)))
    for name in PRINTED:
        found = re.findall(r'codes "([^"]*)"', text_of(f"crates/{name}.antt"))
        texts |= {text.replace("\\n", "").strip() for text in found}
    return sorted(text for text in texts if re.search(r"[A-Za-z]", text))


def answers_told(program):
    """Each text that the program can print stands in the page of answers, and no other code does."""
    page = text_of(ANSWERS)
    spans = " ".join(re.findall(r"`([^`\n]*)`", page))
    owed = printed_texts()
    missing = [text for text in owed if not re.search(r"(?<!\w)" + re.escape(text) + r"(?!\w)", spans)]
    yield f"{ANSWERS} has each text that is printed", f"it lacks {missing}" if missing else None
    codes = {text.split()[0] for text in owed if re.match(r"[SCTPV]\d", text)}
    strange = sorted(set(re.findall(r"\b[SCTPV][0-9]+\b", page)) - codes)
    yield f"{ANSWERS} has no other codes", f"nothing prints {strange}" if strange else None


def help_links(program):
    """Each file that a help text names is there."""
    for words in HELPS:
        text = run(program, words).stderr.decode()
        names = re.findall(r"(?:docs|examples|tests)/[\w./-]*\w", text)
        missing = [name for name in names if not os.path.exists(os.path.join(TOP, name))]
        yield f"{' '.join(words)}: files", f"there is no {missing}" if missing else None


def definitions_named(program):
    """Each definition that the page of rules names stands in the file that it names there."""
    text = text_of("docs/RULES.md")
    files = dict(re.findall(r"(?m)^\[([^\]]+)\]: \.\./(\S+)$", text))
    wrong, names = [], []
    for part in re.findall(r"(?s)tated by\s(.*?)\*(?:\n|$| )", text):
        for name, file in re.findall(r"`([^`]+)`|\[([^\]]+)\]", part):
            if name:
                names.append(name)
            else:
                there = text_of(files[file])
                wrong += [f"{one} isn't in {file}" for one in names if not re.search(rf"\b{one}\b", there)]
                names = []
    yield "docs/RULES.md names definitions where they stand", "; ".join(wrong) or None


def constructs_refused(program):
    """Each construct that the page of cluster files calls refused is refused, where it stands in a skipped section."""
    table = text_of("docs/CLUSTER_FILES.md").split("| Construct | Example | Answer |\n|---|---|---|\n")[1].split("\n\n")[0]
    for row in table.splitlines():
        name, examples, code = [cell.strip() for cell in re.split(r"(?<!\\)\|", row)[1:4]]
        place = "%s" if "SysConfig" in examples else "{skipped, [%s]}"
        wrong = []
        for example in re.findall(r"`([^`]+)`", examples):
            text = "{node, a, [%s]}." % (place % example.replace("\\|", "|"))
            done = run(program, ["check"], input=text.encode())
            if code.split()[0].encode() not in done.stdout.split():
                wrong.append(f"{example}: {done.stdout}")
        yield f"refused: {name}", "; ".join(wrong) or None


def live_scripts(program):
    """Each script of tests/live in which live nodes differ names the differences by their anchors in docs/LIVE_OTP.md, and no other
    script does, but for those whose difference no line shows. Each difference tells its script, or that it has none."""
    page = text_of(LIVE)
    known = named_anchors(page)
    yield f"{LIVE} has each anchor once", None if len(known) == len(set(known)) else f"more than once: {sorted(known)}"
    for path in sorted(glob.glob(os.path.join(TOP, "tests", "live", "*.txt"))):
        text = text_of(path)
        named = {name for line in re.findall(r"(?m)^# LIVE_OTP\.md: (.*)\.$", text) for name in line.split(", ")}
        differs = re.search(r"(?m)^#[<>] ", text) is not None
        is_right = differs == bool(named) or bool(named) and named <= UNSEEN
        yield os.path.relpath(path, TOP), None if is_right and named <= set(known) else f"it differs: {differs}; it names {named}"
    for entry in re.findall(r'(?ms)^### <a id=.*?(?=^##|\Z)', page):
        tells = re.search(r"`tests/live/[\w-]+\.txt`|no\s+script|by\s+hand", entry)
        yield f"{LIVE} {named_anchors(entry)[0]}: its script", None if tells else "it tells none"


def help_files(program):
    """The help texts that stand in docs/help are what the program says."""
    for name, words in [("rehearse", ["--help"]), ("version", ["--version"])] + [(w[0], w) for w in HELPS[1:]]:
        done = run(program, words)
        is_same = done.stderr.decode() == text_of(f"docs/help/{name}.txt")
        yield f"docs/help/{name}.txt", None if is_same else f"it isn't what the program says to {' '.join(words)}"


# Whether the pages are made isn't among them: run_program.py has that among the tests of ./test --quick.
TESTS = (pages_are_few, links, answers_told, definitions_named, constructs_refused, Group(shown_examples, documents()), help_examples,
         help_links, live_scripts, help_files, *shelves.TESTS, *source_form.TESTS)


def main():
    given = command_line(__doc__).parse_args()
    finish((*made_pages.TESTS, *TESTS), given.program, shows_times=given.times)


if __name__ == "__main__":
    main()
