"""The packages that ./build --dist makes: what is in them, and what they do where nothing of this repository and no kit is there.

The Debian package is unpacked into a folder, and its commands are called with an empty environment but for a PATH: the folder's bin, and
what every Debian has. Installed in a root of its own it is in own_root.py, which needs a network and minutes.
"""
import gzip
import hashlib
import os
import re
import shutil
import subprocess
import tarfile

from groups import Group
from support import LONGEST_RUN, TOP, difference, files_below, in_folder, read

SYSTEM = "/usr/bin:/bin"
DOCS = "usr/share/doc/rehearse"
README = f"{DOCS}/README.md"
MAN = "usr/share/man/man1"
BASH = "usr/share/bash-completion/completions"
TOOLS = ("gather", "plans", "survey", "spread", "page", "shell", "replay", "live", "report", "compare", "case")
SUBCOMMANDS = ("run", "check", "lint", "story", "verify", "sessions", "sweep", "explore")
# What has to be there, beside all pages, docs and examples, and what may not be.
OWED = ["usr/bin/rehearse", "usr/bin/rehearse-tools", "usr/lib/rehearse/rehearse", "usr/lib/rehearse/shipped/rehearse-x86_64-linux",
        "usr/lib/rehearse/shipped/rehearse-x86_64-linux.txt", f"{BASH}/rehearse", f"{BASH}/rehearse-tools",
        "usr/share/zsh/vendor-completions/_rehearse", "usr/share/fish/vendor_completions.d/rehearse.fish",
        "usr/share/fish/vendor_completions.d/rehearse-tools.fish", README, f"{DOCS}/CHANGELOG.md", f"{DOCS}/changelog.gz",
        f"{DOCS}/copyright", f"{DOCS}/docs/RULES.md", f"{DOCS}/examples/repaired-node.txt"]
UNWANTED = re.compile(r"__pycache__|\.pyc$|/crates/|/tests/|\.git|\.antt$|\.rt$")
# Words at a prompt of bash, and what completes them. What is completed last is the last word.
COMPLETED = [
    (["rehearse", "sw"], ["sweep"]), (["rehearse", "se"], ["sessions"]), (["rehearse", "--v"], ["--version"]),
    (["rehearse", "run", "--p"], ["--pick"]), (["rehearse", "run", "--pick", ""], ["first", "last"]),
    (["rehearse", "run", "--pick", "l"], ["last"]), (["rehearse", "sweep", "--w"], ["--workers"]),
    (["rehearse", "help", "boo"], ["boot"]), (["rehearse", "help", "undo_"], ["undo_all"]), (["rehearse", "help", "chec"], ["check"]),
    (["rehearse", "run", "examples/repaired"], ["examples/repaired-node.txt"]),
    (["rehearse-tools", "p"], ["page", "plans"]), (["rehearse-tools", "plans", "--ro"], ["--rolling"]),
    (["rehearse-tools", "plans", "--back", "re"], ["reverse"]), (["rehearse-tools", "replay", "--compare", ""], ["both", "live", "rules"]),
    (["rehearse-tools", "page", "examples/sync"], ["examples/sync-pair.txt"])]


def finished(words, **options):
    """A finished run."""
    return subprocess.run(words, stdin=subprocess.DEVNULL, capture_output=True, timeout=LONGEST_RUN, **options)


def packed(folder, **environment):
    """Packs what ./rehearse runs into a folder, and gives the paths of the packages."""
    program = finished([os.path.join(TOP, "rehearse"), "--which"]).stdout.decode().strip()
    done = finished([os.path.join(TOP, "shipped", "pack"), program, folder], env={**os.environ, **environment})
    if done.returncode != 0:
        raise AssertionError(f"shipped/pack: {done.stderr.decode()}")
    return done.stdout.decode().split()


def unpacked(folder):
    """Packs, and unpacks the Debian package into a folder, whose path is given."""
    root = os.path.join(folder, "root")
    _, package = packed(os.path.join(folder, "made"))
    subprocess.run(["dpkg-deb", "-x", package, root], check=True)
    return root


def call(root, line, folder=None):
    """A finished line of a shell that has nothing but the package."""
    path = f"{os.path.join(root, 'usr', 'bin')}:{SYSTEM}"
    return finished(["env", "-i", f"PATH={path}", "LC_ALL=C.UTF-8", "bash", "-c", f"set -o pipefail; {line}"],
                    cwd=folder or os.path.join(root, DOCS))


def version():
    """The version, from the one place where it stands."""
    found = re.findall(r'\.version\("([^"]*)"\)', read(os.path.join(TOP, "crates", "rh_command_line", "src", "building.rt")).decode())
    return found[0] if len(found) == 1 else f"{found}"


def versions(program):
    """The version of the sources is that of the help and of the newest changes."""
    own = version()
    told = read(os.path.join(TOP, "docs", "help", "version.txt")).decode()
    yield "the version in docs/help", None if told == f"rehearse {own}\n" else f"{told}, want {own}"
    heads = re.findall(r"(?m)^## (\d.*)$", read(os.path.join(TOP, "CHANGELOG.md")).decode())
    yield "CHANGELOG.md begins with the version", None if heads[:1] == [own] else f"{heads}, want {own}"


@in_folder
def contents(program, folder):
    """What the packages hold, with which modes; that the same files give the same bytes; what the Debian one says it needs."""
    root = unpacked(folder)
    found = [os.path.relpath(path, root) for path in files_below(root)]
    owed = OWED + [f"{MAN}/rehearse{name}.1.gz" for name in ["", "-tools", *(f"-{one}" for one in SUBCOMMANDS),
                                                             *(f"-tools-{tool}" for tool in TOOLS)]]
    owed += [f"{DOCS}/{os.path.relpath(path, TOP)}" for path in files_below(os.path.join(TOP, "examples"))]
    missing = sorted(set(owed) - set(found))
    yield "what is in the package", f"it lacks {missing}" if missing else None
    unwanted = [name for name in found if UNWANTED.search(name)]
    yield "what isn't", f"it has {unwanted}" if unwanted else None
    modes = {os.stat(path).st_mode & 0o777 for path in files_below(root)}
    yield "modes", None if modes == {0o755, 0o644} else f"{[oct(mode) for mode in modes]}"
    tar, package = (os.path.join(folder, "made", name)
                    for name in (f"rehearse-{version()}-x86_64-linux.tar.gz", f"rehearse_{version()}_amd64.deb"))
    others = packed(os.path.join(folder, "again"), TZ="Asia/Tokyo", LC_ALL="C")
    for one, other in zip((tar, package), others, strict=True):
        is_same = os.path.basename(one) == os.path.basename(other) and read(one) == read(other)
        yield f"{os.path.basename(one)} is made again, byte for byte", None if is_same else "it differs"
    with tarfile.open(tar) as archive:
        inside = {name.partition("/")[2] for name in archive.getnames() if not archive.getmember(name).isdir()}
    own = {name.removeprefix("usr/") for name in found} - {f"{DOCS}/{name}".removeprefix("usr/") for name in ("copyright", "changelog.gz")}
    strange = inside ^ own ^ {f"{DOCS}/LICENSE".removeprefix("usr/")}
    yield "the archive has the same", f"{sorted(strange)}" if strange else None
    fields = finished(["dpkg-deb", "--field", package, "Package", "Version", "Architecture", "Depends"]).stdout.decode()
    want = f"Package: rehearse\nVersion: {version()}\nArchitecture: amd64\nDepends: bash, libc6 (>= 2.34), python3 (>= 3.10), python3-jinja2\n"
    yield "what it says of itself", None if fields == want else difference(want.encode(), fields.encode())
    sums = finished(["dpkg-deb", "--ctrl-tarfile", package]).stdout
    yield "its checksums", sums_fault(root, sums, folder)


def sums_fault(root, control, folder):
    """What is wrong with the checksums in the control archive of a package, or None."""
    place = os.path.join(folder, "control.tar")
    with open(place, "wb") as file:
        file.write(control)
    with tarfile.open(place) as archive:
        lines = archive.extractfile("./md5sums").read().decode().splitlines()
    wrong = [line for line in lines if hashlib.md5(read(os.path.join(root, line[34:]))).hexdigest() != line[:32]]
    wrong += sorted(set(os.path.relpath(path, root) for path in files_below(root) if not os.path.islink(path)) - {line[34:] for line in lines})
    return f"{wrong}" if wrong else None


def owed_lines(text):
    """The pattern of what an example of README.md prints: a line `...` stands for any lines."""
    return "".join(r"(?:[^\n]*\n)*?" if line == "..." else re.escape(line) + "\n" for line in text.splitlines())


def shown_commands(text):
    """The commands that README.md shows, each with what it prints."""
    return [block.partition("\n")[::2] for block in re.findall(r"(?ms)^```console\n\$ (.*?)^```$", text)]


def six_lines(text):
    """The lines of README.md that make a release and a report, and the six commands behind a comment; and what each of them prints."""
    section = text.split("\n## From your own release to a picture\n")[1].split("\n## ")[0]
    blocks = re.findall(r"(?ms)^```(sh|text)\n(.*?)^```$", section)
    lines = [line for language, block in blocks if language == "sh" for line in block.splitlines() if not line.startswith("# ")]
    survey, live = [block.encode() for language, block in blocks if language == "text"]
    return lines, [b"", b"", b"", b"ok 3 nodes 3 applications\n", b"", survey, b"", live]


def installed_line(line):
    """A line of README.md, as whoever has installed the package types it."""
    return line.replace("./rehearse", "rehearse").replace("companions/rehearse-tools", "rehearse-tools").replace("companions/", "rehearse-tools ")


def is_shown(done, owed):
    """Whether a finished run printed what README.md shows."""
    return done.returncode == 0 and not done.stderr and re.fullmatch(owed_lines(owed), done.stdout.decode()) is not None


@in_folder
def first_commands(program, folder):
    """The first commands of README.md, as somebody calls them who has installed the package."""
    root = unpacked(folder)
    kit = call(root, "command -v rt")
    yield "no kit is there", None if kit.returncode != 0 else f"{kit.stdout}"
    shown = shown_commands(read(os.path.join(root, README)).decode())
    yield "README.md shows commands", None if shown else "there are none"
    for command, owed in shown:
        line = installed_line(command)
        # At a prompt the status of a pipe is that of its last command.
        done = call(root, f"set +o pipefail; {line}")
        yield line, None if is_shown(done, owed) else f"{done}"
    for line, begin in (("rehearse --help", "Rehearses maintenance"), ("rehearse help sweep", "Reads a cluster file, a base and plans"),
                        ("rehearse help boot", "boot N: starts node N\n"), ("rehearse help S1", "refused S1 unknown_node\n"),
                        ("rehearse lint --explain own_end",
                         "own_end: hint\n\nIt ends by itself, and its node with it, where another node holds it ready.\n\nLive nodes "),
                        ("rehearse --version", f"rehearse {version()} (commit ")):
        done = call(root, line)
        is_right = done.returncode == 0 and done.stdout.decode().startswith(begin) and b"./rehearse" not in done.stdout and not done.stderr
        yield line, None if is_right else f"{done}"
    told = call(root, "rehearse run examples/repaired-node.txt")
    row = read(os.path.join(TOP, "tests", "examples", "repaired-node.row")).split(b"--- output\n", 1)[1]
    yield "an example's answers", None if (told.returncode, told.stdout, told.stderr) == (0, row, b"") else f"{told}"
    piped = "rehearse-tools plans examples/three-nodes.txt | rehearse sweep --json | rehearse-tools survey"
    done = call(root, piped)
    # Three nodes: each of them crashes, and each pair.
    yield piped, None if done.returncode == 0 and done.stdout.startswith(b"6 plans, ") and not done.stderr else f"{done}"
    page = "rehearse-tools page examples/repaired-node.txt"
    done = call(root, page)
    yield page, None if done.returncode == 0 and done.stdout.startswith(b"<!DOCTYPE html>") and not done.stderr else f"{done}"
    for name in TOOLS:
        done = call(root, f"rehearse-tools {name} --help")
        old = re.findall(rb"(?:\./rehearse|companions/(?!rehearse)\w+)", done.stdout)
        yield f"rehearse-tools {name} --help", None if done.returncode == 0 and not old else f"{done.returncode}: it says {old}"


@in_folder
def six_commands(program, folder):
    """The six commands of README.md, on the release that examples/shop has, with the package alone."""
    root = unpacked(folder)
    lines, owed = six_lines(read(os.path.join(root, README)).decode())
    place = os.path.join(folder, "work")
    os.mkdir(place)
    os.symlink(os.path.join(root, DOCS, "examples"), os.path.join(place, "examples"))
    told = []
    for line in lines:
        done = call(root, installed_line(line), place)
        told.append(done.stdout)
        yield line, None if done.returncode == 0 and not done.stderr else f"{done}"
    yield "what they print", None if told == owed else difference(b"".join(owed), b"".join(told))


@in_folder
def manual(program, folder):
    """Each page of the manual is one of its command, and man shows it without a warning, also at 80 columns."""
    root = unpacked(folder)
    for path in files_below(os.path.join(root, MAN)):
        name = os.path.basename(path).removesuffix(".1.gz")
        done = finished(["man", "--warnings", "-E", "UTF-8", "-l", "-Tutf8", "-Z", path],
                        env={**os.environ, "LC_ALL": "C.UTF-8", "MANROFFSEQ": "", "MANWIDTH": "80"})
        yield f"man {name}: no warning", None if done.returncode == 0 and not done.stderr else done.stderr.decode()[:500]
        text = gzip.decompress(read(path)).decode()
        heads = re.findall(r"(?m)^\.SH (.*)$", text)
        lacked = {"NAME", "SYNOPSIS", "DESCRIPTION", "OPTIONS", "SEE ALSO"} - set(heads)
        is_whole = name == "rehearse-tools" or not lacked
        yield f"man {name}: its parts", None if is_whole and heads[:3] == ["NAME", "SYNOPSIS", "DESCRIPTION"] else f"{heads}"
        links = set(re.findall(r"\\fB([\w\\-]+)\\fR\(1\)", text))
        pages = {one.replace("\\-", "-") for one in links}
        dead = [page for page in pages if not os.path.exists(os.path.join(root, MAN, f"{page}.1.gz"))]
        yield f"man {name}: its links", f"{dead}" if dead or not pages else None


@in_folder
def completed_by_bash(program, folder):
    """What bash completes."""
    root = unpacked(folder)
    for words, owed in COMPLETED:
        typed = " ".join(f"'{word}'" for word in words)
        line = (f"source {root}/{BASH}/{words[0]}; COMP_WORDS=({typed}); COMP_CWORD={len(words) - 1}; _{words[0].replace('-', '_')}; "
                "printf '%s\\n' \"${COMPREPLY[@]}\" | sort")
        done = call(root, line)
        is_right = done.stdout.decode().split() == owed and not done.stderr
        yield f"bash completes {' '.join(words)}", None if is_right else f"{done}"


@in_folder
def completed_by_zsh(program, folder):
    """zsh loads what completes, for both commands."""
    root = unpacked(folder)
    script = (f"fpath+=({root}/usr/share/zsh/vendor-completions); autoload -Uz compinit; compinit -D -u; autoload +X _rehearse; "
              "print $_comps[rehearse] $_comps[rehearse-tools]")
    done = finished(["zsh", "-f", "-c", script])
    yield "zsh loads it", None if done.stdout == b"_rehearse _rehearse\n" and not done.stderr else f"{done}"


@in_folder
def completed_by_fish(program, folder):
    """What fish completes: the same words as bash, with what each is for."""
    root = unpacked(folder)
    for words, owed in COMPLETED:
        if words[-1].startswith("examples/"):
            continue
        line = f"source {root}/usr/share/fish/vendor_completions.d/{words[0]}.fish; complete -C \"{' '.join(words)}\""
        done = finished(["fish", "-N", "-c", line], cwd=os.path.join(root, DOCS), env={**os.environ, "HOME": folder})
        found = [row.split("\t")[0] for row in done.stdout.decode().splitlines()]
        yield f"fish completes {' '.join(words)}", None if sorted(found) == owed or words[1] == "--v" else f"{done}"


@in_folder
def dist(program, folder):
    """./build --dist, of a clone, says which program it packs, and puts the packages into target."""
    clone = os.path.join(folder, "clone")
    subprocess.run(["git", "clone", "-q", TOP, clone], check=True)
    done = finished([os.path.join(clone, "build"), "--dist"])
    made = [f"rehearse-{version()}-x86_64-linux.tar.gz", f"rehearse_{version()}_amd64.deb"]
    is_told = re.search(rb"build: packing shipped/rehearse-x86_64-linux, which was built at \S+Z from commit [0-9a-f]{40}\n", done.stderr)
    is_right = done.returncode == 0 and is_told and done.stdout.decode().split() == [os.path.join(clone, "target", name) for name in made]
    yield "./build --dist", None if is_right else f"{done}"
    yield "what it made", None if is_right and sorted(os.listdir(os.path.join(clone, "target"))) == made else "not both packages"


# Of the shells that may not be there, those that are.
SHELLS = [(name, tests) for name, tests in (("zsh", completed_by_zsh), ("fish", completed_by_fish)) if shutil.which(name)]
TESTS = (versions, Group(contents, needs=("dpkg-deb",)), Group(first_commands, needs=("dpkg-deb", "python3-jinja2")),
         Group(six_commands, needs=("dpkg-deb", "python3-jinja2", "erl", "escript", "erlc")), Group(manual, needs=("dpkg-deb", "man")),
         Group(completed_by_bash, needs=("dpkg-deb",)), *(Group(tests, needs=("dpkg-deb",)) for _, tests in SHELLS),
         Group(dist, needs=("dpkg-deb",)))
