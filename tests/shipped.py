"""The scripts ./rehearse, ./build and shipped/check, on clones of this repository and on machines that have no kit.

A clone is of the last commit, so what is tested is what somebody gets who clones it. None of these tests proves or builds.
"""
import hashlib
import os
import resource
import shutil
import subprocess
import tempfile

from support import TOP, fault_of, read

SHIPPED = "shipped/rehearse-x86_64-linux"
BUILT = "crates/rehearse/out/rehearse"
EXAMPLE = "repaired-node"
SOURCE = "crates/rh_base/src/lib.rt"
# What ./rehearse says where the program that it runs isn't of the sources that are there.
IS_OLDER = b"rehearse: the sources aren't those of the program that is shipped: ./build makes theirs, ./rehearse --try tries them unproved\n"
BUILT_IS_OLDER = b"rehearse: the sources have changed since ./build made this program: ./build makes it anew, ./rehearse --try tries them unproved\n"


def path_without_kit():
    """The PATH without the folders that have the kit's command."""
    folders = os.environ["PATH"].split(os.pathsep)
    return os.pathsep.join(folder for folder in folders if not os.path.exists(os.path.join(folder, "rt")))


def call(clone, words, first="", **more):
    """A finished call of a script of a clone, on a machine without the kit. The programs of the folder `first` hide others."""
    path = os.pathsep.join([first] * bool(first) + [path_without_kit()])
    with open(os.path.join(clone, "examples", f"{EXAMPLE}.txt"), "rb") as example:
        return subprocess.run(words, cwd=clone, stdin=example, capture_output=True, timeout=60,
                              env={**os.environ, "PATH": path, **more})


def clone_in(folder):
    """A clone of the last commit."""
    clone = os.path.join(folder, "clone")
    subprocess.run(["git", "clone", "-q", TOP, clone], check=True)
    return clone


def write(path, text, mode=0o755):
    os.makedirs(os.path.dirname(path), exist_ok=True)
    with open(path, "w") as file:
        file.write(text)
    os.chmod(path, mode)


def text_of(clone, name):
    """The text beside a program, by its words."""
    lines = read(os.path.join(clone, f"{name}.txt")).decode().splitlines()
    return dict(line.split(" ", 1) for line in lines)


def put_built(clone, **changes):
    """Puts a program beside its text where ./build puts them, as if it were built from the sources of the shipped one."""
    write(os.path.join(clone, BUILT), "#!/bin/sh\necho built\n")
    own = hashlib.sha256(read(os.path.join(clone, BUILT))).hexdigest()
    told = {**text_of(clone, SHIPPED), "sha256": own, **changes}
    write(os.path.join(clone, f"{BUILT}.txt"), "".join(f"{word} {value}\n" for word, value in told.items()), 0o644)


def answers(program):
    """What the example is answered, by its row and from a program of these sources."""
    row = read(os.path.join(TOP, "tests", "examples", f"{EXAMPLE}.row"))
    owed = row.split(b"--- output\n", 1)[1]
    with tempfile.TemporaryDirectory() as folder:
        clone = clone_in(folder)
        is_older = b"is older than" in call(clone, ["shipped/check", SHIPPED]).stdout
        first = call(clone, ["./rehearse", "run"])
        yield "./rehearse of a clean clone without the kit", same(first, 0, owed, IS_OLDER if is_older else b"")
        # A switched branch touches files, and changes none.
        subprocess.run(["git", "ls-files", "-z", "crates"], cwd=clone, check=True, stdout=open(os.path.join(folder, "names"), "wb"))
        subprocess.run(f"xargs -0 touch < '{folder}/names'", cwd=clone, shell=True, check=True)
        yield "./rehearse where all files were touched", same(call(clone, ["./rehearse", "run"]), 0, owed, first.stderr)
        shutil.rmtree(os.path.join(clone, ".git"))
        yield "./rehearse without git", same(call(clone, ["./rehearse", "run"]), 0, owed, first.stderr)
        with open(os.path.join(clone, SOURCE), "a") as source:
            source.write("// changed\n")
        yield "./rehearse where a source was changed", same(call(clone, ["./rehearse", "run"]), 0, owed, IS_OLDER)


def same(done, status, out, err):
    """What is wrong with a finished call, or None."""
    if done.stderr != err:
        return f"standard error: {done.stderr!r}, want {err!r}"
    return fault_of(subprocess.CompletedProcess(done.args, done.returncode, done.stdout, b""), status, out)


def which_program(program):
    """Which of the two programs is run."""
    with tempfile.TemporaryDirectory() as folder:
        clone = clone_in(folder)
        if b"is older than" in call(clone, ["shipped/check", SHIPPED]).stdout:
            # Its text is made to fit, so that the choice can be tested between two landings, too.
            told = text_of(clone, SHIPPED)
            script = 'top=$PWD; . shipped/sources.sh; checksum_of rehearse'
            told["sources"] = subprocess.run(["bash", "-c", script], cwd=clone, capture_output=True, check=True).stdout.decode().strip()
            write(os.path.join(clone, f"{SHIPPED}.txt"), "".join(f"{word} {value}\n" for word, value in told.items()), 0o644)
        shipped, built = (os.path.join(clone, name).encode() + b"\n" for name in (SHIPPED, BUILT))
        which = ["./rehearse", "--which"]
        yield "the shipped program where none is built", same(call(clone, which), 0, shipped, b"")
        put_built(clone)
        yield "the built program where its sources are there", same(call(clone, which), 0, built, b"")
        put_built(clone, sha256="0")
        yield "the shipped program where the built one isn't that of its text", same(call(clone, which), 0, shipped, b"")
        put_built(clone, commit="none", sources="0")
        yield "the shipped program where the built one is of others", same(call(clone, which), 0, shipped, b"")
        with open(os.path.join(clone, SOURCE), "a") as source:
            source.write("// changed\n")
        put_built(clone, time="9999-01-01T00:00:00Z")
        yield "the newer one where neither is of these sources", same(call(clone, which), 0, built, BUILT_IS_OLDER)
        put_built(clone, time="1999-01-01T00:00:00Z")
        yield "the newer one, which is shipped", same(call(clone, which), 0, shipped, IS_OLDER)


def cost(program):
    """What it takes to choose a program: processor time of the script and its children, the least of several calls."""
    with tempfile.TemporaryDirectory() as folder:
        clone = clone_in(folder)
        spent = []
        for _ in range(10):
            before = resource.getrusage(resource.RUSAGE_CHILDREN)
            call(clone, ["./rehearse", "--which"])
            after = resource.getrusage(resource.RUSAGE_CHILDREN)
            spent.append(after.ru_utime + after.ru_stime - before.ru_utime - before.ru_stime)
        # Ten times what a quiet machine takes where the sources changed: this test runs beside all others.
        yield "./rehearse is chosen in little time", None if min(spent) < 0.5 else f"{min(spent):.3f} s of processor time"


def other_machines(program):
    """Machines on which the shipped program can't run, or nothing can be built, are told what to do."""
    with tempfile.TemporaryDirectory() as folder:
        clone = clone_in(folder)
        fakes = os.path.join(folder, "fakes")
        write(os.path.join(fakes, "uname"), "#!/bin/sh\necho Darwin arm64\n")
        done = call(clone, ["./rehearse", "run"], fakes, MACHTYPE="arm64-apple-darwin23")
        yield "./rehearse on another system", told(done, 7, b"this is Darwin arm64", b"docker run")
        shutil.rmtree(fakes)
        write(os.path.join(fakes, "getconf"), "#!/bin/sh\necho glibc 2.31\n")
        done = call(clone, ["./rehearse", "run"], fakes)
        yield "./rehearse with an older libc", told(done, 7, b"glibc 2.34 or later, and this machine has glibc 2.31", b"docker run")
        yield "./rehearse --try without the kit", told(call(clone, ["./rehearse", "--try", "run"]), 7, b"the command rt")
        yield "./build without the kit", told(call(clone, ["./build"]), 7, b"the command rt isn't on the PATH", b"./rehearse")
        yield "./build of what is no program", told(call(clone, ["./build", "rh_base"]), 1, b"there is no program rh_base", b"rehearse")
        yield "./build with words that it doesn't know", told(call(clone, ["./build", "--help"]), 1, b"./build --ship")
        with open(os.path.join(clone, "crates", "rehearse", "src", "main.rt"), "ab") as file:
            file.write(b"// Not committed.\n")
        yield "./build --ship of sources that aren't committed", told(call(clone, ["./build", "--ship"]), 1, b"aren't committed")
        os.remove(os.path.join(clone, SHIPPED))
        yield "./rehearse where there is no program", told(call(clone, ["./rehearse", "run"]), 7, b"there is no program: ./build makes it")


def told(done, status, *texts):
    """What is wrong with a call that is refused with these texts on standard error and nothing else, or None."""
    if done.returncode != status or done.stdout:
        return f"status {done.returncode}, want {status}; {done.stdout[:200]!r}"
    missing = [text for text in texts if text not in done.stderr]
    return f"standard error has no {missing[0]!r}: {done.stderr[:400]!r}" if missing else None


def comparisons(program):
    """shipped/check finds a shipped program that isn't what the sources give."""
    with tempfile.TemporaryDirectory() as folder:
        clone = clone_in(folder)
        shipped = os.path.join(clone, SHIPPED)
        done = call(clone, ["shipped/check", SHIPPED])
        is_older = b"is older than" in done.stdout
        yield "the shipped program is the one that its text is of", fault_of(done, 0, done.stdout)
        if not is_older:
            done = call(clone, ["shipped/check", "/bin/sh"])
            yield "another program than what is shipped", None if done.returncode == 1 and b"ISN'T what" in done.stdout else f"{done}"
        with open(os.path.join(clone, SOURCE), "a") as source:
            source.write("// changed\n")
        done = call(clone, ["shipped/check", "/bin/sh"])
        yield "a shipped program of older sources", None if done.returncode == 0 and b"is older than" in done.stdout else f"{done}"
        with open(shipped, "ab") as file:
            file.write(b"\0")
        done = call(clone, ["shipped/check", SHIPPED])
        yield "a shipped program that was changed", None if done.returncode == 1 and b"SHA-256" in done.stdout else f"{done}"


TESTS = (answers, which_program, cost, other_machines, comparisons)
