"""Packs what somebody else needs to look into a rehearsal that told something else than your cluster did.

  companions/rehearse-tools case rehearsal.txt > case.tar.gz
  companions/rehearse-tools case rehearsal.txt replay.txt node1.log -o case.tar.gz

FILE is what `rehearse run` reads, or `check` or `sweep`. OUTPUT is what shows that it is otherwise: what `replay FILE` or `live FILE`
printed, or a log of your nodes. In the archive is one folder, case, with

  rehearsal.txt   FILE, as it stands
  answers.txt     what the program answers to it: `check` where it has no script, `sweep` where it has plans, else `run`
  outputs/NAME    each OUTPUT, as it stands
  about.txt       that command and its status, and the versions: of the program (with its checksum, and the text beside it), of Python,
                  of Erlang where it is there, of the system and its C library

Nothing else is read, and no name of a machine or a user is told but those that stand in your files. These are in it as they are, with
the names of your nodes and applications: look at them before you send the archive on.

Exit status: 0 done, 1 a wrong command line, 2 what was read is refused, or CASE can't be written.
"""
import gzip
import hashlib
import io
import os
import platform
import subprocess
import sys
import tarfile
from collections.abc import Iterator, Sequence

from rehearse_tools.command_line import CommandLine
from rehearse_tools.inputs import called, lines_of, read_bytes, split_input, to_bytes, to_text, write_page
from rehearse_tools.program import Program

FOLDER = "case"
# What prints the version of Erlang, with all its parts.
ERLANG = ("erl", "-noinput", "-eval", '{ok, T} = file:read_file(filename:join([code:root_dir(), "releases", '
          'erlang:system_info(otp_release), "OTP_VERSION"])), io:put_chars(T), halt().')


def command_line() -> CommandLine:
    """The command line of this tool."""
    line = CommandLine("case", __doc__)
    line.add_argument("file", metavar="FILE", help="a rehearsal, a cluster file or a sweep's input")
    line.add_argument("outputs", metavar="OUTPUT", nargs="*", help="what shows that it is otherwise")
    line.add_argument("-o", "--output", metavar="CASE", help="the archive to write (default: standard output)")
    line.add_program()
    return line


def printed(words: Sequence[str]) -> str:
    """The first line that a command prints, on either output; `none` where it isn't there or fails."""
    try:
        done = subprocess.run(words, stdin=subprocess.DEVNULL, capture_output=True, check=False)
    except OSError:
        return "none"
    lines = lines_of(to_text(done.stdout or done.stderr))
    return lines[0] if lines else "none"


def own_path(program: Program) -> str:
    """The path of the program itself: what is called may be the script in front of it."""
    told = printed([program.path, "--which"])
    return told if os.path.isabs(told) and os.path.isfile(told) else program.path


def about_program(program: Program) -> Iterator[str]:
    """Which program it is: its version, its checksum, and the text beside it."""
    path = own_path(program)
    yield printed([path, "--version"])
    yield f"program sha256 {hashlib.sha256(read_bytes(path)).hexdigest()}"
    if os.path.isfile(f"{path}.txt"):
        yield from (f"program's text: {line}" for line in lines_of(to_text(read_bytes(f"{path}.txt"))))


def about_machine() -> Iterator[str]:
    """With what it was asked."""
    yield f"python {platform.python_version()}"
    yield f"erlang {printed(ERLANG)}"
    yield f"system {platform.system()} {platform.release()} {platform.machine()}"
    yield f"libc {' '.join(platform.libc_ver()).strip() or 'none'}"


def subcommand(text: str) -> str:
    """The subcommand that reads an input."""
    parts = split_input(text)
    return "sweep" if parts.plans else "run" if parts.has_script else "check"


def files_of(program: Program, path: str, outputs: Sequence[str]) -> Iterator[tuple[str, bytes]]:
    """What is packed, by its names."""
    data = read_bytes(path)
    words = [subcommand(to_text(data)), *([] if subcommand(to_text(data)) == "check" else ["--pick", program.pick])]
    run, error = program.asked(words, to_text(data))
    about = [f"command rehearse {' '.join(words)} < rehearsal.txt", f"status {run.status}",
             *(f"standard error: {line}" for line in lines_of(error)), *about_program(program), *about_machine()]
    yield "about.txt", to_bytes("".join(f"{line}\n" for line in about))
    yield "answers.txt", to_bytes("".join(f"{line}\n" for line in run.lines))
    for output in outputs:
        yield f"outputs/{os.path.basename(output)}", read_bytes(output)
    yield "rehearsal.txt", data


def archive(files: Sequence[tuple[str, bytes]]) -> bytes:
    """An archive, the same for the same files: without times and without who packed it."""
    packed = io.BytesIO()
    with tarfile.open(fileobj=packed, mode="w") as made:
        for name, data in files:
            entry = tarfile.TarInfo(f"{FOLDER}/{name}")
            entry.size = len(data)
            made.addfile(entry, io.BytesIO(data))
    return gzip.compress(packed.getvalue(), mtime=0)


def main(words: Sequence[str]) -> None:
    """Packs a case."""
    line = command_line()
    given = line.parse_args(words)
    names = [os.path.basename(path) for path in given.outputs]
    twice = [name for name in names if names.count(name) > 1]
    if twice:
        line.error(f"two files are called {twice[0]}: give one of them another name")
    if [given.file, *given.outputs].count("-") > 1:
        line.error("only one of the files can be standard input")
    if given.output is None and sys.stdout is not None and sys.stdout.isatty():
        line.error(f"an archive isn't for a terminal: name a file by -o, as -o {os.path.basename(called(given.file)).split('.')[0]}.tar.gz")
    files = list(files_of(line.program(given), given.file, given.outputs))
    write_page(given.output, archive(files))
