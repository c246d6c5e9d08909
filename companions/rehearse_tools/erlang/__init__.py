"""The tools that are written in Erlang, and how they are started."""
import os
import shutil
import subprocess
from collections.abc import Sequence
from typing import NoReturn

from rehearse_tools.endings import Refused, why_of

FOLDER = os.path.dirname(os.path.realpath(__file__))


def path_of(name: str) -> str:
    """The path of a script in Erlang."""
    return os.path.join(FOLDER, name)


def found_escript(name: str) -> None:
    """Refuses where Erlang isn't there."""
    if shutil.which("escript") is None:
        raise Refused(f"{name} needs escript, a part of Erlang/OTP, which isn't there")


def output_of(name: str, words: Sequence[str]) -> tuple[int, bytes]:
    """The status of a script in Erlang, as a shell tells it, and what it prints. Its standard error is that of this process."""
    found_escript(name)
    try:
        done = subprocess.run([path_of(name), *words], stdin=subprocess.DEVNULL, stdout=subprocess.PIPE, check=False)
    except OSError as fault:
        raise Refused(why_of(fault)) from None
    return (done.returncode if done.returncode >= 0 else 128 - done.returncode), done.stdout


def become(name: str, words: Sequence[str]) -> NoReturn:
    """This process goes on as a script in Erlang: so Ctrl-C, its status and its output are those of the script."""
    found_escript(name)
    os.execv(path_of(name), [path_of(name), *words])
