"""What a release is made of: applications and their code, files that a node reads, and the boot script that systools makes."""
import functools
import os
import subprocess

from support import LONGEST_RUN

BASE = ["kernel", "stdlib"]
MODULE = """-module(%s_app).
-behaviour(application).
-export([start/2, stop/1, start_phase/3, init/1]).
start(_, _) -> supervisor:start_link(?MODULE, []).
start_phase(_, _, _) -> ok.
stop(_) -> ok.
init(_) -> {ok, {#{}, []}}.
"""


def write(folder, name, text):
    """Writes a file, and gives its path."""
    path = os.path.join(folder, name)
    os.makedirs(os.path.dirname(path), exist_ok=True)
    with open(path, "w", encoding="utf-8") as file:
        file.write(text)
    return path


def application(folder, name, needs=(), mod=None, more="", vsn="1.0"):
    """Writes the .app file of an application below FOLDER/ebin, and its source where it has a module."""
    modules = f"{name}_app" if mod else ""
    write(folder, f"ebin/{name}.app", f'{{application, {name}, [{{description, "made"}}, {{vsn, "{vsn}"}}, {{registered, []}}, '
          f'{{modules, [{modules}]}}, {{applications, [{", ".join(BASE + list(needs))}]}}'
          + (f", {{mod, {{{name}_app, {mod}}}}}" if mod else "") + more + "]}.\n")
    if mod:
        write(folder, f"src/{name}_app.erl", MODULE % name)


def erl(folder, code, *words):
    """What Erlang prints that evaluates some code in a folder."""
    done = subprocess.run(["erl", "-noshell", *words, "-eval", code + ", halt()."], cwd=folder, capture_output=True, text=True,
                          timeout=LONGEST_RUN, env={**os.environ, "ERL_CRASH_DUMP": os.devnull})
    assert done.returncode == 0, f"erl {words} {code}: {done.stdout[-400:]} {done.stderr[-400:]}"
    return done.stdout


@functools.cache
def versions():
    """The versions of kernel, stdlib and sasl."""
    return erl(None, 'io:format("~s ~s ~s", [V || A <- [kernel, stdlib, sasl], _ <- [application:load(A)], '
               '{ok, V} <- [application:get_key(A, vsn)]])').split()


def release(folder, name, apps, local=""):
    """Writes NAME.rel with applications as they stand there, and makes its boot script by systools; gives systools's answer."""
    vsns = versions()
    system = ", ".join(f'{{{app}, "{vsn}"}}' for app, vsn in zip(BASE, vsns))
    listed = ", ".join([system] + apps).replace("SASL", vsns[2])
    write(folder, f"{name}.rel", f'{{release, {{"{name}", "1"}}, {{erts, "{vsns[0]}"}}, [{listed}]}}.\n')
    return erl(folder, f'io:format("~0p", [systools:make_script("{name}", [{{path, ["ebin"]}}, silent{local}])])')


def compiled(folder):
    """Compiles the modules below FOLDER/src."""
    sources = [os.path.join(folder, "src", file) for file in os.listdir(os.path.join(folder, "src"))]
    subprocess.run(["erlc", "-o", os.path.join(folder, "ebin")] + sources, check=True, timeout=LONGEST_RUN)
