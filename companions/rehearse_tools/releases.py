"""From releases to a cluster file, by gather."""
import errno
import os
import re
import shlex
import subprocess
from collections.abc import Sequence
from dataclasses import dataclass

from rehearse_tools.endings import Refused, why_of
from rehearse_tools.erlang import found_escript, path_of
from rehearse_tools.inputs import lines_of, read_text, split_input, to_text

ARCHIVES = (".tar.gz", ".tgz")
SELF, WARNING = "gather: ", "gather: warning: "
CLUSTER_FILE = "cluster.txt"
# How gather tells in a comment which release a node has: `% NODE: release NAME VERSION by FILE`, as its boot script or .rel file has it.
OF_NODE = re.compile(r"^% .*?: release (.+?) \S+ by ", re.MULTILINE)
# A variable with its value, which by the name is a secret, and is shown as `...`.
SECRET = re.compile("^([^=]*(?:COOKIE|SECRET|PASSWORD|TOKEN|KEY)[^=]*=).*", re.DOTALL | re.IGNORECASE)


@dataclass(frozen=True)
class Gathered:
    """A cluster file, the names of its releases, how it is called in an error, what gather warned of, and the command that makes it, if any
    does."""
    cluster: str
    name: str
    source: str
    warnings: list[str]
    command: str

    @property
    def file(self) -> str:
        """The file that the commands behind it read."""
        return CLUSTER_FILE if self.command else shlex.quote(self.source)


@dataclass(frozen=True)
class Release:
    """A release, and the nodes that run it, if they are told."""
    path: str
    nodes: list[str]


def release_of(word: str) -> Release:
    """What a word names: RELEASE, or RELEASE:NODE,NODE.."""
    path, mark, nodes = word.rpartition(":")
    if not mark or os.path.exists(word):
        return Release(word, [])
    return Release(path, nodes.split(","))


def is_cluster_file(path: str) -> bool:
    """Whether a word names a cluster file in place of a release."""
    return os.path.isfile(path) and not path.endswith(ARCHIVES)


def gather_words(releases: Sequence[Release], more: Sequence[str]) -> list[str]:
    """The words of gather. One release without nodes runs at all that its configuration names."""
    if len(releases) == 1 and not releases[0].nodes:
        return ["--release", releases[0].path, "--named", *more]
    for release in releases:
        if not release.nodes:
            raise Refused(f"{release.path}: which nodes run it? Of several releases each names them, as {release.path}:NODE,NODE")
    return [*more, *(word for release in releases for node in release.nodes for word in ("--node", node, "--release", release.path))]


def shown(asked: Sequence[str]) -> list[str]:
    """The words of gather as a page shows them: without the values of variables that are secrets by their names."""
    return [SECRET.sub(r"\1...", word) if before == "--env" else word for before, word in zip(["", *asked], asked)]


def gathered(words: Sequence[str], more: Sequence[str]) -> Gathered:
    """The cluster file of some releases, or the one that the only word names."""
    if len(words) == 1 and is_cluster_file(words[0]):
        return Gathered(split_input(read_text(words[0])).cluster, words[0], words[0], [], "")
    releases = [release_of(word) for word in words]
    for release in releases:
        if not os.path.exists(release.path):
            raise Refused(f"{release.path}: {os.strerror(errno.ENOENT)}")
    asked = gather_words(releases, more)
    found_escript("gather")
    try:
        done = subprocess.run([path_of("gather"), *asked], stdin=subprocess.DEVNULL, capture_output=True, check=False)
    except OSError as fault:
        raise Refused(why_of(fault)) from None
    told = lines_of(to_text(done.stderr))
    if done.returncode != 0:
        raise Refused(" ".join(line.removeprefix(SELF) for line in told if not line.startswith("Try ")) or "gather failed")
    cluster, source = to_text(done.stdout), ", ".join(release.path for release in releases)
    command = f"companions/rehearse-tools gather {shlex.join(shown(asked))} > {CLUSTER_FILE}"
    return Gathered(cluster, ", ".join(dict.fromkeys(OF_NODE.findall(cluster))) or source, source,
                    [line.removeprefix(WARNING) for line in told], command)
