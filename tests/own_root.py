"""The Debian package, installed in a root of its own: a Debian that debootstrap makes in a temporary folder, with what the package says it
depends on, and with Erlang for the commands that build and read a release.

There dpkg installs it, README.md's commands are run by chroot, and dpkg takes it away again. It takes a minute or two. Where debootstrap
isn't there or makes no root, since Debian's registry can't be reached for instance, where it isn't root who tests, or where nothing may be
mounted, it is skipped, and a line says so: that is no fault of the package.
"""
import os
import re
import shlex
import shutil
import subprocess

from groups import Group
from package import README, TOOLS, finished, installed_line, is_shown, packed, shown_commands, six_lines, version
from support import difference, files_below, in_folder, read

# The oldest Debian that has what the package depends on.
SUITE = "bookworm"
ERLANG = "erlang-base"
LONGEST_MAKING = 600
# Whatever is mounted is there for this command and those that it calls, and so a folder can be removed when it has ended.
MOUNTING = ["unshare", "--mount", "--propagation", "private"]


def why_not():
    """Why no root can be made here, or None."""
    for name in ("debootstrap", "unshare", "chroot", "dpkg-deb"):
        if shutil.which(name) is None:
            return f"it needs {name}"
    if os.geteuid() != 0:
        return "it needs to be root"
    return None if finished([*MOUNTING, "true"]).returncode == 0 else "it needs to mount"


def made(root, package):
    """Makes a root for a package. Gives why there is none, where that is nobody's fault."""
    owed = finished(["dpkg-deb", "--field", package, "Depends"]).stdout.decode()
    names = ",".join([*re.findall(r"([\w.+-]+)(?: \([^)]*\))?(?:, |\n)", owed), ERLANG])
    # A root that is thrown away needn't outlive a loss of power: dpkg doesn't wait for the disk.
    os.makedirs(os.path.join(root, "etc", "dpkg", "dpkg.cfg.d"))
    with open(os.path.join(root, "etc", "dpkg", "dpkg.cfg.d", "quick"), "w", encoding="utf-8") as file:
        file.write("force-unsafe-io\n")
    words = ["debootstrap", "--variant=minbase", f"--include={names}", SUITE, root]
    try:
        done = subprocess.run([*MOUNTING, *words], stdin=subprocess.DEVNULL, capture_output=True, text=True, timeout=LONGEST_MAKING,
                              check=False)
    except subprocess.TimeoutExpired:
        return f"debootstrap took more than {LONGEST_MAKING} s"
    told = (done.stdout + done.stderr).strip().splitlines()[-1:]
    return None if done.returncode == 0 else f"debootstrap says: {''.join(told)}"


def call(root, line, folder="/root"):
    """A finished line of a shell in the root, as somebody has it who has logged in there."""
    there = f"mount -t proc proc {shlex.quote(root)}/proc && exec chroot {shlex.quote(root)} env -i \"$@\""
    return finished([*MOUNTING, "sh", "-c", there, "sh", "PATH=/usr/sbin:/usr/bin:/sbin:/bin", "HOME=/root", "LC_ALL=C.UTF-8",
                     "bash", "-c", f"set -o pipefail; cd {shlex.quote(folder)}; {line}"])


@in_folder
def own_root(program, folder):
    """The package is installed, does what README.md says, and is taken away."""
    root = os.path.join(folder, "root")
    why = why_not()
    if why is None:
        _, package = packed(os.path.join(folder, "made"))
        why = made(root, package)
    if why is not None:
        print(f"SKIPPED own_root: {why}", flush=True)
        return
    before = set(files_below(root))
    shutil.copy(package, os.path.join(root, "root"))
    yield from installed(root, f"/root/{os.path.basename(package)}")
    yield from readme(root)
    yield from removed(root, before)


def installed(root, package):
    """dpkg installs it, without a word of what is missing."""
    done = call(root, f"dpkg -i {package}")
    yield "dpkg -i", None if done.returncode == 0 and not done.stderr else f"{done}"
    done = call(root, "dpkg-query -W -f '${Status} ${Version}' rehearse; dpkg -V rehearse")
    yield "it is installed", None if done.stdout.decode() == f"install ok installed {version()}" and not done.stderr else f"{done}"
    kit = call(root, "command -v rt")
    yield "no kit is there", None if kit.returncode != 0 else f"{kit.stdout}"
    for line, begin in (("rehearse --version", f"rehearse {version()} (commit "), ("rehearse help C5", "C5 unknown_name\n")):
        done = call(root, line)
        yield f"{line}, installed", None if done.returncode == 0 and done.stdout.decode().startswith(begin) else f"{done}"
    for name in TOOLS:
        done = call(root, f"rehearse-tools {name} --help")
        yield f"rehearse-tools {name} --help, installed", None if done.returncode == 0 and not done.stderr else f"{done}"


def readme(root):
    """README.md's commands, one after the other, in a folder that has the examples."""
    text = read(os.path.join(root, README)).decode()
    call(root, "mkdir /root/work && ln -s /usr/share/doc/rehearse/examples /root/work/examples")
    for command, owed in shown_commands(text):
        done = call(root, f"set +o pipefail; {installed_line(command)}", "/root/work")
        yield f"{command}, installed", None if is_shown(done, owed) else f"{done}"
    lines, owed = six_lines(text)
    told = []
    for line in lines:
        done = call(root, installed_line(line), "/root/work")
        told.append(done.stdout)
        yield f"{line}, installed", None if done.returncode == 0 and not done.stderr else f"{done}"
    yield "what they print, installed", None if told == owed else difference(b"".join(owed), b"".join(told))


def removed(root, before):
    """dpkg takes it away, and nothing of it stays."""
    done = call(root, "dpkg --purge rehearse")
    yield "dpkg --purge", None if done.returncode == 0 and not done.stderr else f"{done}"
    left = [path for path in sorted(set(files_below(root)) - before) if re.search(r"/usr/|/etc/", path)]
    yield "what stays", f"{left}" if left else None


# It takes longest of all, so it begins first.
TESTS = (Group(own_root, is_long=True),)
