"""The release on which the model was measured, what of its rules rests on it, and whether other sources are those."""
import os
import shutil
import subprocess
from dataclasses import dataclass

HERE = os.path.dirname(os.path.realpath(__file__))
SUMS = os.path.join(HERE, "module_sums.erl")


@dataclass(frozen=True)
class Release:
    """A release, and the checksum of the functions of each module that the model restates."""
    release: str
    kernel: str
    package: str
    sums: dict[str, str]
    # The rules that another release may have otherwise, each with the functions in which they stand.
    rules: dict[str, str]

    @property
    def told(self) -> str:
        return f"Erlang/OTP {self.release} ({self.kernel}, Debian {self.package}): {', '.join(self.sums)}."


MEASURED = Release(
    "25.2.3", "kernel-8.5.3", "1:25.2.3+dfsg-1+deb12u4",
    {"application_controller": "d58c9574bdba5712c32c0617f96c6367", "dist_ac": "d7652f0dcb6f3911ea48321614ab0318",
     "kernel_config": "dec5226d5adafe4ecf771a4885d68134"},
    {
        "dist_ac:find_start_node/5": "a candidate is a node that is up and permitted, started or not, and is waited for",
        "dist_ac:find_any_node/5": "all candidates of the whole list are asked for their weight, for each tuple anew",
        "dist_ac:collect_answers/4": "an answer that came early counts for each tuple",
        "dist_ac:handle_info({dist_ac_weight, ..})": "a weight that nobody waits for is answered by another one",
        "dist_ac:handle_info({internal_restart_appl, ..})": "a failover timer isn't cancelled",
        "dist_ac:handle_info({ac_start_application_req, ..})": "a start has the lock of its node until it is over",
        "dist_ac:sync_dacs/1": "a node introduces itself to those that it sees when its wait is over",
        "dist_ac:check_waiting/6": "every second call of permit that waits keeps a node that is down",
        "application_controller:handle_call({permit_application, ..})": "the permission of a running local application isn't kept",
        "application_controller:handle_info({'EXIT', ..})": "an application that ends its node is told as stopped first",
        "kernel_config:get_sync_timeout/0": "0 and undefined end the node",
        "kernel_config:check_up/3": "a node counts once it was seen",
    })


def compared_with(folder: str) -> tuple[str, bool]:
    """Tells of each module whether the one in a folder is the one that was measured, and whether all are."""
    if shutil.which("escript") is None:
        return "sources: escript, which is part of Erlang/OTP, isn't installed\n", False
    done = subprocess.run(["escript", SUMS, folder, *MEASURED.sums], capture_output=True, text=True, check=False)
    found = dict(line.split(" ", 1) for line in done.stdout.splitlines() if " " in line)
    lines, is_same = [f"measured on {MEASURED.told}\n"], True
    for module, owed in MEASURED.sums.items():
        told = found.get(module, "missing")
        is_same = is_same and told == owed
        if told == owed:
            lines.append(f"{module}: the same functions\n")
        elif told == "missing":
            lines.append(f"{module}: there is none in {folder}\n")
        elif told == "unreadable":
            lines.append(f"{module}: it can't be read (no debug_info, or a source that needs other files)\n")
        else:
            lines.append(f"{module}: it differs, so these rules may: "
                         f"{'; '.join(what for where, what in MEASURED.rules.items() if where.startswith(module))}\n")
    return "".join(lines), is_same
