"""Why live nodes do otherwise than the rules: for each difference an anchor of docs/LIVE_OTP.md, and its sentence.

The causes are read off the model's own steps: what it noted, who waits for whom, and which lines differ. Several may stand behind
one command; the first one that is found is told.
"""
from dataclasses import dataclass, field
from typing import Iterator, Optional

from rehearse_tools.otp25.dist_ac_state import INTRODUCTIONS, ForAnyStart, ForIntroduction, ForLock, ForStart, ForWeight
from rehearse_tools.otp25.system import LONGEST_TIMER, Node, System
from rehearse_tools.otp25.waiting import Wait, holds, runners, stands

SENTENCES = {
    "better-node-not-started": "a better node that is up and permitted hasn't started the application, and all others wait for it",
    "tuple-member-not-started": "a node of the same tuple that is up and permitted hasn't started it, and the others wait for it",
    "worse-node-not-started": "with a tuple in its list every listed node that is up and permitted is waited for, also one of a "
                              "later group",
    "forbidden-start-waits": "a start at a node where it is forbidden waits until a permitted node that is up has started it",
    "runs-at-a-worse-node": "it runs outside the best group that can run it, and a start at another node waits for the best "
                            "node, which never starts it",
    "tuple-beside-a-runner": "it runs behind the tuple; a node of the tuple that starts it waits for the other one, which is chosen "
                             "by weight and name and never starts it",
    "better-node-holds-it-stopped": "a better node has it started and stopped running; a start at another node waits for that node",
    "permit-starts-a-stopped-one": "permit true at a standby starts an application that was stopped",
    "permit-starts-an-ended-local": "permit true of a local application that ended by itself starts it again",
    "dependency-forbidden-at-boot": "what it needs is forbidden at this node: the start fails and isn't made up for later",
    "boot-list-before-dependency": "the boot list names it before what it needs: the start fails and isn't made up for later",
    "forbidden-local-start-forgotten": "permit false at a local application that was started while forbidden forgets the start",
    "start-of-a-forbidden-local": "a local application that was started while forbidden isn't \"started\": a second start is ok",
    "start-of-one-that-waits": "an application that is started and runs nowhere isn't \"started\" for a call: a second start is "
                               "ok",
    "sync-timeout-undefined-written": "{sync_nodes_timeout, undefined} written out ends the node",
    "sync-timeout-zero": "sync_nodes_timeout 0 ends the node",
    "incomplete-lists": "the node's own lists lack a node that is up: they don't know one another, and each may run an instance",
    "no-sync-lists": "without sync_nodes_* the nodes don't connect, and each runs its own instance",
    "one-sided-lists": "a node that only others list, booted last, is waited for to the end of the timeout",
    "another-node-still-waits": "its distributed applications wait until the other node's wait is over",
    "seen-and-gone": "a node that was seen once counts, also when it is gone again",
    "old-timer": "a failover timer of an earlier loss is never cancelled, and fires for this one",
    "own-end": "an application that ends its node by its own end isn't failed over",
    "lost-together": "applications lost together wait for one another at the standbys",
    "crossed-lists": "applications lost together wait for one another at the standbys, since their lists are in crossed order",
    "boot-lists-crossed": "boot lists of different order: the boot scripts wait for one another",
    "weights-for-ever": "two dist_ac send dist_ac_weight to one another for ever, which keeps both nodes busy",
    "introductions-for-ever": "two dist_ac that run nothing introduce themselves to one another for ever, which keeps both nodes busy",
    "blocked-start": "a start that waits holds its node's dist_ac and the lock {dist_ac,..}: no failover to that node, no boot "
                     "script goes on, no permit at any node returns",
    "starts-within-the-time": "a start within the failover time at a node that didn't see the loss begins at once, as normal",
    "nobody-saw-the-loss": "nobody who saw the loss is left: it starts at once, as normal",
    "kind-after-loss": "the standby saw the loss without having it started or permitted: it starts as normal",
    "back-within-the-time": "the lost node is back while a better standby is up: the standby waits for its own timer",
    "standby-changed-within-the-time": "a permission or a stop at the standby within the failover time",
    "forbid-moves": "permit false where it runs: it starts elsewhere first, as a takeover, and then stops",
    "forbid-other-not-started": "permit false where it runs, and the others haven't started it: the call doesn't return, and it "
                                "keeps running",
    "forbid-with-unlisted-nodes": "permit false where it runs, and only a node that its list doesn't have could run it: the call "
                                  "doesn't return, and it keeps running",
    "local-permission-forgotten": "the permission of a running local application isn't kept",
    "stop-of-a-forbidden-local": "stop of a local application that was started while forbidden: not_started",
    "tie-by-name": "of equally good nodes the name that sorts first",
    "platforms-count": "applications of the platform count as weight",
    "weighed-in-boot-order": "of a tuple the node is chosen at which fewest applications run at that moment, and a live node "
                             "starts them in the order of its boot list, the local ones not before the others",
    "dependency-gone": "a dependency was stopped at the standby: the standby ends",
    "start-without-dependency": "start of a permanent one whose dependency ended or is forbidden ends the node",
    "needs-a-distributed-one": "what needs a distributed application starts also where that one is started and runs elsewhere",
    "local-needs-a-distributed": "a local application that needs a distributed one that runs elsewhere starts",
    "takeover-of-a-local": "takeover of a local application: an error, or no answer",
    "start-where-not-listed": "start at a node that isn't listed is ok",
    "takeover-where-forbidden": "takeover where it is forbidden is ok, and it runs there",
    "takeover-where-not-started": "takeover where it isn't started: not_running_distributed",
    "stop-of-one-that-ended": "stop of an application that ended by itself is ok",
    "ending-takes-time": "a node that ends by itself takes 1.5 s (3 to 3.5 s after the sync timeout)",
    "time-too-long": "a timeout above 4294967295 ms never fires",
    "profile-1-permission": "permit true at a better node pulls it back also where the file says profile 1",
    "start-all-one-call-each": "one call at each node, with states between",
    "stop-all-one-call-each": "one call at each node, with states between",
}


@dataclass
class Step:
    """A command that live nodes answer otherwise: its words, which lines only one of the two sides has, the nodes behind it and
    before it, what waits, and the report of the rules before it."""
    words: list[str]
    rules: list[str]
    live: list[str]
    system: System
    before: System
    waits: list[Wait]
    report: list[str]

    @property
    def word(self) -> str:
        return self.words[0]

    @property
    def app(self) -> str:
        """The application of a command that names one."""
        return self.words[1] if self.word.endswith("_all") else self.words[2]

    def noted(self, what: str) -> bool:
        return any(note.what == what for note in self.system.notes)

    def starts(self, lines: list[str]) -> Iterator[tuple[str, str, str]]:
        """The starts among lines: application, node and kind."""
        for line in lines:
            if line.startswith("started "):
                _, app, node, kind = line.split(" ", 3)
                yield app, node, kind


@dataclass
class Memory:
    """What reasons have to know of the commands before: which applications ended their node and run nowhere since, why a node is
    about to end, and what waited."""
    ended: set[str] = field(default_factory=set)
    ending: dict[str, str] = field(default_factory=dict)
    waits: set[object] = field(default_factory=set)

    def copy(self) -> "Memory":
        return Memory(set(self.ended), dict(self.ending), set(self.waits))

    def note(self, words: list[str], system: System, waits: list[Wait]) -> None:
        """A command is over."""
        self.ended |= {note.app for note in system.notes if note.what == "own-end" and note.app in system.file.entries}
        self.ended -= {event.app for event in system.events if event.what == "started"}
        self.ending |= {note.node: without_dependency(words) for note in system.notes if note.what == "lacks"}
        self.waits = {wait.key for wait in waits}


def without_dependency(words: list[str]) -> str:
    """Why a node ends at which something is started that lacks what it needs."""
    return "start-without-dependency" if words[0] == "start" else "dependency-gone"


def reason_for(step: Step, memory: Memory) -> Optional[str]:
    """The anchor of the reason for which a command differs; None where it only follows from what differed before."""
    for find in (by_notes, by_words, by_own_end, by_waits, by_needs, by_nodes, by_ties, by_losses, by_moments, by_all):
        anchor = find(step, memory)
        if anchor is not None:
            return anchor
    return None


def by_notes(step: Step, _: Memory) -> Optional[str]:
    """What the model noted."""
    for note in step.system.notes:
        if note.what == "bad-timeout":
            return "sync-timeout-zero" if note.detail == "0" else "sync-timeout-undefined-written"
        if note.what == "needs" and any(line.startswith(f"failed {note.app} {note.node} ") for line in step.live):
            node = step.system.nodes.get(note.node)
            waits = node is not None and any(row[0] == note.detail for row in node.controller.start_p_false)
            return "dependency-forbidden-at-boot" if waits else "boot-list-before-dependency"
        if note.what == "lacks":
            return without_dependency(step.words)
        if note.what == "burns":
            return "introductions-for-ever" if note.app == INTRODUCTIONS else "weights-for-ever"
        if note.what == "old-timer" and step.live:
            return "old-timer"
    return None


def by_words(step: Step, _: Memory) -> Optional[str]:
    """What a call is answered: the reasons that the command itself shows."""
    refused = next((line.split()[1] for line in step.rules if line.startswith("refused ")), "")
    told = next((line.split()[1] for line in step.live if line.startswith("refused ")), "")
    is_ok = "ok" in step.live
    found = {"S9": "takeover-of-a-local", "S10": "start-where-not-listed", "S16": "takeover-where-forbidden"}.get(refused)
    if found is not None:
        return found
    if refused == "S12" and is_ok and step.word == "stop":
        return "stop-of-one-that-ended"
    if refused == "S11" and step.word == "start":
        if step.app in step.system.file.entries:
            return "start-of-one-that-waits" if is_ok else None
        if is_forbidden(step):
            return "start-of-a-forbidden-local"
        before = step.before.nodes.get(step.words[1])
        return "local-permission-forgotten" if before is not None and is_started(before, step.app) else None
    if refused in ("S11", "S12", "S17") and step.word.endswith("_all"):
        return f"{step.word.replace('_', '-')}-one-call-each"
    if refused == "S17":
        return "local-needs-a-distributed" if is_ok else None
    if told == "S13" and step.word == "takeover":
        return "takeover-where-not-started"
    if told == "S12" and step.word == "stop" and step.app not in step.system.file.entries:
        return "stop-of-a-forbidden-local"
    return of_permit(step) if step.word == "permit" else None


def is_forbidden(step: Step) -> bool:
    """Whether an application that is started waits at a node since it is forbidden there."""
    node = step.before.nodes.get(step.words[1])
    return node is not None and any(row[0] == step.app for row in node.controller.start_p_false)


def is_started(node: Node, app: str) -> bool:
    """Whether an application is started at a node, or waits there since it is forbidden."""
    return holds(node, app) or any(row[0] == app for row in node.controller.start_p_false)


def of_permit(step: Step) -> Optional[str]:
    """The reasons of a permission."""
    _, name, app, allow = step.words
    if app not in step.system.file.entries:
        before = step.before.nodes.get(name)
        if allow == "true" and before and app in before.ended_by_itself and app in {one for one, _, _ in step.starts(step.live)}:
            return "permit-starts-an-ended-local"
        if allow == "true" and app in {one for one, _, _ in step.starts(step.rules)} and before and not is_started(before, app):
            return "forbidden-local-start-forgotten"
        return "local-permission-forgotten" if any(line.split()[1:2] == [app] for line in step.rules + step.live) else None
    if allow == "false":
        moved = any(kind.startswith("takeover ") for _, _, kind in step.starts(step.live))
        waits = any(call.is_open and call.words == tuple(step.words) for call in step.system.calls)
        node = step.system.nodes.get(name)
        asks = node is not None and node.dist_ac is not None and any(row[0] == app for row in node.dist_ac.p_reqs)
        if waits and asks:
            return of_forbidden(step.system, name, app)
        return "forbid-moves" if moved else None
    if any(kind.startswith("takeover ") for _, _, kind in step.starts(step.live)):
        return "profile-1-permission" if step.system.file.profile == 1 else None
    is_quiet = f"app {app} quiet" in step.report
    return "permit-starts-a-stopped-one" if is_quiet and any(one == app for one, _, _ in step.starts(step.live)) else None


def of_forbidden(system: System, name: str, app: str) -> str:
    """Why a call of permit false waits for other nodes."""
    dist_ac = system.nodes[name].dist_ac
    asked = {node for row in dist_ac.p_reqs if row[0] == app for node in row[2]} if dist_ac is not None else set()
    return "forbid-other-not-started" if asked.intersection(system.file.entries[app].nodes) else "forbid-with-unlisted-nodes"


def by_own_end(step: Step, memory: Memory) -> Optional[str]:
    """An application that ended its node is failed over by the rules alone."""
    ended = memory.ended | {note.app for note in step.system.notes if note.what == "own-end"}
    return "own-end" if any(app in ended for app, _, _ in step.starts(step.rules)) else None


# ---- Who waits for whom


def by_waits(step: Step, memory: Memory) -> Optional[str]:
    """The wait that has begun with this command, or the one that has blocked since an earlier one."""
    new = [wait for wait in step.waits if wait.key not in memory.waits]
    reasons = [of_wait(step, wait) for wait in new]
    for reason in reasons:
        if reason not in (None, "blocked-start"):
            return reason
    is_blocked = any(line == "no answer" or line.startswith("pending ") for line in step.live)
    if reasons or memory.waits and (is_blocked or step.waits):
        return "blocked-start" if step.waits else None
    return None


def of_wait(step: Step, wait: Wait) -> Optional[str]:
    """Why a wait has begun."""
    if wait.key[0] == "call":
        call = step.system.calls[wait.key[1] - 1]
        if call.words[0] == "takeover" and call.stage == "synchronised":
            return "takeover-of-a-local"
        is_asked = call.words[0] == "permit" and call.words[3] == "false" and call.stage == "dist_ac"
        return of_forbidden(step.system, call.node, call.app) if is_asked else "blocked-start"
    stand, name = wait.key[3], wait.node
    if isinstance(stand, ForLock):
        return "blocked-start"
    if isinstance(stand, ForIntroduction):
        return "blocked-start" if step.system.nodes[stand.nodes[0]].is_up else "another-node-still-waits"
    if isinstance(stand, ForAnyStart):
        return "forbidden-start-waits"
    app, other = stand.attempt.app, stand.node if isinstance(stand, ForStart) else stand.nodes[0]
    return of_start(step, name, app, other, isinstance(stand, ForWeight))


def of_start(step: Step, name: str, app: str, other: str, is_weighing: bool) -> str:
    """Why the dist_ac of a node waits for another node to start an application, or to tell its weight."""
    groups = step.system.file.entries[app].groups
    mine, its = place_of(groups, name), place_of(groups, other)
    node = step.system.nodes[other]
    if node.dist_ac is not None and stands(node.dist_ac) and (holds(node, app) or app in node.script.behind):
        return of_circle(step, name, app)
    if runners(step.system, app):
        return "tuple-beside-a-runner" if isinstance(groups[its], tuple) else "runs-at-a-worse-node"
    if holds(node, app):
        is_lost = any(getattr(timer.message, "app", None) == app for timer in step.system.timers)
        return "back-within-the-time" if is_lost else "better-node-holds-it-stopped"
    if its == mine:
        return "tuple-member-not-started"
    return "worse-node-not-started" if is_weighing and its > mine else "better-node-not-started"


def place_of(groups: tuple[object, ...], name: str) -> int:
    """The number of the group in which a node stands."""
    return next((number for number, group in enumerate(groups) if group == name or isinstance(group, tuple) and name in group), -1)


def of_circle(step: Step, name: str, app: str) -> str:
    """Why two dist_ac wait for one another."""
    node = step.system.nodes[name]
    if node.script.is_at == app:
        return "boot-lists-crossed"
    return "lost-together" if any(isinstance(group, tuple) for group in step.system.file.entries[app].groups) else "crossed-lists"


# ---- What it needs


def by_needs(step: Step, _: Memory) -> Optional[str]:
    """What needs a distributed application starts where that one only waits."""
    for app, name, _kind in step.starts(step.live):
        node = step.system.nodes.get(name)
        if node is not None and any(need in step.system.file.entries and not node.controller.runs_here(need)
                                    for need in step.system.file.apps[app].needs):
            return "needs-a-distributed-one"
    return None


# ---- Which nodes see one another


def by_nodes(step: Step, memory: Memory) -> Optional[str]:
    """Nodes that come up otherwise, or don't know one another."""
    system = step.system
    for line in step.rules:
        if line.startswith("up ") and (node := system.nodes.get(line.split()[1])) is not None and not node.is_up:
            if any(other in system.nodes and frozenset((node.name, other)) not in system.links
                   for other in node.sync.mandatory + node.sync.optional):
                return "one-sided-lists"
    for line in step.live:
        if line.startswith("up ") and (node := system.nodes.get(line.split()[1])) is not None:
            if any(other not in system.nodes for other in node.file.mandatory + node.file.optional):
                return "seen-and-gone"
    for app, name, _ in step.starts(step.live):
        others = [other for other in runners(system, app) if other != name and app in system.file.entries]
        if others and name in system.nodes and (node := system.nodes[name]):
            lists = any(system.nodes[one].file.wait is not None for one in (name, *others))
            return "incomplete-lists" if lists else "no-sync-lists"
    ended = [line.split()[1] for line in step.rules + step.live if line.startswith("ended ")]
    if ended or any(node.is_stopped for node in system.nodes.values()):
        return next((memory.ending[name] for name in ended if name in memory.ending), "ending-takes-time")
    if any(entry.timeout > LONGEST_TIMER for entry in system.file.entries.values()):
        return "time-too-long"
    return None


# ---- Losses and ties


def by_losses(step: Step, _: Memory) -> Optional[str]:
    """What is lost starts otherwise."""
    owed = {app: (node, kind) for app, node, kind in step.starts(step.rules)}
    for app, node, kind in step.starts(step.live):
        if app in owed and owed[app][0] == node:
            return "kind-after-loss" if owed[app][1].startswith("failover") else None
        standing: list[str] = next((line.split()[2:] for line in step.report if line.startswith(f"app {app} ")), [])
        if standing[:1] == ["lost"] and kind == "normal":
            if any(event.what == "up" and event.node == node for event in step.system.events):
                is_seen = any(other.dist_ac is not None and other.dist_ac.apps[app].standing[0] == "failover"
                              for other in step.before.nodes.values() if other.dist_ac is not None and app in other.dist_ac.apps)
                return "starts-within-the-time" if is_seen else "nobody-saw-the-loss"
            if step.word.startswith("start"):
                return "starts-within-the-time"
            return "kind-after-loss" if step.word == "permit" else "standby-changed-within-the-time"
    for app in owed:
        if app in step.system.file.entries and step.word == "boot" and f"app {app} lost {step.words[1]}" in step.report:
            return "back-within-the-time"
    return None


def by_ties(step: Step, memory: Memory) -> Optional[str]:
    """Another node of a tuple was chosen."""
    chosen = {note.app: note.detail.split(" ") for note in step.system.notes if note.what == "chosen"}
    owed = {app: node for app, node, _ in step.starts(step.rules)}
    for app, node, _ in step.starts(step.live):
        words = chosen.get(app, [])
        # How many applications of the file ran at each node of the tuple, in the order in which it is written.
        files = step.system.file.nodes
        counts = {name: int(weight) - len(files[name].platform) for name, weight in zip(words[::2], words[1::2])}
        if owed.get(app, node) != node and owed[app] in counts and node in counts:
            least = [name for name, count in counts.items() if count == min(counts.values())]
            if owed[app] not in least or list(counts) == sorted(counts) and owed[app] != least[0]:
                # Nodes whose waits are over one after the other come up by the rules one after the other, too.
                return by_moments(step, memory) if step.word == "tick" else "weighed-in-boot-order"
            return "tie-by-name" if node == min(least) else "platforms-count"
    return None


def by_moments(step: Step, _: Memory) -> Optional[str]:
    """Several nodes come up with one command: by the rules one after the other, live at the same moment."""
    up = [event.node for event in step.system.events if event.what == "up"]
    is_placed = any(line.startswith(("started ", "stopped ", "waits ")) for line in step.rules + step.live)
    return "another-node-still-waits" if len(up) > 1 and is_placed else None


def by_all(step: Step, _: Memory) -> Optional[str]:
    """A call at each node, which answers by itself."""
    return f"{step.word.replace('_', '-')}-one-call-each" if step.word.endswith("_all") else None
