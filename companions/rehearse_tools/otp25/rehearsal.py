"""A rehearsal on the model: each command of a script, with the lines that live nodes show for it, in the words of replay."""
import re
from dataclasses import dataclass, field
from typing import Any, Optional

from rehearse_tools.otp25.messages import Event
from rehearse_tools.otp25.processes import Call
from rehearse_tools.otp25.system import Node, System

PLAIN_ATOM = re.compile("[a-z][A-Za-z0-9_@]*")


@dataclass(slots=True)
class Rehearsal:
    """A system, with what an observer keeps of it: of which kind the starts were, and who was told to wait."""
    system: System
    kinds: dict[tuple[str, str], tuple[str, ...]] = field(default_factory=dict)
    told: set[tuple[str, str]] = field(default_factory=set)

    def copy(self) -> "Rehearsal":
        """Another value of the same state."""
        return Rehearsal(self.system.copy(), dict(self.kinds), set(self.told))

    def do(self, words: list[str]) -> list[str]:
        """Does a command that makes a step, or shows the state, and gives the lines of its answer."""
        system = self.system
        system.events, system.notes = [], []
        if words == ["show"]:
            return self.report()
        why = self.refusal(words)
        if why is not None:
            return [f"refused {why}"]
        system.step += 1
        system.ends_soon = words[0] in ("boot", "exit")
        calls = self.act(words)
        system.settle()
        system.rest()
        for event in system.events:
            if event.what == "started":
                self.kinds[event.node, event.app] = event.detail
        return [*self.answer(calls), *self.happened(calls), *self.waits(calls)]

    def refusal(self, words: list[str]) -> Optional[str]:
        """Why a command can't be given to a node."""
        word, *rest = words
        file = self.system.file
        if word == "tick":
            return "S6 zero_tick" if int(rest[0]) == 0 else None
        if word in ("start_all", "stop_all"):
            if rest[0] not in file.apps:
                return "S2 unknown_app"
            if rest[0] not in file.entries:
                return "S9 not_distributed"
            nobody = "S8 node_not_up" if word == "start_all" else "S12 never_started"
            return None if self.listed_and_up(rest[0]) else nobody
        if rest[0] not in file.nodes:
            return "S1 unknown_node"
        if len(rest) > 1 and rest[1] not in file.apps:
            return "S2 unknown_app"
        node = self.system.nodes.get(rest[0])
        if word == "boot":
            return "S3 already_alive" if node is not None else None
        if word == "crash":
            return "S5 not_alive" if node is None else None
        return None if node is not None and node.is_up else "S8 node_not_up"

    def listed_and_up(self, app: str) -> list[str]:
        """The nodes of an application's list that are up, in the order of the file."""
        nodes = self.system.file.entries[app].nodes
        return [node.name for node in map(self.system.nodes.get, self.system.file.nodes)
                if node is not None and node.is_up and node.name in nodes]

    def act(self, words: list[str]) -> list[Call]:
        """Does what a command asks for, and gives its calls."""
        word, *rest = words
        if word == "boot":
            self.system.boot(rest[0])
        elif word == "crash":
            self.system.ends(rest[0])
        elif word == "tick":
            self.system.tick(int(rest[0]))
        elif word in ("start_all", "stop_all"):
            return [self.system.call((word.removesuffix("_all"), node, *rest)) for node in self.listed_and_up(rest[0])]
        else:
            return [self.system.call(tuple(words))]
        return []

    # ---- The lines

    def answer(self, calls: list[Call]) -> list[str]:
        """The answer to the command. Of several calls, a node at which there was nothing to do counts only where all say so."""
        if not calls:
            return ["ok"]
        if any(call.is_open for call in calls):
            return ["no answer"]
        answers = [answer_of(call) for call in calls]
        done = [one for one in answers if one not in ("refused S11 already_started", "refused S12 never_started")]
        return [*(one for one in done if one != "ok"), *done, *answers][:1]

    def happened(self, calls: list[Call]) -> list[str]:
        """What happened at the nodes."""
        events = self.system.events
        ended = {event.node for event in events if event.what == "ended"}
        self.told = {(app, node) for app, node in self.told if node not in ended}
        numbers = {call.number for call in calls}
        return [line for event in events for line in self.lines_of(event, ended, numbers)]

    def lines_of(self, event: Event, ended: set[str], numbers: set[int]) -> list[str]:
        """The line for an event, where it has one."""
        what, node, app, detail = event
        if what in ("up", "ended"):
            return [f"{what} {node}"]
        if what == "started":
            return [f"started {app} {node} {' '.join(detail)}"]
        if what == "stopped" and node not in ended:
            return [f"stopped {app} {node}"]
        if what == "failed":
            return [f"failed {app} {node} {term_text(detail)}"]
        if what == "answer" and detail not in numbers:
            call = self.system.calls[detail - 1]
            return [f"answered {' '.join(call.words)}: {answer_of(call)}"]
        return []

    def waits(self, calls: list[Call]) -> list[str]:
        """Who waits: of what a node boots that has just come up or ended its boot script, and of what was just started."""
        events, nodes = self.system.events, self.system.nodes
        up = {event.node for event in events if event.what == "up" and event.node in nodes}
        booted = {event.node for event in events if event.what == "booted" and event.node in nodes}
        asked = {(app, name) for name in up | booted for app, _ in nodes[name].file.boot if (app, name) not in self.told}
        asked |= {(call.app, call.node) for call in calls
                  if call.words[0] == "start" and not call.is_open and call.result is None and call.node in nodes}
        lines = []
        for app, name in sorted(asked):
            running, types, starting = standing(nodes[name])
            if app in running:
                continue
            if app in {started for started, _ in types}:
                lines.append(f"waits {app} {name}")
                self.told.add((app, name))
            elif app in starting and name in up:
                lines.append(f"pending {app} {name}")
        return lines

    def report(self) -> list[str]:
        """What live nodes can show of the state."""
        lines = ["ok"]
        for name in self.system.file.nodes:
            node = self.system.nodes.get(name)
            mode = "down" if node is None else "up" if node.is_up else "waiting"
            lines.append(f"node {name} {mode} {self.system.boots.get(name, 0)}")
            if node is not None and node.is_up:
                running, types, _ = standing(node)
                kept = dict(reversed(types))
                lines += [f"  running {app} {kept.get(app, 'undefined')} {' '.join(self.kinds[name, app])}" for app in running]
                lines += [f"  waiting {app} {restart}" for app, restart in types if app not in running]
        return lines


def standing(node: Node) -> tuple[list[str], list[tuple[str, str]], list[str]]:
    """What runs at a node, in the order of the starts, what is started, with its type, and what is being started."""
    controller = node.controller
    running = [app for app, _ in reversed(controller.running) if controller.runs_here(app)]
    anywhere = {app for app, _ in controller.running}
    ended = {app for app, _ in controller.started if app not in anywhere and app in node.ended_by_itself}
    types = [row for row in controller.started + controller.start_p_false if row[0] not in ended]
    return running, types, [app for app, _, _ in controller.starting]


def answer_of(call: Call) -> str:
    """The answer to a call, by what it returned."""
    if call.result is None:
        return "ok"
    why = call.result[0]
    known = {("start", "already_started"): "refused S11 already_started", ("stop", "not_started"): "refused S12 never_started",
             ("takeover", "not_running_distributed"): "refused S13 not_running",
             ("takeover", "already_running_locally"): "refused S14 runs_here",
             ("exit", "not_running"): "refused S15 not_running_here"}.get((call.words[0], why))
    if known is not None:
        return known
    if why in ("not_started", "not_running"):
        return f"refused S17 dependency_not_started {call.result[1]}"
    return f"error {term_text(call.result)}"


def term_text(term: Any) -> str:
    """An Erlang term of atoms and tuples as ~0tp prints it. A tuple with one element stands for the atom in it."""
    if isinstance(term, tuple):
        return "{%s}" % ",".join(map(term_text, term)) if len(term) > 1 else term_text(term[0])
    atom = str(term)
    return atom if PLAIN_ATOM.fullmatch(atom) else "'%s'" % atom.replace("\\", "\\\\").replace("'", "\\'")
