"""A model of the cluster: what the program has to answer, by other means. run_text, sweep_text and session_text give whole texts.

It is written from docs/RULES.md and docs/SCRIPTS.md and not from the program: the state is a tree of Python's lists and sets, each
step begins with a copy of it, and undo goes back to the copy. Nothing here is quick.
"""
import copy

from model_cluster import cluster_of
from model_state import UNKNOWN, WORDS, State, refusal, report, standings

MOST_STEPS = 65_535


class Step:
    """One event on a state: `notices` are its lines then."""

    def __init__(self, state, pick):
        self.state, self.pick, self.notices = state, pick, []
        self.fresh, self.marked = set(), []

    def tell(self, *words):
        self.notices.append(" ".join(words))

    def node_name(self, node):
        return self.state.cluster.nodes[node].name

    def app_name(self, app):
        return self.state.cluster.apps[app].name

    def cancel(self, *timer):
        self.state.timers = [entry for entry in self.state.timers if entry[1] != timer]

    def mark(self, node, app, restart):
        state = self.state
        state.waiting[node].append(app)
        state.restart[node, app] = restart
        self.fresh.add((node, app))
        self.marked.append((node, app))
        if state.standing.get(app) == ("quiet", None):
            state.standing[app] = ("wanted", None)
        elif state.standing.get(app) == ("lost", node):
            state.standing[app] = ("wanted", node)
            self.cancel("failover", app)

    def come_up(self, node):
        self.cancel("sync", node)
        self.state.mode[node] = "up"
        self.tell("up", self.node_name(node))
        for app, restart in self.state.cluster.nodes[node].boot:
            self.mark(node, app, restart)

    def end(self, node):
        state = self.state
        self.tell("ended", self.node_name(node))
        self.cancel("sync", node)
        state.mode[node], state.running[node], state.waiting[node] = "down", [], []
        state.forbidden[node] = set(state.cluster.nodes[node].forbidden)
        for app in sorted(state.standing):
            if state.standing[app] == ("running", node):
                timeout = state.cluster.apps[app].spread.timeout
                state.standing[app] = ("lost" if timeout else "wanted", node)
                if timeout:
                    state.timers.append((state.now + timeout, ("failover", app)))

    def unlink(self, node, app):
        """The pair leaves its list. Did it run?"""
        ran = app in self.state.running[node]
        (self.state.running if ran else self.state.waiting)[node].remove(app)
        return ran

    def run(self, node, app, kind):
        self.state.running[node].append(app)
        self.state.kind[node, app] = kind
        self.tell("started", self.app_name(app), self.node_name(node), *kind)

    def best(self, app, nodes):
        """Of these nodes, of the first group that has one, a node with the shortest running list."""
        for group in self.state.groups(app):
            among = [node for node in group if node in nodes]
            if among:
                least = min(len(self.state.running[node]) for node in among)
                tied = [node for node in among if len(self.state.running[node]) == least]
                return tied[0 if self.pick == "first" else -1]
        return None

    def move(self, app, node):
        """The application moves to a node from the one where it runs."""
        other = self.state.standing[app][1]
        if app in self.state.waiting[node]:
            self.state.waiting[node].remove(app)
        self.run(node, app, ("takeover", self.node_name(other)))
        self.state.running[other].remove(app)
        self.state.waiting[other].append(app)
        self.state.standing[app] = ("running", node)
        self.tell("stopped", self.app_name(app), self.node_name(other))

    def start_local(self):
        for node, waiting in enumerate(self.state.waiting):
            for app in waiting:
                if app not in self.state.standing and self.state.operational(node, app):
                    waiting.remove(app)
                    self.run(node, app, ("normal",))
                    return True
        return False

    def place(self):
        for app in sorted(self.state.standing):
            standing, lost = self.state.standing[app]
            nodes = [node for node in self.state.listed(app) if self.state.operational(node, app)]
            if standing == "wanted" and nodes:
                node = self.best(app, nodes)
                is_elsewhere = lost is not None and lost != node
                is_failover = is_elsewhere and self.state.cluster.apps[app].has_phases
                self.unlink(node, app)
                self.run(node, app, ("failover", self.node_name(lost)) if is_failover else ("normal",))
                self.lost_starts += is_elsewhere
                self.state.standing[app] = ("running", node)
                return True
        return False

    def take_over(self):
        for app in sorted(self.state.standing):
            standing, here = self.state.standing[app]
            if standing == "running":
                before = [node for node in self.state.listed(app) if (node, app) in self.fresh
                          and self.state.operational(node, app) and self.state.rank(app, node) < self.state.rank(app, here)]
                if before:
                    self.move(app, self.best(app, before))
                    return True
        return False

    lost_starts = 0

    def settle(self):
        """All ready nodes come up, and the cluster settles."""
        state = self.state
        for node, keys in enumerate(state.cluster.nodes):
            others = keys.mandatory + keys.optional
            if state.mode[node] == "waiting" and (keys.wait is None or all(map(state.alive, others))):
                self.come_up(node)
        while self.start_local() or self.place() or self.take_over():
            pass
        for node, app in self.marked:
            if app in state.waiting[node]:
                self.tell("waits", self.app_name(app), self.node_name(node))
        self.fresh, self.marked = set(), []

    # The events.

    def boot(self, node):
        wait = self.state.cluster.nodes[node].wait
        self.state.starts[node] += 1
        self.state.mode[node] = "waiting"
        if isinstance(wait, int):
            self.state.timers.append((self.state.now + wait, ("sync", node)))

    def crash(self, node):
        self.end(node)

    def tick(self, count):
        state, end = self.state, self.state.now + count
        # Sorting keeps the order of setting among those that are due together.
        while state.timers and min(state.timers, key=lambda entry: entry[0])[0] <= end:
            due, (kind, number) = min(state.timers, key=lambda entry: entry[0])
            self.cancel(kind, number)
            state.now = due
            if kind == "failover":
                state.standing[number] = ("wanted", state.standing[number][1])
            elif all(map(state.alive, state.cluster.nodes[number].mandatory)):
                self.come_up(number)
            else:
                self.end(number)
            self.settle()
        state.now = end

    def start(self, node, app, restart):
        self.mark(node, app, restart)

    def stopped(self, node, app):
        """The pair, which ran, doesn't: a distributed application is quiet."""
        self.tell("stopped", self.app_name(app), self.node_name(node))
        if app in self.state.standing:
            self.state.standing[app] = ("quiet", None)

    def stop(self, node, app):
        state = self.state
        if self.unlink(node, app):
            self.stopped(node, app)
        elif app in state.standing and state.standing[app][0] in ("wanted", "lost"):
            if not any(state.started(other, app) for other in state.listed(app)):
                state.standing[app] = ("quiet", None)
                self.cancel("failover", app)

    def permit(self, node, app, allow):
        state = self.state
        was_forbidden = app in state.forbidden[node]
        if allow == "true":
            state.forbidden[node].discard(app)
            # The second profile alone: a pair that is started may pull the application back.
            if was_forbidden and state.cluster.profile == 2 and state.started(node, app):
                self.fresh.add((node, app))
            return
        state.forbidden[node].add(app)
        if not was_forbidden and app in state.running[node]:
            state.running[node].remove(app)
            state.waiting[node].append(app)
            self.stopped(node, app)
            if app in state.standing:
                state.standing[app] = ("wanted", None)

    def takeover(self, node, app, restart):
        self.state.restart[node, app] = restart
        self.move(app, node)

    def exit(self, node, app, reason):
        restart = self.state.restart[node, app]
        if restart == "permanent" or restart == "transient" and reason == "abnormal":
            self.end(node)
        else:
            self.unlink(node, app)
            self.stopped(node, app)

    def start_all(self, app, restart):
        for node in self.state.targets(app):
            self.mark(node, app, restart)

    def stop_all(self, app):
        state = self.state
        for node in range(len(state.cluster.nodes)):
            if state.started(node, app) and self.unlink(node, app):
                self.tell("stopped", self.app_name(app), self.node_name(node))
        state.standing[app] = ("quiet", None)
        self.cancel("failover", app)


class Rehearsal:
    """A simulation: `answer` gives the lines that a command is answered by."""

    def __init__(self, text, pick="first"):
        self.cluster, self.pick = cluster_of(text), pick
        # The states before and behind each step of the trail.
        self.states, self.cursor = [State(self.cluster)], 0
        self.accepted = self.failovers = self.takeovers = 0

    @property
    def state(self):
        return self.states[self.cursor]

    def number(self, parts, name):
        return next((number for number, part in enumerate(parts) if part.name == name), UNKNOWN)

    def event(self, words):
        """The word of an event's line, and its node, application and count; what else stands there is the last."""
        word, *rest = words
        node = app = count = None
        if word not in ("tick", "start_all", "stop_all"):
            node = self.number(self.cluster.nodes, rest.pop(0))
        if word not in ("boot", "crash", "tick"):
            app = self.number(self.cluster.apps, rest.pop(0))
        if word == "tick":
            count = int(rest.pop(0))
        return word, node, app, count, rest

    def refused(self, words):
        """Why an event is refused here, or None."""
        why = refusal(self.state, *self.event(words)[:-1])
        return f"S18 {WORDS[18]}" if why is None and self.cursor == MOST_STEPS else why

    def step(self, words):
        why = self.refused(words)
        if why is not None:
            return [f"refused {why}"]
        word, node, app, count, rest = self.event(words)
        step = Step(copy.deepcopy(self.state), self.pick)
        getattr(step, word)(*(part for part in (node, app, count) if part is not None), *rest)
        if word != "tick":
            step.settle()
        del self.states[self.cursor + 1:]
        self.states.append(step.state)
        self.cursor += 1
        self.accepted += 1
        self.failovers += step.lost_starts
        self.takeovers += sum(notice.startswith("started ") and " takeover " in notice for notice in step.notices)
        return ["ok", *step.notices]

    def go(self, to, edge):
        if not 0 <= to < len(self.states):
            return [f"refused {edge}"]
        self.cursor = to
        return ["ok"]

    def answer(self, words):
        word, last = words[0], len(self.states) - 1
        if word == "show":
            return ["ok", *report(self.state)]
        if word == "undo":
            return self.go(self.cursor - 1, "at_start")
        if word == "redo":
            return self.go(self.cursor + 1, "at_end")
        if word in ("undo_all", "redo_all"):
            moved = self.cursor if word == "undo_all" else last - self.cursor
            self.cursor = 0 if word == "undo_all" else last
            return [f"ok {moved}"]
        return self.step(words)

    def entry(self, words):
        """A command as the log of sessions has it."""
        if words[0] in ("show", "undo", "redo", "undo_all", "redo_all"):
            return words
        word, node, app, count, rest = self.event(words)
        names = [part[number].name if number != UNKNOWN else "?"
                 for part, number in ((self.cluster.nodes, node), (self.cluster.apps, app)) if number is not None]
        return [word, *names, *([] if count is None else [str(count)]), *rest]


def split(text):
    """The cluster text, and the words of each line of the script that has some and is no comment."""
    cluster, _, script = text.partition("\n===\n")
    lines = [line.split() for line in script.split("\n") if not line.startswith("#")]
    return cluster, [words for words in lines if words]


def joined(lines):
    return "".join(line + "\n" for line in lines)


def run_text(text, pick="first"):
    """What `run` answers to an input of which every line is a command."""
    cluster, lines = split(text)
    rehearsal = Rehearsal(cluster, pick)
    return joined(line for words in lines for line in rehearsal.answer(words))


def session_text(text, pick="first"):
    """What `sessions` answers where its lines are served in the order in which they stand."""
    cluster, lines = split(text)
    rehearsal, told = Rehearsal(cluster, pick), []
    for session, *words in lines:
        told += [" ".join(["entry", session, *rehearsal.entry(words)]), *rehearsal.answer(words)]
    return joined([*told, "final", *report(rehearsal.state)])


def sweep_text(text, pick="first"):
    """What `sweep` answers where the base is at its end and each plan has room."""
    cluster, lines = split(text)
    first = next((place for place, words in enumerate(lines) if words[0] == "plan"), len(lines))
    base = Rehearsal(cluster, pick)
    told = [line for words in lines[:first] for line in base.answer(words)]
    plans = []
    for words in lines[first:]:
        plans.append((words[1], [])) if words[0] == "plan" else plans[-1][1].append(words)
    for name, events in plans:
        told += plan_lines(base, name, events)
    return joined(told)


def plan_lines(base, name, events):
    """The lines of a plan behind the base."""
    rehearsal = copy.copy(base)
    rehearsal.states = list(base.states)
    rehearsal.accepted = rehearsal.failovers = rehearsal.takeovers = 0
    refused = []
    for number, words in enumerate(events, 1):
        answer = rehearsal.step(words)
        if answer[0] != "ok":
            refused = [answer[0].replace("refused", f"refused {number}", 1)]
            break
    counts = f"accepted {rehearsal.accepted} failovers {rehearsal.failovers} takeovers {rehearsal.takeovers}"
    return [f"plan {name} {counts}", *refused, *standings(rehearsal.state)]
