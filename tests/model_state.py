"""A state as the model has it, its report, and why an event is refused in it, written from docs/RULES.md and docs/SCRIPTS.md."""
import copy

MOST_TIME, MOST_STARTS = 10 ** 12, 9_999
# The number of each name that the cluster hasn't.
UNKNOWN = 255
WORDS = {1: "unknown_node", 2: "unknown_app", 3: "already_alive", 4: "incarnation_limit", 5: "not_alive", 6: "zero_tick",
         7: "time_limit", 8: "node_not_up", 9: "not_distributed", 10: "not_listed", 11: "already_started", 12: "never_started",
         13: "not_running", 14: "runs_here", 15: "not_running_here", 16: "not_permitted", 17: "dependency_not_started",
         18: "trail_full"}


class State:
    """The first state of a cluster, and the questions about a state."""

    def __init__(self, cluster):
        self.cluster, self.now = cluster, 0
        self.mode = ["down"] * len(cluster.nodes)
        self.starts = [0] * len(cluster.nodes)
        self.running = [[] for _ in cluster.nodes]
        self.waiting = [[] for _ in cluster.nodes]
        self.forbidden = [set(node.forbidden) for node in cluster.nodes]
        # By pairs of a node and an application.
        self.restart, self.kind = {}, {}
        # Of each distributed application: "quiet", "wanted", "running" or "lost", and a node or None.
        self.standing = {place: ("quiet", None) for place, app in enumerate(cluster.apps) if app.spread}
        # Pairs of a due time and of "sync" with a node or "failover" with an application, in the order of setting.
        self.timers = []

    def __deepcopy__(self, memo):
        other = State.__new__(State)
        for key, value in vars(self).items():
            setattr(other, key, value if key == "cluster" else copy.deepcopy(value, memo))
        return other

    def alive(self, node):
        return self.mode[node] != "down"

    def started(self, node, app):
        return app in self.running[node] or app in self.waiting[node]

    def missing(self, node, app):
        """The dependencies that don't run at the node, in written order."""
        return [need for need in self.cluster.apps[app].needs
                if need not in (self.running[node] if isinstance(need, int) else self.cluster.nodes[node].platform)]

    def operational(self, node, app):
        return (self.mode[node] == "up" and self.started(node, app) and app not in self.forbidden[node]
                and not self.missing(node, app))

    def groups(self, app):
        return self.cluster.apps[app].spread.groups

    def listed(self, app):
        """The nodes at which a distributed application may run, in node order."""
        return sorted(node for group in self.groups(app) for node in group)

    def targets(self, app):
        """The nodes at which `start_all` starts it."""
        return [node for node in self.listed(app) if self.mode[node] == "up" and not self.started(node, app)]

    def rank(self, app, node):
        return next(rank for rank, group in enumerate(self.groups(app)) if node in group)


def reasons(state, word, node, app, count):
    """Pairs of a refusal's number and of whether it applies, in their order; for 17 it is the dependency, or None. A reason is only
    asked for where none before it applies."""
    names_app = word in ("start", "stop", "permit", "takeover", "exit")
    is_all = word in ("start_all", "stop_all")
    if word != "tick" and not is_all:
        yield 1, node == UNKNOWN
    if names_app or is_all:
        yield 2, app == UNKNOWN
    if word == "boot":
        yield 3, state.alive(node)
        yield 4, state.starts[node] == MOST_STARTS
    if word == "crash":
        yield 5, not state.alive(node)
    if word == "tick":
        yield 6, count == 0
        yield 7, state.now + count > MOST_TIME
    is_spread = app in state.standing
    if names_app:
        yield 8, state.mode[node] != "up"
    if word == "start_all":
        yield 8, is_spread and not any(state.mode[other] == "up" for other in state.listed(app))
    if word == "takeover" or is_all:
        yield 9, not is_spread
    if word in ("start", "takeover"):
        yield 10, is_spread and node not in state.listed(app)
        yield 11, word == "start" and state.started(node, app)
    if word == "start_all":
        yield 11, not state.targets(app)
    if word == "stop":
        yield 12, not state.started(node, app)
    if word == "stop_all":
        yield 12, not any(state.started(other, app) for other in state.listed(app))
    if word == "takeover":
        yield 13, state.standing[app][0] != "running"
        yield 14, state.standing[app] == ("running", node)
    if word == "exit":
        yield 15, app not in state.running[node]
    if word == "takeover":
        yield 16, app in state.forbidden[node]
    where = [node] if word in ("start", "takeover") else state.targets(app) if word == "start_all" else []
    yield 17, next((need for other in where for need in state.missing(other, app)), None)


def refusal(state, *event):
    """The text of why an event is refused, or None."""
    for number, applies in reasons(state, *event):
        if number == 17 and applies is not None:
            name = state.cluster.apps[applies].name if isinstance(applies, int) else applies
            return f"S17 {WORDS[17]} {name}"
        if number != 17 and applies:
            return f"S{number} {WORDS[number]}"
    return None


def report(state):
    """The lines of a report."""
    nodes, apps = ([part.name for part in parts] for parts in (state.cluster.nodes, state.cluster.apps))
    lines = [f"now {state.now}"]
    for node, name in enumerate(nodes):
        lines.append(f"node {name} {state.mode[node]} {state.starts[node]}")
        for app in state.running[node]:
            lines.append(" ".join(["  running", apps[app], state.restart[node, app], *state.kind[node, app]]))
        lines += [f"  waiting {apps[app]} {state.restart[node, app]}" for app in state.waiting[node]]
        lines += [f"  forbidden {apps[app]}" for app in sorted(state.forbidden[node])]
    lines += standings(state)
    for due, (kind, number) in sorted(state.timers, key=lambda entry: entry[0]):
        lines.append(f"timer {kind} {(nodes if kind == 'sync' else apps)[number]} {due}")
    return lines


def standings(state):
    """The lines of the distributed applications."""
    nodes, apps = state.cluster.nodes, state.cluster.apps
    return [" ".join(["app", apps[app].name, word] + ([] if node is None else [nodes[node].name]))
            for app, (word, node) in sorted(state.standing.items())]
