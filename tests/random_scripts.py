"""Random clusters of both profiles and random scripts of all ten events: the program answers them as the model (model.py) does.

The seed is fixed, so that each run makes the same scripts. That these reach all that they are made for is a test too.
"""
import collections
import random

import model
from groups import Group
from support import ARGUMENTS, COMMANDS, EVENT_WORDS, fault_of, run

SCRIPTS, AT_ONCE = 480, 40
TYPES = ["permanent", "transient", "temporary"]
TIMES = [1, 250, 499, 500, 501, 1_000, 3_000]
# How often each event comes, if not twice.
OFTEN = {"boot": 8, "crash": 3, "tick": 4, "start": 6, "permit": 12, "takeover": 4, "start_all": 6}
EVENTS = [word for word in EVENT_WORDS for _ in range(OFTEN.get(word, 2))]
# The notices that the table of commands has for each event.
NOTICES = {command["word"]: command["notices"] for command in COMMANDS}
REFUSALS = [1, 2, 3, 5, 6, 7, 8, 9, 10, 11, 12, 13, 14, 15, 16, 17]


class Part:
    """The names of a random cluster, and its text."""

    def __init__(self, chance, profile):
        self.chance = chance
        self.nodes = [f"n{number}" for number in range(chance.randint(1, 6))]
        self.apps = [f"a{number}" for number in range(chance.randint(1, 5))]
        self.spreads = {app: self.spread() for app in self.apps if chance.random() < 0.75}
        self.wait = chance.choice(["undefined", "undefined", "undefined", "infinity", 0, 500, 1_000])
        front = {0: "", 1: "{profile, 1}.\n", 2: "{profile, 2}.\n"}[profile]
        terms = [self.node(node) for node in self.nodes] + [self.app(app) for app in self.apps]
        if chance.random() < 0.3:
            chance.shuffle(terms)
        self.text = front + "".join(terms)

    def some(self, names, least=0):
        """Some of the names, in any order."""
        return self.chance.sample(names, self.chance.randint(least, len(names)))

    def spread(self):
        """A timeout and groups of nodes."""
        names, groups = self.some(self.nodes, 1), []
        while names:
            count = self.chance.choice([1, 1, 2, 3])
            groups.append(names[:count])
            names = names[count:]
        return self.chance.choice([0, 0, 500, 1_000]), groups

    def entry(self, app):
        """The entry of an application: nodes of a group stand in any order."""
        timeout, groups = self.spreads[app]
        shown = []
        for group in groups:
            names = self.some(group, len(group))
            shown.append(names[0] if len(names) == 1 else "{%s}" % ", ".join(names))
        return "{%s, %d, [%s]}" % (app, timeout, ", ".join(shown))

    def node(self, name):
        kernel = []
        if self.spreads:
            involved = any(name in group for _, groups in self.spreads.values() for group in groups)
            if involved or self.chance.random() < 0.3:
                kernel += ["{distributed, [%s]}" % ", ".join(map(self.entry, self.some(list(self.spreads), len(self.spreads)))),
                           "{sync_nodes_timeout, %s}" % self.wait]
            elif self.chance.random() < 0.3:
                kernel.append("{sync_nodes_timeout, 500}")
        for key in ("sync_nodes_mandatory", "sync_nodes_optional"):
            if self.chance.random() < 0.4:
                kernel.append("{%s, [%s]}" % (key, ", ".join(self.some(self.nodes))))
        if self.chance.random() < 0.4:
            kernel.append("{permissions, [%s]}" % ", ".join(
                "{%s, %s}" % (app, self.chance.choice(["true", "false"])) for app in self.some(self.apps)))
        boot = [app for app in self.some(self.apps) if app not in self.spreads or any(
            name in group for group in self.spreads[app][1])]
        own = ["{boot, [%s]}" % ", ".join("{%s, %s}" % (app, self.chance.choice(TYPES)) for app in boot)]
        if self.chance.random() < 0.5:
            own.append("{platform, [crypto]}")
        return "{node, %s, [{kernel, [%s]}, {rehearse, [%s]}]}.\n" % (name, ", ".join(kernel), ", ".join(own))

    def app(self, name):
        # An application without a platform name that is there in every case would be refused.
        others = [app for app in self.apps if app != name]
        needs = ["kernel"] if self.chance.random() < 0.3 else []
        needs += self.chance.sample(others, min(len(others), self.chance.choice([0, 0, 0, 1, 2])))
        keys = ["{applications, [%s]}" % ", ".join(needs)]
        if self.chance.random() < 0.5:
            keys.append("{start_phases, [{go, []}]}")
        return "{application, %s, [%s]}.\n" % (name, ", ".join(keys))

    def event(self):
        """An event, which may be refused."""
        word, chance = self.chance.choice(EVENTS), self.chance
        node = "nobody" if chance.random() < 0.02 else chance.choice(self.nodes)
        app = "nothing" if chance.random() < 0.02 else chance.choice(self.apps)
        restart = chance.choice(TYPES)
        if word == "tick":
            return f"tick {chance.choice(TIMES) if chance.random() < 0.97 else chance.choice([0, 10 ** 12])}"
        given = {"node": node, "app": app, "restart": restart, "truth": chance.choice(["true", "true", "false"]),
                 "ending": chance.choice(["normal", "abnormal"])}
        return " ".join([word, *(given[kind] for kind in ARGUMENTS[word])])

    def likely(self, rehearsal):
        """An event, which most often isn't refused there."""
        for _ in range(self.chance.choice([1, 4, 16])):
            line = self.event()
            if rehearsal.refused(line.split()) is None and self.changes(rehearsal, line.split()):
                break
        return line

    def changes(self, rehearsal, words):
        """Is this more than the old value of a permission?"""
        if words[0] != "permit":
            return True
        _, node, app, _, (allow,) = rehearsal.event(words)
        return (app in rehearsal.state.forbidden[node]) == (allow == "true")

    def script(self, begin, count):
        """Boots, and so many commands more."""
        rehearsal, lines = model.Rehearsal(self.text), list(begin)
        for line in lines:
            rehearsal.answer(line.split())
        for _ in range(count):
            if self.chance.random() < 0.85:
                lines.append(self.likely(rehearsal))
            else:
                lines.append(self.chance.choice(["show", "undo", "undo", "redo", "undo_all", "redo_all", "redo_all"]))
            rehearsal.answer(lines[-1].split())
        return lines

    def plans(self, base, count):
        """So many plans behind a base."""
        lines = list(base)
        for plan in range(count):
            rehearsal = model.Rehearsal(self.text)
            for line in base:
                rehearsal.answer(line.split())
            lines.append(f"plan p{plan}")
            for _ in range(self.chance.randrange(12)):
                lines.append(self.likely(rehearsal))
                rehearsal.answer(lines[-1].split())
        return lines

    def boots(self):
        return [f"boot {node}" for node in self.some(self.nodes, max(len(self.nodes) - 1, 1))]


def case(number):
    """The words of the command line, the input, and what is owed for it."""
    chance = random.Random(f"random scripts {number}")
    part = Part(chance, number % 3)
    pick = chance.choice(["first", "last"])
    kind = ("run", "run", "run", "sessions", "sweep")[number % 5]
    if kind == "sweep":
        lines = part.plans(part.boots() + ["tick 1000"], 8)
    else:
        lines = part.script(part.boots(), 60) + ["show"]
    if kind == "sessions":
        lines = [f"1 {line}" for line in lines]
    text = part.text + "===\n" + model.joined(lines)
    words = [kind, "--pick", pick] + (["--workers", chance.choice(["1", "3"])] if kind == "sweep" else [])
    texts = {"run": model.run_text, "sessions": model.session_text, "sweep": model.sweep_text}
    return words, text, texts[kind](text, pick)


def reached(seen):
    """What the scripts of `run` should reach and don't, or None."""
    events = sorted(set(EVENTS))
    wanted = [(profile, event) for profile in (1, 2) for event in events] + [f"S{number}" for number in REFUSALS]
    wanted += [(2, "pulled back"), "takeover", "failover", "waits", "timer sync", "timer failover"]
    missing = [what for what in wanted if seen[what] < 3]
    # In the first profile nothing is pulled back, and no event tells what the table of commands doesn't have for it.
    missing += ["only what the table of commands has"] * bool(seen["untold"])
    return f"reached less than three times: {missing}" if missing or seen[1, "pulled back"] else None


def note(seen, text, owed):
    """Notes what a script of `run` reaches."""
    profile = 2 if text.startswith("{profile, 2}") else 1
    lines = iter(text.partition("\n===\n")[2].splitlines())
    word, is_permission = None, False
    for line in owed.splitlines():
        if line.split()[0] in ("ok", "refused"):
            words = next(lines).split()
            word, is_permission = words[0], words[-1] == "true"
        if line == "ok":
            seen[profile, word] += 1
        elif word != "show" and line.split()[0] not in ("ok", "refused", *NOTICES[word]):
            seen["untold"] += 1
        elif line.startswith("refused S"):
            seen[line.split()[1]] += 1
        elif is_permission and " takeover " in line:
            seen[profile, "pulled back"] += 1
        for what in ("takeover", "failover", "waits", "timer sync", "timer failover"):
            seen[what] += f"{what} " in line


def random_scripts(program, numbers):
    """Each script of these numbers is answered as by the model. Returns what they reach."""
    seen = collections.Counter()
    for number in numbers:
        words, text, owed = case(number)
        if words[0] == "run":
            note(seen, text, owed)
        yield f"random script {number}", fault_of(run(program, words, input=text.encode()), 0, owed.encode())
    return seen


def all_reached(counters):
    """Together the scripts reach all events, refusals and notices."""
    yield "what random scripts reach", reached(sum(counters, collections.Counter()))


TESTS = (Group(random_scripts, [range(begin, begin + AT_ONCE) for begin in range(0, SCRIPTS, AT_ONCE)], end=all_reached),)
