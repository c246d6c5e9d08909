"""Searches on live nodes, `explore --rules otp25`, beside a plain search over the model of companions/live: random small clusters, bases,
events, bounds and questions.

The search here goes through the lists of events as they are defined: shorter ones first, and those that are as long in the order of the
lines `may`. It merges nothing, and knows of live nodes what the model's report tells. So the program has to tell as many lists, the same
bounds, the same verdicts, and of each ask that fails the same events and the same report, in which waits and timers of a node may stand in
another order. Of each such list `run --rules otp25` makes the base and the events again, and shows that report byte for byte. In other
orders of messages, which the model doesn't have, small searches are compared with one over the answers of `run --rules otp25 --json`.
Lines of JSON are written again as text. The base is answered as `run --rules otp25` answers it (live_rules.py compares that).

The seed is fixed, so that each run makes the same searches. That these reach all that they are made for is a test too.
"""
import collections
import json
import os
import random
from collections.abc import Iterable, Iterator, Sequence
from dataclasses import dataclass, field
from typing import Any, Optional

from explored import MOST_STEPS
from groups import Group
from json_lines import KEYS, check_text, has_keys, parsed, words
from live_json import answer_text, call_words, node_lines, places_line
from live_rules import Model, in_parts, report_of
from random_live import TYPES, Cluster, Spread, complete_lists, incomplete_lists, spread_of
from rehearse_tools.otp25.cluster import cluster_of
from rehearse_tools.otp25.rehearsal import Rehearsal
from support import TOP, fault_of, read, run

# Random searches beside the model, and small ones in other orders of messages beside runs; how many are taken at once.
SEARCHES, AT_ONCE = 300, 20
IN_ORDERS, IN_ORDERS_AT_ONCE = 24, 4
# So many lists are tried at most where no smaller bound is drawn, and beside runs.
MOST_LISTS, FEW_LISTS = 250, 25
# The program tries no longer lists than these.
LONGEST = 255
EXPLORE = ["explore", "--rules", "otp25"]
RUN = ["run", "--rules", "otp25"]
PICKS = ("last", "7", "12345")
PATTERNS = ["crash *", "crash *", "boot *", "boot *", "crash {node}", "boot {node}", "wait", "wait", "wait", "tick 500", "tick 1000",
            "start * {app} transient", "start * {app} transient", "start {node} {app} permanent", "stop * {app}", "stop {node} *",
            "permit {node} {app} false", "permit * {app} true", "takeover * {app} transient", "exit * {app} abnormal",
            "exit {node} {app} normal", "start_all {app} permanent", "stop_all *"]
# Least numbers of what all searches together reach.
LEAST = {"lists": 4_000, "holds": 60, "fails": 60, "fails at the base": 15, "hangs": 20, "twice": 8, "once": 15, "nothing hangs": 15,
         "within": 25, "soon": 5, "not soon": 5, "down": 25, "waited": 25,
         "bounded lists": 15, "ended early": 25, "finished": 40, "unfinished": 15,
         "no longer lists": 6, "no ask": 5, "an answer that isn't ok": 40, "twice the same event": 5}
KEYS.update({
    "live search": "lists ?steps ?down finished",
    "live verdict": "ask holds ?events ?report",
    "live found": "time nodes applications open",
})

Test = tuple[str, Optional[str]]


# ---- What is told of live nodes


@dataclass(frozen=True)
class Facts:
    """What a report tells: the time, which nodes are up and how many aren't, where what runs, when timers are due, and whether something
    hangs or a call is open."""
    now: int
    up: frozenset[str]
    not_up: int
    running: frozenset[tuple[str, str]]
    dues: tuple[int, ...]
    hangs: bool

    def ms_to(self, due: int) -> int:
        """How long it takes until a timer is due."""
        return max(1, due - self.now)


def facts_of(lines: Sequence[str]) -> Facts:
    """The facts of a report's lines, from `now` on."""
    modes, running, dues, hangs, now, node = {}, set(), [], False, 0, ""
    for line in lines:
        told = line.split()
        if told[0] == "now":
            now = int(told[1])
        elif told[0] == "node":
            node, modes[told[1]] = told[1], told[2]
        elif line.startswith("  running "):
            running.add((told[1], node))
        elif line.startswith("  timer "):
            dues.append(int(told[-1]))
        hangs = hangs or line.startswith(("  blocked ", "open "))
    up = frozenset(name for name, mode in modes.items() if mode == "up")
    return Facts(now, up, len(modes) - len(up), frozenset(running), tuple(dues), hangs)


@dataclass
class Stand:
    """Live nodes behind a list of events, and what is told of them, from `now` on."""
    events: tuple[str, ...]
    lines: list[str]
    facts: Facts = field(init=False)

    def __post_init__(self) -> None:
        self.facts = facts_of(self.lines)

    def behind(self, event: str) -> Optional["Stand"]:
        """Those behind an event more, if it is carried out."""
        raise NotImplementedError


@dataclass
class ModelStand(Stand):
    """Live nodes by the model, and what the last event was answered."""
    state: Rehearsal
    answer: str = "ok"

    def behind(self, event: str) -> Optional[Stand]:
        if self.state.refusal(event.split()) is not None:
            return None
        state = self.state.copy()
        answer = state.do(event.split())[0]
        return ModelStand((*self.events, event), report_of(state)[1:], state, answer)


@dataclass
class RunStand(Stand):
    """Live nodes by the answers of `run --rules otp25 --json` to the base and the events, in an order of messages."""
    program: str
    options: list[str]
    base: str
    steps: int

    def behind(self, event: str) -> Optional[Stand]:
        later = run_stand(self.program, self.options, self.base, (*self.events, event))
        return later if later.steps > self.steps else None


def run_stand(program: str, options: list[str], base: str, events: tuple[str, ...]) -> RunStand:
    """The live nodes behind these events by a run: a step that isn't made isn't counted."""
    done = run(program, [*RUN, "--json", *options], input=(base + "".join(f"{event}\n" for event in (*events, "show"))).encode())
    told = json.loads(done.stdout.decode().splitlines()[-1])["report"]
    return RunStand(events, found_lines({key: told[key] for key in KEYS["live found"].split()}), program, options, base, told["steps"])


# ---- A search


class Question:
    """A line `ask`: whether it is asked of all live nodes, what has to be so, and how long one may wait."""

    def __init__(self, line: str):
        told = line.split()[1:]
        self.within = int(told[-1]) if told[-2:-1] == ["within"] else None
        told = told[:-2] if self.within is not None else told
        self.always = told[0] == "always" or self.within is not None
        told = told[1:] if told[0] == "always" else told
        self.app, self.what, self.down = (None, "nothing hangs", []) if told == ["nothing", "hangs"] else (told[1], told[2], told[5:])
        self.always = self.always or self.what != "running"

    def is_met(self, facts: Facts) -> bool:
        """Whether it is so at once."""
        if self.what == "nothing hangs":
            return not facts.hangs
        if self.down and not facts.up.intersection(self.down):
            return True
        count = sum(app == self.app for app, _ in facts.running)
        return count <= 1 if self.what == "once" else count > 0

    def is_met_soon(self, stand: Stand) -> bool:
        """Whether it is so where one of the timers is due that are told, within the time."""
        return any(self.is_met_by(stand, ms) for ms in map(stand.facts.ms_to, stand.facts.dues) if ms <= (self.within or 0))

    def is_met_by(self, stand: Stand, ms: int) -> bool:
        """Whether it is so where so much time has passed."""
        later = stand.behind(f"tick {ms}")
        return self.is_met((later or stand).facts)

    def holds(self, stand: Stand) -> bool:
        """Whether it holds of live nodes."""
        return not self.always and bool(stand.facts.dues) or self.is_met(stand.facts) or self.within is not None and self.is_met_soon(stand)


def each_move(cluster: Cluster, pattern: str) -> list[str]:
    """The moves of a line `may`: with each node, and each application, in place of a `*`."""
    told = pattern.split()
    kinds = [cluster.apps] if told[0] in ("start_all", "stop_all") else [cluster.nodes, cluster.apps]
    found = [told]
    for place, names in enumerate(kinds, 1):
        if place < len(told) and told[place] == "*":
            found = [[*line[:place], name, *line[place + 1:]] for line in found for name in names]
    return [" ".join(line) for line in found]


@dataclass
class Search:
    """A search: its cluster, its base, what may come, the bounds, what is asked, and how many lists may be tried."""
    cluster: Cluster
    base: list[str]
    may: list[str]
    asks: list[str]
    steps: Optional[int]
    down: Optional[int]
    most: int

    @property
    def text(self) -> str:
        """Its input."""
        return self.base_text + "".join(f"{line}\n" for line in self.lines)

    @property
    def base_text(self) -> str:
        """The input up to the end of the base."""
        return f"{self.cluster.text}===\n" + "".join(f"{line}\n" for line in self.base)

    @property
    def lines(self) -> list[str]:
        """The lines behind the base."""
        bounds = [f"{word} {bound}" for word, bound in (("steps", self.steps), ("down", self.down)) if bound is not None]
        return [*(f"may {pattern}" for pattern in self.may), *bounds, *self.asks]


class Found:
    """What is found behind live nodes: how many lists were tried, of which lengths all were, and of each ask the first list behind which it
    doesn't hold."""

    def __init__(self, search: Search, base: Stand):
        self.search, self.questions = search, list(map(Question, search.asks))
        self.moves = [move for pattern in search.may for move in each_move(search.cluster, pattern)]
        self.down = len(search.cluster.nodes) if search.down is None else search.down
        self.steps = MOST_STEPS if search.steps is None else search.steps
        self.firsts: list[Optional[Stand]] = [None for _ in self.questions]
        self.tried: list[Stand] = []
        self.covered = self.look(base)
        self.is_unfinished = self.covered is not None and self.covered < self.steps and None in self.firsts
        self.status = 9 if any(self.firsts) else 10 if self.is_unfinished else 0

    @property
    def is_over(self) -> bool:
        """Whether no list more is tried."""
        return bool(self.tried) and (len(self.tried) >= self.search.most or None not in self.firsts)

    def look(self, base: Stand) -> Optional[int]:
        """Tries the lists; up to how many events all lists were tried, or None where they all were."""
        level: Iterable[Stand] = [base]
        for length in range(min(self.steps, LONGEST) + 1):
            begun = len(self.tried)
            for stand in level:
                self.take(stand)
                if self.is_over:
                    return max(0, length - 1)
            if len(self.tried) == begun:
                return None
            level = self.longer(self.tried[begun:])
        return min(self.steps, LONGEST)

    def take(self, stand: Stand) -> None:
        """Tries a list."""
        self.tried.append(stand)
        self.firsts = [first or (None if question.holds(stand) else stand) for question, first in zip(self.questions, self.firsts)]

    def longer(self, stands: list[Stand]) -> Iterator[Stand]:
        """The lists that are longer by one event than these."""
        for stand in stands:
            for move in self.moves:
                later = self.after(stand, move)
                if later is not None and later.facts.not_up <= self.down:
                    yield later

    def after(self, stand: Stand, move: str) -> Optional[Stand]:
        """The live nodes behind a move, if it is an event there and is carried out."""
        if move != "wait":
            return stand.behind(move)
        return stand.behind(f"tick {stand.facts.ms_to(min(stand.facts.dues))}") if stand.facts.dues else None

    @property
    def head(self) -> str:
        """The first line."""
        steps = "" if self.covered is None else f" up to {self.covered} steps"
        down = f" up to {self.down} down" if self.down < len(self.search.cluster.nodes) else ""
        return f"explored {len(self.tried)} lists{steps}{down}"

    @property
    def told(self) -> list[list[str]]:
        """What is told: a block of lines for the bounds, for each ask, and for the end."""
        asked = [["holds"] if first is None else [f"fails in {len(first.events)}", *first.events, *first.lines] for first in self.firsts]
        return [[self.head], *asked, *([["unfinished"]] if self.is_unfinished else [])]


def by_model(search: Search) -> Found:
    """What is found by the model, whose messages arrive in the order in which they are sent."""
    model = Model(cluster_of(search.cluster.text))
    for line in search.base:
        model.do(line.split())
    state = model.states[model.place]
    return Found(search, ModelStand((), report_of(state)[1:], state))


# ---- Random searches


def small_cluster(chance: random.Random) -> Cluster:
    """Two or three nodes, and one or two applications, one of which may be local: most of them are booted at each node, or few are."""
    nodes = [f"n{number}@lab" for number in range(1, chance.choice([2, 2, 3]) + 1)]
    spread = ["d1", "d2"][:chance.choice([1, 1, 2])]
    apps = spread + ["l1"] * (len(spread) == 1 and chance.random() < 0.4)
    spreads = {app: spread_of(chance, nodes, chance.choice([1, 2, 2, len(nodes)])) for app in spread}
    spreads = {app: Spread(chance.choice([0, 1_000, 2_000, 2_000, 2_000]), one.groups) for app, one in spreads.items()}
    cluster = Cluster(chance.choice([None, 2, 2]), nodes, apps, spreads, nodes, chance.choice([1_000, 1_000, 3_000, 3_000, "infinity"]))
    (complete_lists if chance.random() < 0.8 else incomplete_lists)(chance, cluster)
    booted = chance.choice([0.2, 1, 1])
    for node in nodes:
        able = [app for app in apps if app not in spreads or node in spreads[app].nodes]
        cluster.boot[node] = [(app, chance.choice(TYPES)) for app in able if chance.random() < booted]
        forbidden = {app: False for app in able if chance.random() < 0.1}
        if forbidden:
            cluster.permissions[node] = forbidden
    if len(apps) > 1 and chance.random() < 0.2:
        cluster.needs[apps[1]] = [apps[0]]
    return cluster


def base_of(chance: random.Random, cluster: Cluster) -> list[str]:
    """Most nodes boot, time may pass, and some applications are started."""
    lines = [f"boot {node}" for node in chance.sample(cluster.nodes, len(cluster.nodes)) if chance.random() < 0.92]
    lines += ["tick 4000"] * (chance.random() < 0.6)
    started = chance.choice([0, 0, 0.3, 1])
    lines += [f"start {node} {app} {chance.choice(TYPES)}" for app in cluster.apps for node in cluster.nodes if chance.random() < started]
    return lines + [chance.choice(["undo", "show", "undo_all", "# a comment"])] * (chance.random() < 0.15)


def ask_of(chance: random.Random, cluster: Cluster) -> str:
    """A question."""
    line = "ask always" if chance.random() < 0.3 else "ask"
    kind = chance.choice(["nothing hangs", "once", "running", "running"])
    line += " nothing hangs" if kind == "nothing hangs" else f" app {chance.choice(cluster.apps)} {kind}"
    if kind != "nothing hangs" and chance.random() < 0.4:
        line += " or down " + " ".join(chance.sample(cluster.nodes, chance.randint(1, len(cluster.nodes))))
    if chance.random() < 0.35:
        line += f" within {chance.choice([0, 999, 1_000, 1_999, 2_000, 6_000])}"
    return line


def losses(chance: random.Random) -> Search:
    """Nodes of a running cluster are lost, and what runs there has to run again soon."""
    cluster, least = small_cluster(chance), chance.choice([1, 2, 2])
    while len(cluster.spreads) < least or any(spread.timeout == 0 or len(spread.nodes) < 2 for spread in cluster.spreads.values()):
        cluster = small_cluster(chance)
    complete_lists(chance, cluster)
    cluster.wait = 1_000
    base = [*(f"boot {node}" for node in cluster.nodes), *(f"start_all {app} permanent" for app in cluster.spreads)]
    may = chance.choice([["crash *", "wait"], ["wait", "crash *", "boot *"], ["wait", "crash *", "start_all * transient"]])
    asks = [f"ask app {app} {state} within {chance.choice([999, 1_000, 1_999, 2_000])}"
            for app in cluster.spreads for state in ("running", "once")]
    return Search(cluster, base, may, [*asks, "ask nothing hangs"], chance.randint(2, 4), chance.choice([1, 1, None]), MOST_LISTS)


def search_of(number: int, kind: str = "", most: int = MOST_LISTS) -> Search:
    """The random search of a number."""
    chance = random.Random(f"live explore {kind}{number}")
    if not kind and chance.random() < 0.2:
        return losses(chance)
    cluster = small_cluster(chance)
    may = [pattern.format(node=chance.choice(cluster.nodes), app=chance.choice(cluster.apps))
           for pattern in chance.sample(PATTERNS, chance.randint(3, 6))]
    steps: Optional[int] = chance.randint(1, 3)
    if chance.random() < 0.2:
        # Nodes that end don't begin again, so that lists have an end.
        may = chance.sample(["crash *", *(f"crash {node}" for node in cluster.nodes)], chance.randint(1, 2))
        steps = None
    down = chance.randint(0, len(cluster.nodes)) if chance.random() < 0.35 else None
    asks = [ask_of(chance, cluster) for _ in range(chance.choice([0, 1, 1, 2, 2, 2, 3, 3, 3, 3]))]
    bound = chance.choice([1, 7, 30, most, most, most, most, most])
    return Search(cluster, base_of(chance, cluster), may, asks, steps, down, min(most, bound))


# ---- Comparing


def blocks_of(lines: list[str]) -> list[list[str]]:
    """The lines of what was found: a block for the bounds, for each ask, and for the end."""
    found: list[list[str]] = []
    for line in lines:
        if line.startswith(("explored ", "holds", "fails in ", "unfinished")):
            found.append([])
        found[-1].append(line)
    return found


def told_of(program: str, search: Search, status: int, options: list[str]) -> tuple[Optional[str], list[list[str]]]:
    """What is wrong with the end of a search or with what its base is answered, and what was found, in blocks."""
    done = run(program, [*EXPLORE, *options], input=search.text.encode())
    alone = run(program, [*RUN, *options_of_run(options)], input=search.base_text.encode())
    wrong = fault_of(done, status, None)
    if wrong is None and not done.stdout.startswith(alone.stdout):
        wrong = "its base is answered otherwise than by `run`"
    if wrong is not None:
        return f"{wrong}: {done.stdout[-300:]!r}", []
    return None, blocks_of(done.stdout[len(alone.stdout):].decode().splitlines())


def options_of_run(options: list[str]) -> list[str]:
    """Those of the options that `run` takes: the order of messages."""
    return options[options.index("--pick"):][:2] if "--pick" in options else []


def difference(program: str, search: Search, found: Found, options: list[str]) -> Optional[str]:
    """Where the program and a search here part."""
    wrong, told = told_of(program, search, found.status, options)
    if wrong is not None:
        return wrong
    for number, (owed, one) in enumerate(zip(found.told, told)):
        if in_parts(owed) != in_parts(one):
            return f"block {number}: owed is {owed}, the program tells {one}"
    return None if len(told) == len(found.told) else f"{len(told)} blocks in place of {len(found.told)}"


def replay_fault(program: str, search: Search, options: list[str]) -> Optional[str]:
    """What is wrong with the reports of a search: `run` shows each behind the base and the events, byte for byte."""
    done = run(program, [*EXPLORE, *options], input=search.text.encode())
    alone = run(program, [*RUN, *options_of_run(options)], input=search.base_text.encode())
    for block in blocks_of(done.stdout[len(alone.stdout):].decode().splitlines()):
        count = int(block[0].split()[2]) if block[0].startswith("fails in ") else 0
        script = search.base_text + "".join(f"{line}\n" for line in [*block[1:1 + count], "show"])
        report = "ok\n" + "".join(f"{line}\n" for line in block[1 + count:])
        shown = run(program, [*RUN, *options_of_run(options)], input=script.encode()).stdout.decode()
        if block[0].startswith("fails in ") and not shown.endswith(report):
            return f"behind {block[1:1 + count]} `run` shows {shown[-len(report):]!r} in place of {report!r}"
    return None


# ---- JSON


def found_lines(told: dict[str, Any]) -> list[str]:
    """The lines of a report without its place in a rehearsal, from its object."""
    has_keys("live found", told)
    return (words("now", told["time"]) + "".join(map(node_lines, told["nodes"])) + "".join(map(places_line, told["applications"]))
            + "".join(words("open", call_words(has_keys("call", call))) for call in told["open"])).splitlines()


def verdict_text(told: dict[str, Any]) -> str:
    """What is told of an ask, from its line of JSON."""
    has_keys("live verdict", told)
    if told["holds"]:
        assert "events" not in told and "report" not in told, f"what holds has {list(told)}"
        return "holds\n"
    return "".join(f"{line}\n" for line in [f"fails in {len(told['events'])}", *told["events"], *found_lines(told["report"])])


def search_text(lines: list[dict[str, Any]]) -> str:
    """What is told of a search, from its lines of JSON."""
    head, *asked = lines
    has_keys("live search", head)
    assert [told["ask"] for told in asked] == list(range(1, len(asked) + 1)), "asks aren't counted from 1"
    steps = f" up to {head['steps']} steps" if "steps" in head else ""
    down = f" up to {head['down']} down" if "down" in head else ""
    end = "" if head["finished"] else "unfinished\n"
    return f"explored {head['lists']} lists{steps}{down}\n" + "".join(map(verdict_text, asked)) + end


def json_fault(program: str, search: Search, options: list[str]) -> Optional[str]:
    """What is wrong with the lines of JSON: they tell what the other output tells, and end alike."""
    plain, ended = (run(program, [*EXPLORE, *options, *more], input=search.text.encode()) for more in ([], ["--json"]))
    try:
        lines = [parsed(line) for line in ended.stdout.decode().splitlines()]
        assert (ended.returncode, ended.stderr) == (plain.returncode, b""), f"status {ended.returncode}: {ended.stderr!r}"
        check_text(lines[0])
        begin = next(place for place, line in enumerate(lines) if "lists" in line)
        shown = "".join(map(answer_text, lines[1:begin])) + search_text(lines[begin:])
        assert shown == plain.stdout.decode(), f"{shown[-300:]!r} in place of {plain.stdout[-300:]!r}"
        return None
    except (AssertionError, ValueError, KeyError, IndexError, StopIteration) as fault:
        return f"{type(fault).__name__}: {fault}"


# ---- The tests


def reached_by(found: Found) -> collections.Counter[str]:
    """What a search reaches."""
    reached: collections.Counter[str] = collections.Counter()
    search, pairs = found.search, list(zip(found.questions, found.firsts))
    reached["lists"] = len(found.tried)
    reached["holds"] = found.firsts.count(None)
    reached["fails"] = sum(first is not None and bool(first.events) for first in found.firsts)
    reached["fails at the base"] = sum(first is not None and not first.events for first in found.firsts)
    reached["hangs"] = any(stand.facts.hangs for stand in found.tried[1:])
    reached["twice"] = sum(first is not None and question.what == "once" for question, first in pairs)
    for kind in ("once", "nothing hangs"):
        reached[kind] = sum(first is None and question.what == kind and len(found.tried) > 3 for question, first in pairs)
    reached["within"] = sum(question.within is not None for question in found.questions)
    reached["soon"] = sum(question.within is not None and first is None and not all(question.is_met(stand.facts) for stand in found.tried)
                          for question, first in pairs)
    reached["not soon"] = sum(question.within is not None and first is not None and bool(first.facts.dues) for question, first in pairs)
    reached["down"] = found.down < len(search.cluster.nodes) and len(found.tried) > 1
    reached["waited"] = "wait" in found.moves and any(stand.facts.dues for stand in found.tried) and len(found.tried) > 3
    reached["bounded lists"] = len(found.tried) >= search.most and found.is_unfinished
    reached["ended early"] = None not in found.firsts and bool(found.firsts) and found.covered is not None and found.covered < found.steps
    reached["finished"] = bool(found.firsts) and found.covered == found.steps
    reached["unfinished"] = found.is_unfinished
    reached["no longer lists"] = found.covered is None
    reached["no ask"] = not found.questions
    reached["an answer that isn't ok"] = sum(isinstance(stand, ModelStand) and stand.answer != "ok" for stand in found.tried)
    reached["twice the same event"] = any(found.moves.count(move) > 1 for move in found.moves) and len(found.tried) > 1
    return reached


def explored_live(program: str, numbers: Iterable[int]) -> Iterator[Test]:
    """Each search of these numbers finds what the model's search finds, in text and in JSON, and `run` shows the same. Returns what they
    reach."""
    reached: collections.Counter[str] = collections.Counter()
    for number in numbers:
        search = search_of(number)
        found = by_model(search)
        # A bound that isn't met is that of no option.
        options = ["--states", str(search.most)] if len(found.tried) >= search.most or number % 2 else []
        options += ["--memory", "1"] * (number % 5 == 0) + ["--workers", "1"] * (number % 7 == 0)
        yield f"random search {number} on live nodes", difference(program, search, found, options)
        yield f"reports of random search {number} on live nodes", replay_fault(program, search, options)
        yield f"JSON of random search {number} on live nodes", json_fault(program, search, options)
        reached += reached_by(found)
    return reached


def in_orders(program: str, numbers: Iterable[int]) -> Iterator[Test]:
    """Small searches in other orders of messages, beside the same over the answers of `run`."""
    for number in numbers:
        search, options = search_of(number, "in orders ", FEW_LISTS), ["--pick", PICKS[number % len(PICKS)]]
        found = Found(search, run_stand(program, options, search.base_text, ()))
        options += ["--states", str(search.most)]
        yield f"random search {number} on live nodes, in another order", difference(program, search, found, options)
        yield f"reports of random search {number} on live nodes, in another order", replay_fault(program, search, options)
        yield f"JSON of random search {number} on live nodes, in another order", json_fault(program, search, options)


def reaches_all(counters: list[collections.Counter[str]]) -> Iterator[Test]:
    """Together the searches reach all that they are made for."""
    reached = sum(counters, collections.Counter())
    for what, least in LEAST.items():
        yield f"random searches on live nodes: {what}", None if reached[what] >= least else f"{reached[what]} of {least}"


ALONE = b"{node, a@x, []}. {node, b@x, []}. {application, web, []}.\n===\n"


def longest_lists(program: str) -> Iterator[Test]:
    """Lists have at most 255 events. Within a bound of so many the search ends finished, else unfinished."""
    for line, steps, is_whole in ((b"", 255, False), (b"steps 256\n", 255, False), (b"steps 255\n", 255, True), (b"steps 254\n", 254, True),
                                  (b"steps 0\n", 0, True)):
        done = run(program, EXPLORE, input=ALONE + b"may tick 1\n" + line + b"ask nothing hangs\n")
        owed = b"explored %d lists up to %d steps\nholds\n" % (steps + 1, steps) + b"unfinished\n" * (not is_whole)
        yield f"lists of {steps} events on live nodes, {line!r}", fault_of(done, 0 if is_whole else 10, owed)


def nothing_to_try(program: str) -> Iterator[Test]:
    """Where nothing is asked one list is tried, and where nothing may come, too."""
    for lines, owed in ((b"", b"explored 1 lists up to 0 steps\n"), (b"may boot *\nsteps 2\n", b"explored 1 lists up to 0 steps\n"),
                        (b"ask nothing hangs\n", b"explored 1 lists\nholds\n"),
                        (b"may crash *\nask nothing hangs\n", b"explored 1 lists\nholds\n"),
                        (b"may wait\ndown 0\nask app web once\n", b"explored 1 lists up to 0 down\nholds\n")):
        yield f"a search on live nodes of {lines!r}", fault_of(run(program, EXPLORE, input=ALONE + lines), 0, owed)


def new_asks(program: str) -> Iterator[Test]:
    """The lines of the new asks are read by either rules, and others like them aren't."""
    good = ("ask nothing hangs", "ask always nothing hangs", "ask nothing hangs within 5", "ask app web once", "ask always app web once",
            "ask app web once or down a@x b@x", "ask app web once within 0", "ask app web once or down a@x within 7")
    bad = ("ask nothing", "ask nothing hang", "ask nothing hangs or down a@x", "ask nothing hangs within", "ask hangs", "ask app web twice",
           "ask app once", "ask app none once", "ask app web once or down", "ask app web once or down c@x", "ask app web running once",
           "ask once app web")
    for options in ([], ["--rules", "otp25"]):
        for line in good:
            done = run(program, ["explore", *options], input=ALONE + f"steps 0\n{line}\n".encode())
            is_so = done.returncode == 0 and done.stdout.endswith(b"\nholds\n")
            yield f"{line} {options}", None if is_so else f"status {done.returncode}: {done.stdout!r}"
        for line in bad:
            done = run(program, ["explore", *options], input=ALONE + f"steps 0\n{line}\n".encode())
            yield f"{line} {options}", fault_of(done, 3, b"bad line 2\n")


def by_the_manual(program: str, numbers: Iterable[int]) -> Iterator[Test]:
    """By the manual's rules nothing ever hangs in the same clusters, and what is distributed runs at one node at most."""
    for number in numbers:
        search = search_of(number)
        asks = ["ask nothing hangs", *(f"ask app {app} once" for app in search.cluster.spreads)]
        text = search.base_text + "".join(f"{line}\n" for line in [line for line in search.lines if not line.startswith("ask ")] + asks)
        done = run(program, ["explore", "--states", "200"], input=text.encode())
        verdicts = [line for line in done.stdout.decode().splitlines() if line == "holds" or line.startswith("fails in ")]
        is_so = done.returncode in (0, 10) and verdicts == ["holds"] * len(asks)
        yield f"random search {number} by the manual's rules", None if is_so else f"status {done.returncode}: {verdicts}"


def the_example(program: str) -> Iterator[Test]:
    """What examples/live-failures.txt says of the manual's rules: by them no such list of events does what it asks about."""
    done = run(program, ["explore"], input=read(os.path.join(TOP, "examples", "live-failures.txt")))
    is_so = done.returncode == 0 and done.stdout.endswith(b" down\nholds\nholds\nholds\n")
    yield "examples/live-failures.txt by the manual's rules", None if is_so else f"status {done.returncode}: {done.stdout!r}"


def refused_words(program: str) -> Iterator[Test]:
    """More workers than one don't go with live nodes."""
    text = b"--workers doesn't go with explore --rules otp25, which tries one list after the other"
    for options in (["--workers", "2"], ["--json", "--workers", "16"]):
        done = run(program, [*EXPLORE, *options], input=ALONE)
        wrong = fault_of(done, 1, b"") or (None if text in done.stderr else f"standard error: {done.stderr!r}")
        yield f"explore on live nodes {options}", wrong


SHARES = [range(begin, begin + AT_ONCE) for begin in range(0, SEARCHES, AT_ONCE)]
TESTS = (Group(explored_live, SHARES, is_long=True, end=reaches_all),
         Group(in_orders, [range(begin, begin + IN_ORDERS_AT_ONCE) for begin in range(0, IN_ORDERS, IN_ORDERS_AT_ONCE)]),
         Group(by_the_manual, SHARES[:3]), longest_lists, nothing_to_try, new_asks, the_example, refused_words)
