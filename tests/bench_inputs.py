#!/usr/bin/env python3
"""The inputs of the benchmark's crate (crates/rh_bench), made apart from it: bench_inputs.py JOB SEED COUNT SIZE PROGRAM

Makes the inputs that `rh_bench JOB SEED COUNT SIZE` makes, gives each to PROGRAM on the command line, and prints the lines that
rh_bench prints. crates/rh_bench/stdout is what this prints, for the words of crates/rh_bench/args, with the program that was shipped
before any change for speed, but for what lint tells since then (docs/PERF.md). With a folder as a sixth word it leaves the inputs there.
"""
import struct
import subprocess
import sys
from pathlib import Path
from typing import Iterator, NamedTuple, Optional

MASK = (1 << 64) - 1
MOST_DOWN = 8
HUBS = 4


class Chance:
    """SplitMix64."""

    def __init__(self, seed: int):
        self.state = seed & MASK

    def below(self, count: int) -> int:
        self.state = (self.state + 0x9e3779b97f4a7c15) & MASK
        word = ((self.state ^ self.state >> 30) * 0xbf58476d1ce4e5b9) & MASK
        word = ((word ^ word >> 27) * 0x94d049bb133111eb) & MASK
        return (word ^ word >> 31) % count

    def comes(self, percent: int) -> bool:
        return self.below(100) < percent


class Shape(NamedTuple):
    nodes: int
    apps: int
    locals: int
    groups: list[int]
    second: bool = False
    waits: bool = False
    delays: bool = False


FEW = Shape(6, 3, 0, [1, 2, 1], waits=True)
WAITING = Shape(6, 5, 0, [1, 2, 1], waits=True, delays=True)
MIDDLE = Shape(12, 16, 0, [1, 2, 1])
PLAIN = Shape(32, 64, 0, [2] * 4)
MIXED = Shape(32, 60, 4, [2] * 4)
LARGEST = Shape(64, 128, 0, [4] * 8, second=True)
FIVE = Shape(5, 5, 40, [1, 2, 2])
SIXTEEN = Shape(16, 5, 40, [1, 2, 2])


class Made:
    """A cluster like this."""

    def __init__(self, chance: Chance, shape: Shape):
        self.nodes = [f"n{number}@lab" for number in range(shape.nodes)]
        self.apps = [f"a{number}" for number in range(shape.apps)]
        self.locals = [f"l{number}" for number in range(shape.locals)]
        self.lists = []
        for _ in self.apps:
            start = chance.below(shape.nodes)
            self.lists.append([(start + place) % shape.nodes for place in range(sum(shape.groups))])
        entries = ", ".join(self.entry(chance, shape, number) for number in range(shape.apps))
        text = "{profile, 2}.\n" if shape.second else ""
        for number, name in enumerate(self.nodes):
            wait = ""
            if shape.waits:
                after = self.nodes[(number + 1) % shape.nodes]
                wait = f", {{sync_nodes_mandatory, [{after}]}}, {{sync_nodes_timeout, 3000}}"
            listed = [app for app, nodes in zip(self.apps, self.lists) if number in nodes]
            boot = ", ".join(f"{{{app}, temporary}}" for app in self.locals + listed)
            text += f"{{node, {name}, [{{kernel, [{{distributed, [{entries}]}}{wait}]}}, {{rehearse, [{{boot, [{boot}]}}]}}]}}.\n"
        for number, name in enumerate(self.locals):
            needs = "".join(f", {need}" for need in self.needs(chance, number))
            text += f"{{application, {name}, [{{applications, [kernel, stdlib{needs}]}}]}}.\n"
        for name in self.apps:
            need = f", {self.locals[chance.below(min(shape.locals, HUBS))]}" if shape.locals and chance.comes(33) else ""
            text += f"{{application, {name}, [{{applications, [kernel, stdlib{need}]}}]}}.\n"
        self.text = text + "===\n" + "".join(f"boot {name}\n" for name in self.nodes)

    def entry(self, chance: Chance, shape: Shape, number: int) -> str:
        timeout = (500, 1000, 3000)[chance.below(3)] if shape.delays else (0, 500, 1000, 3000)[chance.below(4)]
        rest, groups = [self.nodes[node] for node in self.lists[number]], []
        for count in shape.groups:
            group, rest = rest[:count], rest[count:]
            groups.append("{" + ", ".join(group) + "}" if count > 1 else group[0])
        return f"{{{self.apps[number]}, {timeout}, [{', '.join(groups)}]}}"

    def needs(self, chance: Chance, number: int) -> list[str]:
        """What a local application needs of the others."""
        if number <= HUBS:
            return []
        before = [self.locals[number - 1]]
        kind = chance.below(8)
        if kind == 0:
            return []
        if kind <= 3:
            return before
        if kind == 4:
            return [self.apps[chance.below(len(self.apps))]]
        star = [self.locals[chance.below(HUBS)]]
        return star + before if kind == 5 else star


def taken(chance: Chance, numbers: list[int]) -> int:
    """One of these, in whose place the last one comes."""
    place = chance.below(len(numbers))
    number = numbers[place]
    last = numbers.pop()
    if place < len(numbers):
        numbers[place] = last
    return number


class Stage:
    """Which nodes are up, and which are down."""

    def __init__(self, made: Made):
        self.up, self.down = list(range(len(made.nodes))), []

    def failure(self, chance: Chance, made: Made) -> str:
        kind = chance.below(3)
        if kind == 0 and self.up and len(self.down) < MOST_DOWN:
            self.down.append(taken(chance, self.up))
            return f"crash {made.nodes[self.down[-1]]}\n"
        if kind == 1 and self.down:
            self.up.append(taken(chance, self.down))
            return f"boot {made.nodes[self.up[-1]]}\n"
        return f"tick {chance.below(700)}\n"


def by_hand(chance: Chance, made: Made) -> str:
    kind = chance.below(8)
    if kind >= 6:
        app = made.apps[chance.below(len(made.apps))]
        return f"stop_all {app}\n" if kind == 6 else f"start_all {app} temporary\n"
    app_number = chance.below(len(made.lists))
    nodes = made.lists[app_number]
    node, app = made.nodes[nodes[chance.below(len(nodes))]], made.apps[app_number]
    if kind == 5:
        return f"takeover {node} {app} temporary\n"
    return f"permit {node} {app} {'false' if kind < 2 else 'true'}\n"


def steps(chance: Chance, made: Made, count: int) -> str:
    stage = Stage(made)
    return "".join(by_hand(chance, made) if chance.comes(12) else stage.failure(chance, made) for _ in range(count))


def looks(chance: Chance, made: Made, count: int) -> str:
    stage = Stage(made)
    return "".join(stage.failure(chance, made) + ("show\n" if number % 50 == 49 else "") for number in range(count))


def plans(chance: Chance, made: Made, count: int) -> str:
    lines = []
    for number in range(count):
        lines.append(f"plan p{number}\n")
        stage = Stage(made)
        lines += [stage.failure(chance, made) for _ in range(10 + chance.below(21))]
    return "".join(lines)


def listed(chance: Chance, made: Made) -> tuple[str, list[str]]:
    """A distributed application, and the nodes of its list."""
    number = chance.below(len(made.apps))
    return made.apps[number], [made.nodes[node] for node in made.lists[number]]


def failover(chance: Chance, made: Made) -> list[str]:
    """The first node of a list ends and comes back, or the first two."""
    gone = listed(chance, made)[1][:1 + chance.below(2)]
    return [f"crash {node}" for node in gone] + [f"tick {1 + chance.below(4000)}"] + [f"boot {node}" for node in gone]


def change(chance: Chance, made: Made) -> list[str]:
    """What an operator changes, until it is as it was."""
    kind = chance.below(4)
    if kind == 0:
        number, app = chance.below(len(made.nodes)), made.locals[chance.below(len(made.locals))]
        node, after = made.nodes[number], made.nodes[(number + 1) % len(made.nodes)]
        return [f"permit {node} {app} false", f"permit {node} {app} true", f"permit {after} {app} true"]
    app, (first, *others) = listed(chance, made)
    if kind == 1:
        return [f"permit {first} {app} false", f"permit {first} {app} true", f"takeover {first} {app} temporary"]
    return [f"takeover {others[chance.below(len(others))]} {app} temporary", f"takeover {first} {app} temporary"]


def changes(chance: Chance, made: Made, count: int) -> str:
    return "".join(f"{line}\n" for _ in range(count) for line in change(chance, made))


def episodes(chance: Chance, made: Made, count: int) -> str:
    return "".join(f"{line}\n" for _ in range(count) for line in (failover if chance.comes(6) else change)(chance, made))


def episode_plans(chance: Chance, made: Made, count: int) -> str:
    return "".join(f"plan p{number}\n" + episodes(chance, made, 4 + chance.below(5)) for number in range(count))


def rounds(made: Made, count: int) -> str:
    return "".join(f"{('crash', 'boot')[number % 2]} {made.nodes[number // 2 % len(made.nodes)]}\n" for number in range(count))


def search(made: Made, down: int) -> str:
    return (f"may crash *\nmay boot *\nmay tick 1000\ndown {down}\nask app {made.apps[0]} running or down {made.nodes[0]}\n"
            f"ask always app {made.apps[0]} running\n")


def calls(job: str, chance: Chance, number: int, size: int) -> Iterator[tuple[str, list[str], Optional[str]]]:
    """Each call's name, its words and its input; no input is what the call before wrote."""
    large = MIXED if number % 2 else PLAIN
    if job == "every":
        for each in ("explore-few", "lint", "sweep", "run", "tell", "largest", "explore", "local"):
            yield from calls(each, chance, number, size)
    elif job in ("explore", "explore-few"):
        small = WAITING if job == "explore" else FEW
        for name, shape, down, states in (("explore", small, 6, size), ("explore more", MIDDLE, 3, size // 8)):
            made = Made(chance, shape)
            yield name, ["explore", "--states", str(states)], made.text + search(made, down)
    elif job == "lint":
        made = Made(chance, large)
        yield "lint", ["lint", "--all"], made.text + steps(chance, made, size)
    elif job == "sweep":
        made = Made(chance, large)
        yield "sweep", ["sweep", "--workers", "1"], made.text + plans(chance, made, size)
    elif job == "run":
        made = Made(chance, large)
        yield "run", ["run"], made.text + steps(chance, made, size) + "undo_all\nredo_all\n" * 4
    elif job == "tell":
        made = Made(chance, large)
        text = made.text + looks(chance, made, size)
        yield "story", ["story", "--whole"], text
        yield "verify", ["verify"], None
        yield "json", ["run", "--json"], text
    elif job == "local":
        shape = SIXTEEN if number % 2 else FIVE
        made = Made(chance, shape)
        yield "sweep", ["sweep", "--workers", "1"], made.text + episode_plans(chance, made, size // 4)
        made = Made(chance, shape)
        yield "run", ["run"], made.text + changes(chance, made, size)
        made = Made(chance, shape)
        yield "story", ["story", "--whole"], made.text + episodes(chance, made, size)
    else:
        yield from largest(chance, size)


def largest(chance: Chance, size: int) -> Iterator[tuple[str, list[str], Optional[str]]]:
    made = Made(chance, LARGEST)
    text = made.text + rounds(made, size)
    yield "check", ["check"], text
    yield "run", ["run", "--pick", "last"], text
    made = Made(chance, LARGEST)
    yield "run with looks", ["run"], made.text + looks(chance, made, size)
    made = Made(chance, LARGEST)
    yield "lint", ["lint", "--all"], made.text + steps(chance, made, size // 16)
    made = Made(chance, LARGEST)
    yield "explore", ["explore", "--states", str(size // 4)], made.text + search(made, 2)


def digest_of(data: bytes) -> int:
    """As crates/rh_bench/src/digest.rt says."""
    whole = len(data) // 8 * 8
    numbers = [number for number, in struct.iter_unpack("<Q", data[:whole])] + list(data[whole:])
    digest = 0xcbf29ce484222325
    for number in numbers:
        digest = (digest ^ number) * 0x100000001b3 & MASK
        digest ^= digest >> 32
    return digest


def main() -> None:
    if len(sys.argv) not in (6, 7):
        sys.exit(__doc__)
    job, seed, count, size, program = sys.argv[1], int(sys.argv[2]), int(sys.argv[3]), int(sys.argv[4]), sys.argv[5]
    folder = Path(sys.argv[6]) if len(sys.argv) == 7 else None
    for number in range(count):
        chance, written = Chance(seed * 1_000_003 + number), b""
        for place, (name, words, text) in enumerate(calls(job, chance, number, size)):
            data = written if text is None else text.encode()
            if folder:
                (folder / f"{job}-{number}-{place}.txt").write_bytes(data)
            done = subprocess.run([program, *words], input=data, stdout=subprocess.PIPE, stderr=subprocess.DEVNULL, check=False)
            written = done.stdout
            print(f"{name}: status {done.returncode}, {len(written)} bytes, digest {digest_of(written)}", flush=True)


if __name__ == "__main__":
    main()
