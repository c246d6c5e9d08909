"""Inputs of at most 16 MiB that are made to take long or much memory: texts() gives a subcommand with its words, what the input
is, and a function that makes it.

The clusters have 32 nodes, 64 applications and 256 platform names, the most that there can be in the first profile, or 64 nodes
and 128 applications, the most in the second. The scripts fill a trail or a log, or the 16 MiB.
"""
MIB = 1_048_576
MOST = 16 * MIB
TRAIL = 65_535
BARE = b"{node, a@x, []}.\n===\n"
NODES = [b"n%d" % number for number in range(32)]
APPS = [b"a%d" % number for number in range(64)]
SECOND = b"{profile, 2}.\n"
MORE_NODES = [b"n%d" % number for number in range(64)]
MORE_APPS = [b"a%d" % number for number in range(128)]
LONGEST = 255
# Of the 256 platform names these are there in any case.
PLATFORM = [b"kernel", b"stdlib"] + [b"p%d" % number for number in range(254)]


def filled(front, piece, back, size=MOST):
    """A text of nearly this size: the piece as often as it fits."""
    return front + piece * ((size - len(front) - len(back)) // len(piece)) + back


def listing(names):
    return b"[" + b", ".join(names) + b"]"


def section(piece, back):
    """One node with a section that is skipped."""
    return filled(b"{node, a@x, [{skipped, [", piece, back + b"]}]}.\n===\n")


def argument(piece, back, script):
    """An application with a long start argument, which is kept."""
    return filled(b"{node, a@x, []}. {application, p, [{mod, {m, [", piece, back + b"]}}]}.\n===\n" + script)


def tuples(piece, back):
    """The same of a tuple, so that each list in it is an outermost one."""
    return filled(b"{node, a@x, []}. {application, p, [{mod, {m, {", piece, back + b"}}}]}.\n")


def dense(count):
    """A list of so many atoms."""
    return b"[" + b",".join([b"a"] * count) + b"],"


def checks():
    """Texts for `check`, by what takes memory or time in them."""
    nest = b"[" * 60 + b"]" * 60 + b","
    yield "a list of 8 million atoms", lambda: section(b"a,", b"a")
    yield "4 million lists of one atom", lambda: section(b"[a],", b"a")
    yield "lists of 33 atoms", lambda: section(dense(33), b"a")
    yield "60 lists inside each other, again and again", lambda: section(nest, b"a")
    yield "64 lists inside each other that are never closed", lambda: filled(b"", b"[" * 64 + b"]" * 64 + b".\n", b"[" * 64)
    yield "16 million lists that are never closed", lambda: b"[" * MOST
    yield "one atom", lambda: section(b"a", b"")
    yield "one quoted atom of escapes", lambda: filled(b"{node, a@x, [{skipped, ['", b"\\n", b"']}]}.")
    yield "one text", lambda: filled(b"{node, a@x, [{skipped, [\"", b"t", b"\"]}]}.")
    yield "one comment", lambda: filled(b"{node, a@x, []}. %", b"c", b"")
    yield "16 million blanks", lambda: filled(b"{node, a@x, []}.", b" ", b"")
    yield "8 million comments", lambda: filled(b"{node, a@x, []}.\n", b"%\n", b"")
    yield "5 million terms", lambda: filled(b"", b"a.\n", b"")
    yield "one number of zeros", lambda: section(b"0", b"0")
    yield "a name of 16 MiB", lambda: filled(b"{node, '", b"q", b"', []}.")
    yield "2 million sections", lambda: filled(b"{node, a@x, [", b"{a,[]},", b"{a,[]}]}.")
    yield "a list of 2 million names", lambda: filled(
        b"{node, a@x, []}. {application, p, [{applications, [kernel", b",stdlib", b"]}]}.")
    yield "1.5 million platform names", lambda: b"{node, a@x, [{rehearse, [{platform, %s}]}]}." % listing(
        [b"p%d" % number for number in range(1_500_000)])
    yield "a start argument of lists of 33 atoms", lambda: argument(dense(33), b"a", b"")
    yield "a start argument of 8 million atoms", lambda: argument(b"a,", b"a", b"")
    # The argument stands inside five lists and tuples itself.
    yield "a start argument of 50 lists inside each other, again and again", lambda: argument(b"[" * 50 + b"]" * 50 + b",", b"a", b"")
    yield "a start argument of 5 million empty lists", lambda: tuples(b"[],", b"a")
    yield "a start argument of 4 million lists of one atom", lambda: tuples(b"[a],", b"a")
    yield "a start argument of lists of two atoms, each unlike the one before", lambda: tuples(b"[a,b],[a,c],", b"a")
    yield "64 start arguments of lists of 33 atoms", start_arguments
    yield "128 start arguments of lists of 33 atoms", lambda: SECOND + start_arguments(MORE_APPS)
    yield "64 nodes and 128 applications", lambda: everywhere_twice()


def start_arguments(apps=APPS):
    """As many start arguments as there can be, 16 MiB together."""
    each = [filled(b"{application, %s, [{mod, {m, [" % app, dense(33), b"a]}}]}.\n", MOST // len(apps) - 16) for app in apps]
    return b"{node, a@x, []}.\n" + b"".join(each)


def kept(words):
    """Start arguments in a cluster of which every run keeps a copy."""
    script = {"run": b"boot a@x\n", "sessions": b"8 boot a@x\n", "sweep": b"boot a@x\nplan p\ncrash a@x\n" * 1}[words.split()[0]]
    return lambda: argument(dense(33), b"a", script)


def everywhere(apps=APPS, nodes=NODES, timeout=0):
    """Every application may run at every node, the earlier ones first, each boots all of them, and each needs every platform
    name; its start phases are defined."""
    groups = listing(nodes)
    entries = listing([b"{%s, %d, %s}" % (app, timeout, groups) for app in apps])
    boot = listing([b"{%s, transient}" % app for app in apps])
    text = b"".join(b"{node, %s, [{kernel, [{distributed, %s}]}, {rehearse, [{boot, %s}, {platform, %s}]}]}.\n" % (
        node, entries, boot, listing(PLATFORM)) for node in nodes)
    keys = b"{applications, %s}, {start_phases, []}" % listing(PLATFORM)
    return text + b"".join(b"{application, %s, [%s]}.\n" % (app, keys) for app in apps) + b"===\n"


def everywhere_twice(apps=MORE_APPS, timeout=0):
    """The same in the second profile, with twice as many."""
    return SECOND + everywhere(apps, MORE_NODES, timeout)


def long_names(letter, count):
    return [b"%s%s%03d" % (letter, letter * (LONGEST - 4), number) for number in range(count)]


def boots(nodes=NODES):
    return [b"boot %s" % node for node in nodes]


def turns(count, nodes=NODES):
    """Crashes and boots of the node that all applications prefer, then of the next: each moves all of them."""
    lines = boots(nodes)
    for node in nodes:
        for _ in range(9_998):
            lines += [b"crash " + node, b"boot " + node]
            if len(lines) >= count:
                return lines[:count]
        lines += [b"crash " + node]
    raise ValueError("too few nodes")


def joined(lines):
    return b"\n".join(lines) + b"\n"


def chains(apps=APPS, nodes=NODES):
    """All applications are local and need every platform name. The last four nodes have them all, and there each needs the next
    one too, in the worst order; at the others they wait for the last platform name."""
    deps = [PLATFORM + [app] for app in apps[1:]] + [PLATFORM]
    boot = listing([b"{%s, temporary}" % app for app in apps])
    names = [listing(PLATFORM[2:-1])] * (len(nodes) - 4) + [listing(PLATFORM[2:])] * 4
    text = b"".join(b"{node, %s, [{rehearse, [{boot, %s}, {platform, %s}]}]}.\n" % (node, boot, has)
                    for node, has in zip(nodes, names))
    return text + b"".join(b"{application, %s, [{applications, %s}]}.\n" % (app, listing(needs))
                           for app, needs in zip(apps, deps)) + b"===\n"


def chain_turns(count, nodes=NODES):
    """The last four nodes boot and crash by turns, and each boot starts all applications there."""
    lines = boots(nodes[:-4])
    for node in nodes[-4:]:
        for _ in range(9_998):
            lines += [b"boot " + node, b"crash " + node]
            if len(lines) >= count:
                return lines[:count]
    raise ValueError("too few nodes")


def largest_report(front=b"", node_count=32, app_count=64):
    """Nodes at each of which applications wait that are forbidden, with names of 255 bytes."""
    nodes, apps = long_names(b"n", node_count), long_names(b"a", app_count)
    boot = listing([b"{%s, transient}" % app for app in apps])
    forbidden = listing([b"{%s, false}" % app for app in apps])
    text = front + b"".join(b"{node, %s, [{kernel, [{permissions, %s}]}, {rehearse, [{boot, %s}]}]}.\n" % (node, forbidden, boot)
                            for node in nodes)
    return text + b"".join(b"{application, %s, []}.\n" % app for app in apps) + b"===\n" + joined(boots(nodes))


def all_nodes(apps, nodes, count):
    """All nodes are up, and one application after the other stops at all of them and starts there again."""
    lines = boots(nodes)
    for turn in range((count - len(lines) + 1) // 2):
        app = apps[turn % len(apps)]
        lines += [b"stop_all " + app, b"start_all %s temporary" % app]
    return lines[:count]


def permissions(count):
    """All nodes of the second profile are up, and one application after the other leaves the first node, and is pulled back."""
    lines = boots(MORE_NODES)
    for turn in range((count - len(lines) + 1) // 2):
        app = MORE_APPS[turn % len(MORE_APPS)]
        lines += [b"permit n0 %s false" % app, b"permit n0 %s true" % app]
    return lines[:count]


def by_sessions(lines):
    """The lines, by eight sessions in turn."""
    return [b"%d %s" % (number % 8 + 1, line) for number, line in enumerate(lines)]


def runs():
    """Texts for `run`."""
    yield "one line", lambda: filled(BARE + b"#", b"c", b"")
    yield "one word", lambda: filled(BARE + b"boot ", b"c", b"")
    yield "8 million words in a line", lambda: filled(BARE + b"boot", b" a", b"")
    yield "16 million empty lines", lambda: filled(BARE, b"\n", b"")
    yield "a number of zeros", lambda: filled(BARE + b"tick ", b"0", b"")
    yield "a start argument of lists of 33 atoms", kept("run")
    yield "3 million times undo", lambda: filled(BARE, b"undo\n", b"")
    yield "3 million times show, of one node", lambda: filled(BARE, b"show\n", b"")
    yield "1,000 times show, of a report of 1 MiB", lambda: largest_report() + b"show\n" * 1_000
    yield "65,535 ticks", lambda: BARE + b"tick 1\n" * TRAIL
    yield "65,535 ticks, 800 thousand times undone and redone", lambda: filled(
        BARE + b"tick 1\n" * TRAIL, b"undo_all\nredo_all\n", b"")
    yield "65,535 steps that move 64 applications", lambda: everywhere() + joined(turns(TRAIL))
    yield "these steps, 20 times undone and redone", lambda: everywhere() + joined(turns(TRAIL)) + b"undo_all\nredo_all\n" * 20
    yield "1.6 million undos and redos of such a step", lambda: filled(everywhere() + joined(boots() + [b"crash n0"]), b"undo\nredo\n", b"")
    yield "such a step, 1.2 million times anew", lambda: filled(everywhere() + joined(boots()), b"crash n0\nundo\n", b"")
    yield "65,535 steps that move 64, of long names", lambda: everywhere(long_names(b"a", 64)) + joined(turns(TRAIL))
    yield "65,535 steps, each other one starts a chain of 64", lambda: chains() + joined(chain_turns(TRAIL))
    yield "65,535 steps that stop and start one at 32 nodes", lambda: everywhere() + joined(all_nodes(APPS, NODES, TRAIL))
    yield from more_runs()


def more_runs():
    """Texts for `run` of the second profile."""
    yield "250 times show, of a report of 4 MiB", lambda: largest_report(SECOND, 64, 128) + b"show\n" * 250
    yield "65,535 steps that move 128 applications", lambda: everywhere_twice() + joined(turns(TRAIL, MORE_NODES))
    yield "10,000 steps that move 128, 20 times undone and redone", lambda: (
        everywhere_twice() + joined(turns(10_000, MORE_NODES)) + b"undo_all\nredo_all\n" * 20)
    yield "500 thousand undos and redos of a step that moves 128", lambda: (
        everywhere_twice() + joined(boots(MORE_NODES) + [b"crash n0"]) + b"undo\nredo\n" * 250_000)
    yield "such a step that moves 128, 100 thousand times anew", lambda: (
        everywhere_twice() + joined(boots(MORE_NODES)) + b"crash n0\nundo\n" * 100_000)
    yield "65,535 steps that move 128, of long names", lambda: (
        everywhere_twice(long_names(b"a", 128)) + joined(turns(TRAIL, MORE_NODES)))
    yield "65,535 steps, each other one starts a chain of 128", lambda: (
        SECOND + chains(MORE_APPS, MORE_NODES) + joined(chain_turns(TRAIL, MORE_NODES)))
    yield "65,535 steps that stop and start one at 64 nodes", lambda: (
        everywhere_twice() + joined(all_nodes(MORE_APPS, MORE_NODES, TRAIL)))
    yield "65,535 permissions that move one away and back", lambda: everywhere_twice() + joined(permissions(TRAIL))


def sessions():
    """Texts for `sessions`."""
    yield "16 million digits of a session", lambda: filled(BARE, b"1", b"")
    yield "a start argument of lists of 33 atoms", kept("sessions")
    yield "65,535 times undo", lambda: BARE + joined(by_sessions([b"undo"] * TRAIL))
    yield "65,535 times show, of one node", lambda: BARE + joined(by_sessions([b"show"] * TRAIL))
    yield "1,000 times show, of a report of 1 MiB", lambda: _shown(1_000 - 32)
    # One session makes them all: those of several come in any order, and most would be refused.
    yield "65,535 steps that move 64 applications", lambda: everywhere() + joined([b"8 " + line for line in turns(TRAIL)])
    yield "65,535 steps that move 128 applications", lambda: (
        everywhere_twice() + joined([b"8 " + line for line in turns(TRAIL, MORE_NODES)]))


def _shown(count):
    cluster, mark, script = largest_report().partition(b"===\n")
    return cluster + mark + joined(by_sessions(script.splitlines() + [b"show"] * count))


def sweeps():
    """Texts for `sweep`."""
    base = everywhere() + joined(boots())
    each = b"crash n0\nboot n0\n"
    yield "2 million empty plans, without applications", lambda: filled(BARE, b"plan p\n", b"")
    yield "2 million empty plans, of 64 applications", lambda: filled(base, b"plan p\n", b"")
    yield "a start argument of lists of 33 atoms", kept("sweep")
    yield "20,000 plans of 100 steps that move 64", lambda: filled(base, b"plan p\n" + each * 50, b"")
    yield "plans of 19,000 steps that move 64", lambda: filled(base, b"plan p\n" + each * 9_500, b"")
    yield "a base of 65,535 steps that move 64, and a plan for each worker", lambda: (
        everywhere() + joined(turns(TRAIL)) + b"plan p\n" * 16)
    base_twice = everywhere_twice() + joined(boots(MORE_NODES))
    yield "2 million empty plans, of 128 applications", lambda: filled(base_twice, b"plan p\n", b"")
    yield "5,000 plans of 100 steps that move 128", lambda: base_twice + (b"plan p\n" + each * 50) * 5_000
    yield "plans of 19,000 steps that move 128", lambda: filled(base_twice, b"plan p\n" + each * 9_500, b"")
    yield "a base of 10,000 steps that move 128, and a plan for each worker", lambda: (
        everywhere_twice() + joined(turns(10_000, MORE_NODES)) + b"plan p\n" * 16)


def texts():
    """Triples of the words of the command line, what the input is, and a function that makes it."""
    for name, make in checks():
        yield ["check"], name, make
    for name, make in runs():
        yield ["run"], name, make
    for name, make in sessions():
        yield ["sessions"], name, make
    for name, make in sweeps():
        yield ["sweep", "--workers", "16"], name, make
