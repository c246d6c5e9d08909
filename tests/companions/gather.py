"""Tests of companions/gather, on releases that systools makes of applications that erlc compiles. What is owed is worked out by
hand, or is what systools or a live node of the same files says; and the real program reads what is written."""
import os
import random
import re
import subprocess

from gathered import COMPANION, SHOP, SHOP_COMMENTS, THREE, bare, gather, refusal, shop, wrong_with
from groups import Group
from releases import BASE, application, compiled, erl, release, write
from support import LONGEST_RUN, in_folder, run

NEEDS = ("erl", "escript", "erlc")
READ = ("distributed", "sync_nodes_mandatory", "sync_nodes_optional", "sync_nodes_timeout", "permissions")


# ---- One release at three nodes

def one_release(program, folder):
    """One release at three nodes: unpacked, by its boot script, by its .rel."""
    shop(folder)
    target = os.path.join(folder, "target")
    done = gather(folder, "--release", "target", *THREE)
    idle = ("Not started: audit (included in billing), metrics (only loaded).",)
    yield "an unpacked release", wrong_with(program, done, SHOP, SHOP_COMMENTS + idle)
    read = erl(folder, 'io:format("~b", [length(element(2, file:consult("written")))])'
               if write(folder, "written", done.stdout) else "")
    yield "what is written is Erlang", None if read == "7" else read
    boot = os.path.join(target, "releases", "1", "start.boot")
    os.rename(boot, os.path.join(folder, "moved.boot"))
    idle = ("Not started: metrics (only loaded), tool (only its code is loaded), audit (included in billing).",)
    done = gather(folder, "--release", target, *THREE)
    yield "an unpacked release without boot script", wrong_with(program, done, SHOP, SHOP_COMMENTS + idle)
    for name, words in (("a .rel file", ("--rel", "shop", "--lib", "ebin")), ("a boot script", ("--boot", "shop.boot")),
                        ("a readable boot script", ("--boot", "shop.script")), ("a moved boot script", ("--boot", "moved"))):
        done = gather(folder, *words, "--config", "sys", *THREE)
        yield name, wrong_with(program, done, SHOP, SHOP_COMMENTS)
    link = os.path.join(folder, "linked")
    os.symlink(COMPANION, link)
    done = subprocess.run([link, "--release", target, *THREE], cwd="/", capture_output=True, text=True, timeout=LONGEST_RUN)
    yield "called by a link from elsewhere", refusal(done, 2, "sync.config: no such file")
    done = gather(folder, "--release", target, "--config", "sys", *THREE)
    script = done.stdout + "===\nboot a@host1\nboot b@host2\nboot c-3@host3\ncrash a@host1\ntick 5000\n"
    told = run(program, ["run"], input=script.encode()).stdout.decode()
    owed = "started billing b@host2 failover a@host1\nstarted report b@host2 normal\n"
    yield "a rehearsal", None if told.endswith(owed) else told
    parts = bare(gather(folder, "--release", target, "--config", "sys", "--needed", *THREE).stdout)
    want = "{boot, [{pool, temporary}, {billing, permanent}]}, {platform, [sasl, report]}"
    yield "--needed", None if parts.count(want) == 3 and "application, report" not in parts else parts
    words = ("--needed", "--rehearse", "sasl", "--platform", "pool")
    parts = bare(gather(folder, "--release", target, "--config", "sys", *words, *THREE).stdout)
    want = "{boot, [{sasl, permanent}, {billing, permanent}]}, {platform, [pool, report]}"
    is_there = parts.count(want) == 3 and "{application, sasl, [{applications, [kernel, stdlib]}" in parts
    yield "--rehearse and --platform", None if is_there else parts


TAKEN_OVER = "started billing a@host1 takeover b@host2\nstopped billing b@host2\n"


def both_profiles(program, folder):
    """The release with a profile, and what comes of a permission that is given back at the better node."""
    shop(folder)
    made = ("--boot", "shop.boot", "--config", "sys")
    for name, front, words, told in (
            ("--profile 1", "{profile, 1}.\n", (*made, *THREE, "--profile", "1"), ""),
            ("--profile 2", "{profile, 2}.\n", ("--profile", "2", *made, *THREE), TAKEN_OVER),
            ("no profile", "{profile, 2}.\n", (*made, *THREE), TAKEN_OVER)):
        done = gather(folder, *words)
        head = "% A cluster file for rehearse. gather wrote it from the files that are named below.\n\n"
        is_first = done.stdout.startswith(head + front)
        yield name, wrong_with(program, done, front + SHOP, SHOP_COMMENTS) or (None if is_first else done.stdout)
        script = "===\nboot a@host1\nboot b@host2\nboot c-3@host3\npermit a@host1 billing false\npermit a@host1 billing true\n"
        answer = run(program, ["run"], input=(done.stdout + script).encode()).stdout.decode()
        # Where billing runs, report can start: it goes on at a@host1, and starts at b@host2 now.
        owed = "ok\nstopped billing a@host1\nstarted billing b@host2 normal\nstarted report b@host2 normal\nok\n" + told
        yield f"a rehearsal of a permission, {name}", None if answer.endswith(owed) else answer


# ---- How much a profile takes

# Words of the command line, the nodes of that profile, and what is told of the other one.
PROFILES = [((), 64, ("", "")), (("--profile", "1"), 32, (" (profile 2 takes 64)", " (profile 2 takes 128)"))]


def limits(program, folder, profile):
    """As many nodes and applications as a profile has, and one more. No release has the applications."""
    words, nodes, hints = profile
    apps, name = 2 * nodes, " ".join(words) or "no profile"
    for count in (apps, apps + 1):
        entries = ", ".join(f"{{app{number}, [a@b]}}" for number in range(count))
        write(folder, f"apps{count}.config", f"[{{kernel, [{{distributed, [{entries}]}}]}}].")
    of_apps = ("--bare", "--node", "a@b", "--config")
    many = [word for number in range(nodes + 1) for word in ("--node", f"n{number}@b", "--bare")]
    yield f"{name}: {nodes} nodes", wrong_with(program, gather(folder, *words, *many[3:]), None, counts=(nodes, 0))
    told = f"gather: {nodes + 1} nodes are more than the {nodes} that rehearse takes{hints[0]}\n"
    yield f"{name}: {nodes + 1} nodes", refusal(gather(folder, *words, *many), 2, told)
    done = gather(folder, *words, *of_apps, f"apps{apps}")
    yield f"{name}: {apps} applications", wrong_with(program, done, None, counts=(1, apps))
    told = f"gather: {apps + 1} {TOO_MANY} the {apps} that rehearse takes{hints[1]}\n"
    yield f"{name}: {apps + 1} applications", refusal(gather(folder, *words, *of_apps, f"apps{apps + 1}"), 2, told)


TOO_MANY = "applications that are rehearsed (try --needed, or --platform) are more than"


def large_releases(program, folder):
    """Releases with more applications than are rehearsed, and with more platform names. One application is distributed."""
    for number in range(256):
        application(folder, f"app{number}")
    for count in (65, 129, 255, 256):
        listed = "".join(f', {{app{number}, "1.0"}}' for number in range(count))
        listed = f'{{kernel, "1"}}, {{stdlib, "1"}}{listed}'
        write(folder, f"rel{count}.rel", f'{{release, {{"many", "1"}}, {{erts, "1"}}, [{listed}]}}.\n')
    write(folder, "one.config", "[{kernel, [{distributed, [{app0, [a@b]}]}]}].")
    one = ("--lib", "ebin", "--node", "a@b", "--config", "one", "--rel")
    yield "129 applications of a release", refusal(gather(folder, *one, "rel129"), 2, f"gather: 129 {TOO_MANY} the 128")
    told = f"gather: 65 {TOO_MANY} the 64"
    yield "65 applications of a release, --profile 1", refusal(gather(folder, "--profile", "1", *one, "rel65"), 2, told)
    for words, apps in ((), 65), (("--needed",), 1), (("--platform", "app64", "--profile", "1"), 64):
        done = gather(folder, *words, *one, "rel65")
        yield f"65 applications of a release, {' '.join(words)}", wrong_with(program, done, None, counts=(1, apps))
    # All others become platform names; kernel and stdlib are two more.
    for words in ("--needed",), ("--needed", "--profile", "1"):
        done = gather(folder, *words, *one, "rel255")
        yield f"254 platform names, {' '.join(words)}", wrong_with(program, done, None, counts=(1, 1))
        told = "gather: 255 platform names are more than the 254 that rehearse takes\n"
        yield f"255 platform names, {' '.join(words)}", refusal(gather(folder, *words, *one, "rel256"), 2, told)


# ---- What a live node reads

def live(_, folder):
    """The parameters that live nodes have with the same configurations, and what they start."""
    shop(folder)
    write(folder, "more/sys.config", '["own", {pool, [{k, 1}]}, {kernel, [{sync_nodes_timeout, 3}, {permissions, [{pool, true}]}'
          ']}, {kernel, [{sync_nodes_timeout, 4}]}, "../twice.config", {pool, [{k, 2}]}].\n')
    write(folder, "more/own.config", "[{kernel, [{sync_nodes_timeout, 1}, {sync_nodes_optional, [x@y, x@y]}]}].\n")
    write(folder, "own.config", "[{kernel, [{sync_nodes_timeout, 2}, {sync_nodes_optional, [wrong@one]}]}].\n")
    write(folder, "twice.config", "[{kernel, [{permissions, [{pool, false}, {pool, true}]}]}].\n")
    write(folder, "vm.args", "# -kernel sync_nodes_timeout 9\n-config more/sys  # and more\n+K true\n-kernel "
          "sync_nodes_timeout 50 distributed \"[{billing, [x@y]}]\"\n-kernel sync_nodes_mandatory '[]' -env A B\n")
    for name, configs in (("sys", ["sys"]), ("others", ["more/sys", "own"]), ("the other way", ["own.config", "more/sys"])):
        words, options = ([word for config in configs for word in (option, config)] for option in ("-config", "--config"))
        yield f"live parameters: {name}", live_fault(folder, words, options)
    yield "live parameters: vm.args", live_fault(folder, ["-args_file", "vm.args"], ["--args", "vm.args"])
    write(folder, "quiet.config", "[].")
    runs = erl(folder, 'io:format("~0p", [[A || {A, _, _} <- lists:reverse(application:which_applications())]])',
               "-boot", "shop", "-config", "quiet")
    done = gather(folder, "--boot", "shop", "--config", "quiet", "--node", "a@b", "--rehearse", "sasl")
    booted = re.findall(r"\{(\w+), (?:permanent|transient|temporary)\}", bare(done.stdout))
    is_same = runs == "[kernel,stdlib," + ",".join(booted) + "]" and len(booted) == 4
    yield "live applications", None if is_same else f"{runs} and {booted}"


def live_fault(folder, words, options):
    """What is wrong with the kernel parameters that are written for the configuration of a live node, or None."""
    shown = "[{P, V} || P <- [" + ", ".join(READ) + "], {ok, V} <- [application:get_env(kernel, P)]]"
    owed = erl(folder, f'io:format("~0p", [{shown}])', *words)
    nodes = [word for name in ("a@b", "x@y", "a@host1", "b@host2", "c-3@host3", "wrong@one") for word in ("--node", name)]
    done = gather(folder, "--boot", "shop", *options, *nodes)
    section = re.search(r"\{kernel, \[(.*?)\]\},? ?\{rehearse", bare(done.stdout))
    have = "[" + re.sub(r"\s", "", section.group(1)) + "]" if section else done.stderr
    want = owed.replace("{pool,false},{pool,true}", "{pool,false}").replace("x@y,x@y", "x@y")
    return None if have == want else f"{have} and not {want}"


# ---- The order of systools

def random_release(folder, name, chance):
    """Makes a release of ten applications, of which two may be included, and gives what its boot script starts, and systools's
    answer. An application needs later ones; an included one perhaps the one that includes it, which systools overlooks."""
    apps = [f"{name}{number}" for number in range(10)]
    holders = dict(zip(chance.sample(apps[6:], 2), (chance.choice(apps[:3]), chance.choice(apps[3:6]))))
    for number, app in enumerate(apps):
        later = [other for other in apps[number + 1:] if app < holders.get(other, "z")]
        needs = chance.sample(later, min(chance.randrange(4), len(later)))
        if app in holders and chance.random() < 0.5:
            needs.append(holders[app])
        include = [other for other in holders if holders[other] == app]
        application(folder, app, needs, more=f", {{included_applications, [{', '.join(include)}]}}")
    types = ["", ", permanent", ", transient", ", temporary", ", load", ", none"]
    entries = [f'{{{app}, "1.0"{chance.choice(types)}}}' for app in chance.sample(apps, 10)]
    answer = release(folder, name, entries)
    if not answer.startswith("{ok,"):
        return None, answer
    with open(os.path.join(folder, f"{name}.script"), encoding="utf-8") as file:
        started = re.findall(r"start_boot,\s*\[(\w+),\s*(\w+)\]", file.read())
    return [start for start in started if start[0] not in BASE], answer


def systools_order(program, folder):
    """Random releases: the boot list of a .rel file is the one of the boot script that systools makes of it."""
    chance = random.Random(25)
    made = {}
    for name in "abcdefghij":
        made[name], answer = random_release(folder, name, chance)
        assert answer.startswith("{ok,"), answer
    application(folder, "x1", ["x2"])
    application(folder, "x2", ["x1"])
    answer = release(folder, "x", ['{x1, "1.0"}', '{x2, "1.0"}'])
    wrong = refusal(gather(folder, "--rel", "x", "--lib", ".", "--node", "a@b"), 2, "x.rel line 1: x1 needs itself, by x2")
    yield "a circle, which systools refuses", wrong if "circular_dependencies" in answer else answer
    for group in (list(made)[:5], list(made)[5:10]):
        nodes = [word for name in group for word in ("--node", f"{name}@x", "--rel", f"{name}.rel")]
        done = gather(folder, "--lib", ".", *nodes)
        boots = re.findall(r"\{node, (\w)@x.*?\{boot, \[(.*?)\]\}", bare(done.stdout))
        have = {name: re.findall(r"\{(\w+), (\w+)\}", boot) for name, boot in boots}
        want = {name: made[name] for name in group}
        counts = (len(group), done.stdout.count("{application, "))
        wrong = None if have == want else f"{have} and not {want}"
        yield f"random releases {''.join(group)}", wrong_with(program, done, None, counts=counts) or wrong


# ---- Five nodes with files of their own

CORE_CONFIG = """[{kernel, [{distributed, [{ledger, 3000, ['core-1@site', 'core-2@site']},
  {gateway, infinity, [{edge1@site, edge2@site}]}, {monitor, [edge3@site]}, {ghost, 9999999999999, [edge3@site]}]},
  {sync_nodes_timeout, infinity}, %s]}]."""
CORE_SYNC = {"core-1": "{sync_nodes_mandatory, ['core-2@site', 'core-2@site']}",
             "core-2": "{sync_nodes_mandatory, ['core-1@site']}"}
EDGE_SYNC = "{permissions, [{monitor, false}, {tls, true}, {monitor, true}]}, {logger_level, '${LEVEL}'}"
FIVE_LISTS = """    {distributed, [{ledger, 3000, ['core-1@site', 'core-2@site']},
      {gateway, 1000000000000, [{edge1@site, edge2@site}]}, {monitor, [edge3@site]}, {ghost, 1000000000000, [edge3@site]}]},
"""
FIVE = "".join("""{node, '%s@site', [
  {kernel, [
""" % node + FIVE_LISTS + """    {sync_nodes_mandatory, ['%s@site']},
    {sync_nodes_timeout, infinity}]},
  {rehearse, [
    {boot, [{store, permanent}, {ledger, permanent}]}]}]}.
""" % other for node, other in (("core-1", "core-2"), ("core-2", "core-1"))) + "".join("""{node, %s@site, [
  {kernel, [
""" % node + FIVE_LISTS + """    {sync_nodes_timeout, infinity},
    {permissions, [{monitor, false}, {tls, true}]}]},
  {rehearse, [
    {boot, [%s]},
    {platform, [sasl]}]}]}.
""" % boot for node, boot in (("edge1", "{tls, permanent}, {gateway, transient}"),
                              ("edge2", "{tls, permanent}, {gateway, transient}"),
                              ("edge3", "{monitor, temporary}, {tls, permanent}"))) + """
{application, store, [{applications, [kernel, stdlib]}, {mod, {store_app, [{file, "a\\"b\\\\c"}, {'It\\'s', -5}]}}]}.
{application, ledger, [{applications, [kernel, stdlib, store]}, {mod, {ledger_app, []}}]}.
{application, tls, [{applications, [kernel, stdlib]}]}.
{application, gateway, [{applications, [kernel, stdlib, tls]}, {mod, {gateway_app, []}}]}.
{application, monitor, [{applications, [kernel, stdlib, gauges, sasl]}, {mod, {monitor_app, [one, {two, []}]}}]}.
{application, ghost, []}.
{application, gauges, [{applications, [kernel, stdlib]}]}.
"""
FIVE_COMMENTS = (
    "Replaced: the timeout infinity of gateway, by the longest one that rehearse takes.",
    "Replaced: the timeout of ghost, 9999999999999, by the longest one that rehearse takes.",
    "Left out: core-2@site for a second time in sync_nodes_mandatory.", "Left out: monitor for a second time in permissions.",
    "Left out: the kernel parameters logger_level.", "Not started: gauges (only loaded).",
    "Not booted here, since distributed doesn't list this node: gateway.", "ghost: no release has it. It starts nowhere.",
    "Replaced by []: the start argument of ledger_app, since it has a fun.",
    "Replaced by []: the start argument of gateway_app, since it has an improper list.")


def five_nodes(program, folder):
    """Five nodes with two releases, configurations of their own, some by the environment."""
    application(folder, "store", [], """[{file, "a\\"b\\\\c"}, {'It\\'s', -5}]""")
    application(folder, "ledger", ["store"], "[fun lists:sort/1]")
    application(folder, "tls")
    application(folder, "gateway", ["tls"], "[a | b]")
    application(folder, "gauges")
    application(folder, "monitor", ["gauges", "sasl"], "[one, {two, []}]")
    compiled(folder)
    # In the order of its .rel file, a release has what the first application needs, that one, what the second needs .. The
    # gateway stands in the third release too, and starts nowhere by it: its node isn't listed.
    for name, apps in (("core", '{ledger, "1.0"}, {store, "1.0"}'),
                       ("edge", '{gateway, "1.0", transient}, {tls, "1.0"}, {sasl, "SASL"}'),
                       ("watch", '{monitor, "1.0", temporary}, {gauges, "1.0", load}, {tls, "1.0"}, {gateway, "1.0"}, '
                        '{sasl, "SASL"}')):
        answer = release(folder, name, [apps])
        assert answer.startswith("{ok,"), answer
    words = []
    for node, sync in CORE_SYNC.items():
        write(folder, f"{node}/sys.config", CORE_CONFIG % sync)
        words += ["--node", f"{node}@site", "--rel", "core.rel", "--config", f"{node}/sys.config"]
    write(folder, "edge/sys.config.src", CORE_CONFIG.replace("3000", "${TIME}").replace("edge3", "${LAST:-edge3}") % EDGE_SYNC)
    for node, rel in (("edge1", "edge"), ("edge2", "edge"), ("edge3", "watch")):
        words += ["--node", f"{node}@site", "--boot", rel, "--config", "edge/sys.config.src", "--env", "LEVEL=info"]
    done = gather(folder, "--lib", "ebin", "--env", "TIME=3000", *words, TIME="1", LEVEL="wrong")
    yield "five nodes", wrong_with(program, done, FIVE, FIVE_COMMENTS)
    done = gather(folder, "--lib", "ebin", *words)
    yield "a variable that isn't set", refusal(done, 2, "edge/sys.config.src line 1: ${TIME} isn't set: give --env TIME=VALUE")


# ---- Arguments of each kind, and what is refused

TERMS = [  # an argument, what is written in its place, and what it has that isn't read
    ("1.5", "[]", "a float"), ("[a, {b, -2.0e-3}]", "[]", "a float"), ("#{}", "[]", "a map"), ("<<>>", "[]", "a binary"),
    ("[<<1:3>>]", "[]", "a binary"), ("fun lists:sort/1", "[]", "a fun"), ("[a | b]", "[]", "an improper list"),
    ("9223372036854775807", "9223372036854775807", None), ("9223372036854775808", "[]", "an integer of more than 64 bits"),
    ("-9223372036854775808", "-9223372036854775808", None), ("-9223372036854775809", "[]", "an integer of more than 64 bits"),
    ("16#ff", "255", None), ("$c", "99", None), ("1_000", "1000", None), ('"a" "b\\x41"', '"abA"', None), ('""', "[]", None),
    ('"é\\n"', "[233, 10]", None), ("'fun'", "fun", None), ("'A b'", "'A b'", None), ("'é'", "'é'", None), ("''", "''", None),
    ("'a\\\\\\''", "'a\\\\\\''", None), ("{}", "{}", None), ('{"%", \'%\'}', '{"%", \'%\'}', None),
    ("[" * 60 + "]" * 60, "[" * 60 + "]" * 60, None),
    ("[" * 61 + "]" * 61, "[]", "too many lists and tuples inside one another")]


def arguments(program, folder):
    """Start arguments of each kind: as they stand, or replaced."""
    for number, (term, _, _) in enumerate(TERMS):
        application(folder, f"app{number}", mod=term, more=f", {{start_phases, [{{go, {term}}}]}}")
    compiled(folder)
    answer = release(folder, "terms", [f'{{app{number}, "1.0"}}' for number in range(len(TERMS))])
    assert answer.startswith("{ok,"), answer
    write(folder, "none.config", "[].")
    names = [f"app{number}" for number in range(len(TERMS))]
    # The argument of a phase stands inside of one tuple more than that of mod.
    phases = ["[]" if "[" * 60 in plain else plain for _, plain, _ in TERMS]
    owed = "{node, a@b, [{rehearse, [{boot, [" + ", ".join(f"{{{name}, permanent}}" for name in names) + "]}]}]}.\n" + "".join(
        f"{{application, {name}, [{{applications, [kernel, stdlib]}}, {{mod, {{{name}_app, {plain}}}}}, "
        f"{{start_phases, [{{go, {phase}}}]}}]}}.\n" for name, (_, plain, _), phase in zip(names, TERMS, phases))
    told = [f"Replaced by []: the start argument of {name}_app, since it has {why}."
            for name, (_, _, why) in zip(names, TERMS) if why]
    done = gather(folder, "--boot", "terms", "--config", "none", "--node", "a@b")
    yield "arguments", wrong_with(program, done, owed, told)


CONFIGS = {
    "syntax": "[{kernel,\n [{distributed, }]}].", "open": "[{kernel,\n []}]\n", "tuple": "\n{kernel, []}.", "two": "[].\n%\n[].",
    "include": '[\n"other"].', "deep/sys": '["y",\n"x"].', "deep/y": "[].", "again": "[{pool, [{pool, 1}]},\n{pool, []}].",
    "param": "[{pool, [{a, 1},\n{a, 1}]}].", "odd": "[{pool,\n[{a, 1},\na]}].", "none": "", "many": "[{pool, [a]},\n{pool, [a]}].",
    "blank": "[{kernel, [{permissions,\n[{a, true},\n{'a b', true}]}]}].", "unknown": "[{kernel,\n[{sync_nodes_optional, [z@b]}]}].",
    "time": "[{kernel, [\n\n{sync_nodes_timeout, 1.5}]}].", "twice": "[{kernel, [{distributed,\n[{pool, [a@b,\n{a@b}]}]}]}].",
    "nowhere": "[{kernel, [{distributed, [{pool,\n[]}]}]}].", "form": "[{kernel, [{distributed,\n[{x, [a@b]},\npool]}]}].",
    "list": "[{kernel, [{distributed,\nx}]}].", "double": "[{kernel, [{distributed, [{x, [a@b]},\n{x, 1, [a@b]}]}]}].",
    "a": "[\n{kernel, [{distributed, [{pool, 1, [a@b]}]}]}].", "b": "[{kernel,\n\n[{distributed, [{pool, 2, [a@b]}]}]}]."}
REFUSED_CONFIGS = [  # a configuration, and parts of what is told
    ("syntax", "syntax.config line 2: syntax error before: '}'"), ("open", "open.config line 1: no dot ends the term"),
    ("tuple", "tuple.config line 2: it isn't a list"), ("two", "two.config line 3: it has 2 terms"), ("none", "none.config: it has no term"),
    ("missing", "missing.config: no such file"), ("include", "include.config line 2: ", "in a sys.config itself alone"),
    ("deep/sys", "x.config: no such file or directory, which deep/sys.config line 2 names"),
    ("again", "again.config line 2: section pool stands twice"), ("param", "param.config line 2: section pool: a stands twice"),
    ("odd", "odd.config line 3: section pool: a is no {Parameter, Value}"),
    ("blank", "a@b: blank.config line 3: 'a b'"), ("unknown", "a@b: unknown.config line 2: sync_nodes_optional names z@b", "--node z@b"),
    ("time", "a@b: time.config line 3: sync_nodes_timeout is 1.5"),
    ("twice", "a@b: twice.config line 2: distributed lists a@b twice for pool"),
    ("nowhere", "a@b: nowhere.config line 2: distributed has for pool no list of nodes: []"),
    ("form", "a@b: form.config line 3: distributed has pool, which is no {App"), ("list", "a@b: list.config line 2: distributed is x, and no list"),
    ("double", "a@b: double.config line 2: distributed has x twice")]
RELS = {"good": '{pool, "2.0"}', "old": '{pool, "1.0"}', "typed": '{pool, "2.0", sometimes}', "lost": '{lost, "1.0"}',
        "needy": '{needy, "1.0"}', "phased": '{phased, "1.0"}', "odd": '{odd, "1.0"}', "bytes": '{bytes, "1.0"}'}
SHARES = 4
GOOD = ("--rel", "good", "--lib", "ebin", "--node", "a@b")


def refusals():
    """Command lines, each with its name, the status that is owed, and parts of what is told."""
    for name, *parts in REFUSED_CONFIGS:
        yield f"refused: {name}", [*GOOD, "--config", name], 2, parts
    pair = [*GOOD[:-2], "--node", "a@b", "--config", "a", "--node", "b@b", "--config", "b"]
    yield "refused: nodes that differ", pair, 2, [
        "a@b and b@b take part", "their distributed", "(a@b: a.config line 2; b@b: b.config line 3)"]
    for name, *parts in (("old", "old.rel line 1: pool 1.0: its .app file isn't in", "ebin/pool.app"),
                         ("typed", "typed.rel line 1: pool has type sometimes"), ("lost", "lost.rel line 1: lost needs nobody"),
                         ("phased", "ebin/phased.app line 1: start_phases has go"),
                         ("needy", "ebin/needy.app line 1: needy: applications is [kernel,stdlib,7]"),
                         ("odd", "ebin/odd.app line 1: odd: vsn is"),
                         ("bytes", "ebin/bytes.app line 1: it isn't UTF-8"), ("absent", "absent: no such file")):
        yield f"refused: {name}.rel", ["--rel", name, "--lib", "ebin", "--node", "a@b"], 2, parts
    yield "refused: no release", ["--release", "ebin", "--node", "a@b"], 2, ["ebin: it has no releases/VERSION"]
    for name, more in (("nowhere", []), ("nowhere", ["--version", "1"]), ("nowhere.tar.gz", [])):
        yield f"refused: {' '.join([name, *more])}, which isn't there", ["--release", name, *more, "--node", "a@b"], 2, [
            f"gather: {name}: no such file or directory\n"]
    yield "refused: no boot script", ["--boot", "good.rel", "--node", "a@b"], 2, ["good.rel: it is no boot script"]
    for name, words in (("nothing", []), ("no release", ["--node", "a@b"]), ("no value", ["--node"]),
                        ("no option", ["--nonsense", "a@b"]), ("a flag with a value", ["--bare=yes", "--node", "a@b"]), ("a word", ["a@b"]), ("twice", [*GOOD, "--node", "a@b"]),
                        ("platform", [*GOOD, "--platform", "nobody"]), ("both", [*GOOD, "--boot", "good"])):
        yield f"a command line: {name}", words, 1, ["gather: ", "Try gather --help"]
    for words, told in ((["--profile", "3"], "3"), (["--profile", "02"], "02"), (["--profile", "1", "--profile", "2"], "1, 2")):
        told = f"--profile is 1 or 2, and given once, not {told}\n"
        yield f"a command line: {' '.join(words)}", [*GOOD, *words], 1, [told, "Try gather --help"]
    for words, told in ((["--profile"], "--profile needs a value"), (["--node"], "--node needs a value"),
                        (["--relase=x"], "there is no option --relase: is --release meant?"), (["--nodes"], "--nodes: is --node meant?")):
        yield f"a command line: {told}", [*GOOD, *words], 1, [told, "Try gather --help"]


def made_to_be_refused(folder):
    """Writes the files that are refused."""
    application(folder, "pool", vsn="2.0")
    application(folder, "lost", ["nobody"])
    application(folder, "phased", more=", {start_phases, [go]}")
    application(folder, "needy", ["7"])
    write(folder, "ebin/odd.app", "{application, odd, [vsn]}.")
    with open(os.path.join(folder, "ebin", "bytes.app"), "wb") as file:
        file.write(b"{application, \xff\xfe\x83\x00, []}.")
    for name, apps in RELS.items():
        listed = f'[{{kernel, "1"}}, {{stdlib, "1"}}, {apps}]'
        write(folder, f"{name}.rel", f'{{release, {{"{name}", "1"}}, {{erts, "1"}}, {listed}}}.\n')
    for name, text in CONFIGS.items():
        write(folder, f"{name}.config", text)


def refused(_, folder, share):
    """What is refused, with the name of what is at fault: a share of it."""
    made_to_be_refused(folder)
    for name, words, status, parts in list(refusals())[share::SHARES]:
        yield name, refusal(gather(folder, *words), status, *parts)


def refused_live(_, folder):
    """What live nodes refuse too, and help."""
    made_to_be_refused(folder)
    for name in ("include", "again", "param"):
        told = subprocess.run(["erl", "-noshell", "-config", name, "-eval", "halt()."], cwd=folder, capture_output=True,
                              text=True, timeout=LONGEST_RUN, env={**os.environ, "ERL_CRASH_DUMP": os.devnull}).stdout
        yield f"a live node refuses this too: {name}", None if "invalid config data" in told else told
    done = gather(folder, "--help")
    is_there = "\nWrites a cluster file" in done.stdout and "\n  --profile N " in done.stdout
    yield "--help", None if done.returncode == 0 and is_there else f"{done}"


TESTS = (Group(in_folder(refused), range(SHARES), is_long=True), Group(in_folder(limits), PROFILES), *map(in_folder, (
    one_release, both_profiles, large_releases, live, systools_order, five_nodes, arguments, refused_live)))
