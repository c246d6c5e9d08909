"""Tests of what companions/gather makes of the files of a packed release: variables as a release by relx has them, archives, names
that may be misspelt, and a release of Elixir's Mix."""
import os
import subprocess

from gathered import SHOP, SHOP_COMMENTS, THREE, gather, mixed, refusal, shop, wrong_with
from groups import Group
from releases import application, release, write
from support import LONGEST_RUN, difference, in_folder

NEEDS = ("erl", "escript", "erlc")
VARIABLES_CONFIG = """%% ${NOT_SET} stands in a comment, and so does ${NEITHER:-x}.
[{kernel, [{distributed, [{web, ${FAILOVER_MS:-5000}, ['${FIRST}', b@host2]}]}, % ${NOT_SET}
  {permissions, [{web, ${MAY}}]}]},
 {web, [{a, "%"}, {b, $%}, {c, '%'}, {d, "\\"%"}, {e, ${DEPTH:-7}}, {f, '${CURLY:-a:b}'}]},
 {kernel, [{sync_nodes_timeout, ${WAIT:-1000}}]}].
"""
VARIABLES_ARGS = """## -name ${NOT_SET}
-name ${NODE_NAME} # ${NOT_SET}
-setcookie a#${COOKIE:-b}
-kernel sync_nodes_optional "['${FIRST}', '${NODE_NAME}']" # and more
"""
# What stands for FAILOVER_MS, NODE_NAME in both nodes, and MAY.
VARIABLES = """{node, %s, [{kernel, [{distributed, [{web, %s, [a@host1, b@host2]}]}, {sync_nodes_optional, [a@host1%s]},
  {sync_nodes_timeout, 1000}, {permissions, [{web, true}]}]}]}.
"""
WEB = "{application, web, []}.\n"


def variables(program, folder):
    """Variables are replaced as the start script of a release by relx does it, but for those in comments."""
    write(folder, "sys.config.src", VARIABLES_CONFIG)
    write(folder, "vm.args.src", VARIABLES_ARGS)
    given = ("--bare", "--config=sys.config.src", "--args=vm.args.src", "--env=MAY=true", "--env=FIRST=a@host1")
    both = ("--node", "a@host1", "--node=b@host2")
    for name, words, environment, time in (
            ("defaults", (), {}, 5000), ("a variable that is set and empty", (), {"FAILOVER_MS": ""}, 5000),
            ("the environment", (), {"FAILOVER_MS": "7"}, 7), ("--env before the environment", ("--env=FAILOVER_MS=8",), {"FAILOVER_MS": "7"}, 8),
            ("--env that is empty", ("--env", "FAILOVER_MS="), {"FAILOVER_MS": "7"}, 5000),
            ("NODE_NAME is what --node says", (), {"NODE_NAME": "x@y"}, 5000)):
        owed = VARIABLES % ("a@host1", time, "") + VARIABLES % ("b@host2", time, ", b@host2") + WEB
        yield f"variables: {name}", wrong_with(program, gather(folder, *given, *words, *both, **environment), owed)
    done = gather(folder, *given, "--env", "NODE_NAME=b@host2", *both)
    owed = "".join(VARIABLES % (node, 5000, ", b@host2") for node in ("a@host1", "b@host2")) + WEB
    yield "variables: --env before --node", wrong_with(program, done, owed)
    done = gather(folder, *given[:3], given[4], *both)
    yield "variables: one that isn't set", refusal(done, 2, "sys.config.src line 3: ${MAY} isn't set: give --env MAY=VALUE\n")
    # MAY is set for a@host1, and FIRST for both by now.
    for where, words, node in (("the first", ("--node=a@host1", "--env", "MAY=true", "--node=b@host2"), "b@host2"),
                               ("the last", (*both, "--env", "MAY=true"), "a@host1")):
        done = gather(folder, *given[:3], given[4], *words)
        yield f"variables: one that is set behind {where} --node", refusal(
            done, 2, f"sys.config.src line 3: ${{MAY}} isn't set at {node}: give --env MAY=VALUE before the first --node, since behind one "
            "it holds for that node alone\n")
    done = gather(folder, *given[:3], given[4], both[0], both[1], "--env=MAY=true", both[2], "--env=MAY=true")
    yield "variables: one that is set behind each --node", wrong_with(program, done, VARIABLES % ("a@host1", 5000, "")
                                                                      + VARIABLES % ("b@host2", 5000, ", b@host2") + WEB)
    done = gather(folder, *given, "--env", "MAY=", *both)
    yield "variables: one without default that is empty", refusal(done, 2, "sys.config.src line 3: syntax error before: '}'")
    write(folder, "vm.args.src", "-kernel sync_nodes_timeout\n  ${FIRST}\n-config other\n")
    done = gather(folder, *given, *both)
    yield "an args file that names no configuration", refusal(done, 2, "other.config: no such file or directory, which vm.args.src line 3 names")
    # Within a word # begins no comment, and so what stands behind it is replaced.
    write(folder, "words.src", "\n-setcookie ${FIRST}#${NOT_SET}\n")
    done = gather(folder, *given[:2], "--args", "words.src", *given[3:], *both)
    yield "an args file with a # in a word", refusal(done, 2, "words.src line 2: ${NOT_SET} isn't set")
    # What isn't read may be any word.
    write(folder, "cookie.src", "-kernel sync_nodes_optional \"['${FIRST}']\"\n-setcookie ${COOKIE}\n")
    owed = "".join(VARIABLES % (node, 5000, "") for node in ("a@host1", "b@host2")) + WEB
    for cookie in ("any", "other-1"):
        done = gather(folder, *given[:2], "--args", "cookie.src", *given[3:], "--env", f"COOKIE={cookie}", *both)
        yield f"an args file with the cookie {cookie}", wrong_with(program, done, owed)
    write(folder, "vm.args.src", "# Nothing.\n-kernel sync_nodes_timeout '{'\n")
    done = gather(folder, *given, *both)
    yield "an args file without a term", refusal(done, 2, "vm.args.src line 2: -kernel sync_nodes_timeout {: this is no term")


def archives(program, folder):
    """A release that is packed: by systools, and in a folder of its own. Nothing is left behind."""
    shop(folder)
    os.mkdir(os.path.join(folder, "tmp"))
    subprocess.run(["tar", "czf", "own.tgz", "target"], cwd=folder, check=True, timeout=LONGEST_RUN)
    idle = "Not started: audit (included in billing), metrics (only loaded)."
    for name, inner in (("shop.tar.gz", ""), ("own.tgz", "target/")):
        done = gather(folder, f"--release={name}", *THREE, TMPDIR="tmp")
        source = f"a@host1: release shop 1 by {name}/{inner}releases/1/start.boot"
        missing = None if f"% {source}" in done.stdout else f"{source} isn't told: {done.stdout}"
        yield f"an archive, {name}", wrong_with(program, done, SHOP, (*SHOP_COMMENTS, idle)) or missing
    with open(os.path.join(folder, "shop.tar.gz"), "rb") as file:
        cut = file.read()[:2000]
    with open(os.path.join(folder, "cut.tar.gz"), "wb") as file:
        file.write(cut)
    done = gather(folder, "--release", "cut.tar.gz", *THREE, TMPDIR="tmp")
    yield "an archive that is cut", refusal(done, 2, "gather: cut.tar.gz: it can't be unpacked: ")
    write(folder, "target/releases/1/sys.config", "[\n{kernel, []}, 7].\n")
    subprocess.run(["tar", "czf", "odd.tar.gz", "-C", "target", "."], cwd=folder, check=True, timeout=LONGEST_RUN)
    done = gather(folder, "--release", "odd.tar.gz", *THREE, TMPDIR="tmp")
    yield "an archive with a fault", refusal(done, 2, "gather: odd.tar.gz/releases/1/sys.config line 2: 7 is no section")
    left = os.listdir(os.path.join(folder, "tmp"))
    yield "nothing is left of archives", None if not left else f"{left}"


MISSPELT_CONFIG = """[{kernal, [{net_ticktime, 5}]},
 {kernel, [
  {distribted, [{web, [a@b]}]},
  {sync_node_timeout, 5}, {distributed, [{web, [a@b]}]},
  {net_setuptime, 7}, {logger_level, info}]},
 {kernels, [{distribted, 1}]}, {kern, [{x, 1}]}, {web, [{permission, 1}]}].
"""
MISSPELT = """gather: warning: sys.config line 1: the section kernal isn't read: is kernel meant?
gather: warning: sys.config line 6: the section kernels isn't read: is kernel meant?
gather: warning: sys.config line 6: the section kern isn't read: is kernel meant?
gather: warning: sys.config line 3: the kernel parameter distribted isn't read: is distributed meant?
gather: warning: sys.config line 4: the kernel parameter sync_node_timeout isn't read: is sync_nodes_timeout meant?
gather: warning: vm.args line 2: the kernel parameter permission isn't read: is permissions meant?
gather: warning: vm.args line 1: the flag -kernal isn't read: is -kernel meant?
"""


def misspelt(program, folder):
    """Names that are near to one that is read are told on standard error, once for all nodes, and nothing else changes."""
    write(folder, "sys.config", MISSPELT_CONFIG)
    write(folder, "vm.args", "-kernal net_ticktime 5 +K true -heart\n-kernel permission \"[]\"\n")
    words = ("--config", "sys", "--args", "vm.args", "--node", "a@b")
    done = gather(folder, "--bare", *words, "--node", "c@d")
    told, done.stderr = done.stderr, ""
    yield "misspelt names", None if told == MISSPELT else difference(MISSPELT.encode(), told.encode())
    owed = "".join(f"{{node, {node}, [{{kernel, [{{distributed, [{{web, [a@b]}}]}}]}}]}}.\n" for node in ("a@b", "c@d"))
    yield "misspelt names, the cluster file", wrong_with(program, done, owed + WEB, (
        "Left out: the sections kernal, kernels, kern, web.",
        "Left out: the kernel parameters distribted, sync_node_timeout, net_setuptime, logger_level, permission."))
    # An application of the release may have such a name.
    application(folder, "kernels")
    release(folder, "named", ['{kernels, "1.0"}'])
    told = gather(folder, "--boot", "named", *words).stderr
    yield "an application kernels", None if told == MISSPELT.replace(MISSPELT.splitlines(keepends=True)[1], "") else told


MIX_CLUSTER = "".join(f"""{{node, {node}, [{{kernel, [{{distributed, [{{duo, 5000, [a@host1, b@host2]}}]}},
  {{sync_nodes_optional, [a@host1, b@host2]}}, {{sync_nodes_timeout, 10000}}]}},
  {{rehearse, [{{boot, [{{duo, permanent}}]}}, {{platform, [compiler, elixir, sasl, logger]}}]}}]}}.
""" for node in ("a@host1", "b@host2")) + "{application, duo, [{applications, [kernel, stdlib, elixir, logger]}, {mod, {'Elixir.Duo', [{size, 5}]}}]}.\n"


def mix_release(program, folder):
    """A release of Elixir's Mix, with kernel parameters in its configuration and in its vm.args."""
    done = gather(folder, "--release", mixed(folder), "--node", "a@host1", "--node", "b@host2")
    yield "a release of Mix", wrong_with(program, done, MIX_CLUSTER, ("Left out: the sections duo, elixir.",))


TESTS = (*map(in_folder, (variables, archives, misspelt)), Group(in_folder(mix_release), needs=("mix",)))
