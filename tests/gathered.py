"""What the tests of companions/gather share: running it, what is wrong with a finished run, a release at three nodes, and one of
Elixir's Mix."""
import os
import re
import subprocess

from releases import application, compiled, erl, release, write
from support import LONGEST_RUN, TOP, difference, run

COMPANION = os.path.join(TOP, "companions", "gather")
# What lint finds in what was written.
FOUND = re.compile(r"gather: ((?:error|warning): (?:line [0-9]+: )?[a-z_]+: .*)\n")


def gather(folder, *words, **environment):
    """A finished run of the companion. What lint finds is kept apart from the rest of its standard error."""
    done = subprocess.run([COMPANION, *words], cwd=folder, capture_output=True, text=True, timeout=LONGEST_RUN,
                          env={**os.environ, **environment})
    done.found, done.stderr = FOUND.findall(done.stderr), FOUND.sub("", done.stderr)
    return done


def bare(text):
    """A cluster file without its comments, a term a line, without white space behind brackets."""
    terms = re.sub(r"\s+", " ", re.sub(r"^%.*\n", "", text, flags=re.MULTILINE)).strip()
    return re.sub(r"(?<=[\[{]) ", "", terms).replace("}. {", "}.\n{") + "\n"


def wrong_with(program, done, want, comments=(), counts=None):
    """What is wrong with a finished run that owes these terms and comments, and that `check` has to accept; or None. Terms without a
    profile are those of the second one."""
    if want is not None and not want.startswith("{profile, "):
        want = "{profile, 2}.\n" + want
    if done.returncode != 0 or done.stderr:
        return f"status {done.returncode}: {done.stderr}"
    if want is not None and bare(done.stdout) != bare(want):
        return difference(bare(want).encode(), bare(done.stdout).encode())
    missing = [line for line in comments if f"\n% {line}\n" not in done.stdout]
    if missing:
        return f"these comments aren't there: {missing}\n{done.stdout}"
    checked = run(program, ["check"], input=done.stdout.encode())
    told = b"ok %d nodes %d applications\n" % (counts or (want.count("{node, "), want.count("{application, ")))
    return None if checked.stdout == told else f"check says {checked.stdout}, not {told}"


def refusal(done, status, *parts):
    """What is wrong with a finished run that has to be refused with a text that has these parts, or None."""
    if done.returncode != status or done.stdout:
        return f"status {done.returncode}, want {status}: {done.stdout[:200]}{done.stderr}"
    missing = [part for part in parts if part not in done.stderr]
    return f"{missing} isn't in: {done.stderr}" if missing else None


# ---- One release at three nodes

SHOP_CONFIG = """%% The configuration of all three nodes.
[{kernel, [{distributed, [{billing, 5000, [a@host1, {b@host2, 'c-3@host3'}]}]}, {sync_nodes_timeout, 1}, {net_ticktime, 45}]},
 {pool, [{rate, 1.5}, {names, #{a => <<"x">>}}, {sorter, fun lists:sort/1}, {mask, 16#ff}, {sign, $c}]},
 "sync",
 {sasl, [{errlog_type, error}]}].
"""
SHOP_SYNC = """[{kernel, [{sync_nodes_optional, [a@host1, b@host2, 'c-3@host3']}, {sync_nodes_timeout, 100}]}]."""
SHOP_NODE = """{node, %s, [
  {kernel, [
    {distributed, [{billing, 5000, [a@host1, {b@host2, 'c-3@host3'}]}]},
    {sync_nodes_optional, [a@host1, b@host2, 'c-3@host3']},
    {sync_nodes_timeout, 100}]},
  {rehearse, [
    {boot, [{pool, temporary}, {billing, permanent}, {report, transient}]},
    {platform, [sasl]}]}]}.
"""
SHOP = "".join(SHOP_NODE % name for name in ("a@host1", "b@host2", "'c-3@host3'")) + """
{application, pool, [{applications, [kernel, stdlib, sasl]},
  {mod, {pool_app, [{size, 5}]}}]}.
{application, billing, [{applications, [kernel, stdlib, pool]},
  {mod, {billing_app, []}},
  {start_phases, [{go, []}, {'Ready', "now"}]}]}.
{application, report, [{applications, [kernel, stdlib, billing]}, {mod, {report_app, []}}]}.
"""
SHOP_COMMENTS = (
    "Left out: the sections pool, sasl.", "Left out: the kernel parameters net_ticktime.",
    "Left out, replaced and not started: the same as at a@host1.",
    "Left out of billing: description, vsn, modules, included_applications (audit), env.",
    "Replaced by []: the start argument of billing_app, since it has a map.",
    "Replaced by []: the argument of the start phase go, since it has a binary.",
    "Left out of report, since a release with it hasn't these: the optional charts.")
THREE = ("--node", "a@host1", "--node", "b@host2", "--node", "c-3@host3")


def shop(folder):
    """Makes the release of the shop: its files in FOLDER, and unpacked in FOLDER/target."""
    application(folder, "pool", ["sasl"], "[{size, 5}]")
    application(folder, "billing", ["pool"], "#{retries => 3}", ", {start_phases, [{go, <<1>>}, {'Ready', \"now\"}]}, "
                "{included_applications, [audit]}, {env, [{rate, 0.5}]}")
    application(folder, "audit", [], "[]")
    application(folder, "report", ["audit", "charts"], "[]", ", {optional_applications, [charts]}")
    application(folder, "metrics", [], "[]")
    application(folder, "tool")
    compiled(folder)
    write(folder, "sys.config", SHOP_CONFIG)
    write(folder, "sync.config", SHOP_SYNC)
    # report needs audit, which billing includes, and billing needs the pool: systools turns the order round.
    apps = ['{report, "1.0", transient}', '{metrics, "1.0", load}', '{tool, "1.0", none}', '{billing, "1.0"}',
            '{pool, "1.0", temporary}', '{audit, "1.0"}', '{sasl, "SASL", permanent}']
    answer = release(folder, "shop", apps, ", local")
    assert answer.startswith("{ok,"), answer
    tar = erl(folder, 'io:format("~0p", [systools:make_tar("shop", [{path, ["ebin"]}, silent])])')
    assert tar.startswith("{ok,"), tar
    os.mkdir(os.path.join(folder, "target"))
    subprocess.run(["tar", "xzf", "../shop.tar.gz"], cwd=os.path.join(folder, "target"), check=True, timeout=LONGEST_RUN)


# ---- A release of Elixir's Mix

MIX = """defmodule Duo.MixProject do
  use Mix.Project
  def project, do: [app: :duo, version: "0.3.0", releases: [duo: [include_executables_for: [:unix]]]]
  def application, do: [mod: {Duo, [size: 5]}, extra_applications: [:logger]]
end
"""
MIX_CONFIG = """import Config
config :kernel, distributed: [{:duo, 5000, [:a@host1, :b@host2]}], sync_nodes_optional: [:a@host1, :b@host2]
config :duo, rate: 1.5, names: %{a: "x"}
"""
MIX_FILES = {
    "mix.exs": MIX, "config/config.exs": MIX_CONFIG, "config/runtime.exs": "import Config\nconfig :duo, port: 1\n",
    "rel/vm.args.eex": "## Of <%= @release.name %>\n-kernel sync_nodes_timeout 10000\n",
    "lib/duo.ex": "defmodule Duo do\n  use Application\n  def start(_, _), do: Supervisor.start_link([], strategy: :one_for_one)\nend\n"}


def mixed(folder):
    """Makes a release of Mix in a folder, and gives where it lies there."""
    for name, text in MIX_FILES.items():
        write(folder, name, text)
    made = subprocess.run(["mix", "release"], cwd=folder, capture_output=True, text=True, timeout=LONGEST_RUN,
                          env={**os.environ, "MIX_ENV": "prod", "LC_ALL": "C.UTF-8", "HOME": folder})
    assert made.returncode == 0, made.stdout + made.stderr
    return "_build/prod/rel/duo"
