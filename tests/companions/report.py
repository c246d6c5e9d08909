"""Tests of rehearse-tools report. What a report owes is worked out by hand from docs/RULES.md, and from docs/LIVE_OTP.md what live nodes
would do otherwise."""
import html
import json
import os
import re
import subprocess
import tarfile

from browser import Browser
from gathered import mixed
from groups import Group
from releases import write
from support import LONGEST_RUN, TOP, in_folder, read

NEEDS = ("jinja2",)
COMMAND = os.path.join(TOP, "companions", "rehearse-tools")
ENTRY = "{node, %s, [{kernel, [{distributed, [%s]}, {sync_nodes_optional, [%s]}, {sync_nodes_timeout, 1000}]}, {rehearse, [{boot, [%s]}]}]}.\n"
# web runs at a@x, else at b@x; one and two run at a@x, else at the same two standbys after the same time.
PAIR, TRIPLE = ("a@x", "b@x"), ("a@x", "b@x", "c@x")
WEB = ("{web, 5000, [a@x, b@x]}", ("web",))
# As many states are reached there by crashes, boots and waits of 5000 ms, as the search of tests/explored.py counts them; by up to two of
# them; and if one node at most is down.
STATES, STATES_BY_TWO, STATES_OF_ONE = 16, 5, 4
TOGETHER = ("{one, 2000, [a@x, {b@x, c@x}]}, {two, 2000, [a@x, {b@x, c@x}]}", ("one", "two"))


def cluster(nodes, entries):
    """A cluster file of some nodes that all boot the same applications."""
    distributed, apps = entries
    boot = ", ".join(f"{{{app}, permanent}}" for app in apps)
    return "".join(ENTRY % (node, distributed, ", ".join(nodes), boot) for node in nodes) + "".join(f"{{application, {app}, []}}.\n" for app in apps)


def report(program, *words, **options):
    """A finished run of the tool."""
    return subprocess.run([COMMAND, "report", "--rehearse", program, *words], capture_output=True, text=True, timeout=LONGEST_RUN, **options)


def written(folder, text, name="cluster.txt"):
    """The path of a file with a text."""
    path = os.path.join(folder, name)
    with open(path, "w", encoding="utf-8") as file:
        file.write(text)
    return path


def text_of(markup):
    """What is read of some HTML: its cells apart by a bar, its white space as one blank."""
    plain = html.unescape(re.sub(r"<[^>]*>", "", re.sub(r"</t[dh]>", " | ", markup)))
    return re.sub(r"\s+", " ", plain).strip()


def part(page, name):
    """The text of the element with this id."""
    found = re.search(rf'<(\w+)[^>]* id="{re.escape(name)}"[^>]*>(.*?)</\1>|<(\w+) id="{re.escape(name)}"[^>]*>(.*?)</\3>', page, re.DOTALL)
    return text_of(found[2] or found[4]) if found else f"there is no {name}"


def title_of(page):
    """The title of a page."""
    found = re.search("<title>(.*?)</title>", page)
    return found and html.unescape(found[1])


def row(page, app):
    """The cells of an application's row."""
    rows = [[text_of(cell) for cell in re.split(r"</t[dh]>", cells)[:-1]]
            for cells in re.findall(r"(?s)<tr>(<th scope=\"row\">.*?)</tr>", page)]
    return next((cells for cells in rows if cells[0] == app), None)


def owed(name, have, want):
    """A test of one value."""
    return name, None if have == want else f"want {want!r}, have {have!r}"


def losses(program, folder):
    """An application of two nodes survives the loss of each, and not of both."""
    path = written(folder, cluster(PAIR, WEB))
    asked = ["boot a@x", "boot b@x", "may crash *", "may boot *", "may tick 5000", "down 2", "ask app web running"]
    done = report(program, path)
    yield "a cluster file of two nodes", None if done.returncode == 0 and not done.stderr else f"{done}"[:2000]
    page = done.stdout
    yield owed("in one sentence", part(page, "headline"),
               "Of 1 distributed application, over every loss of up to 2 nodes (3 plans): 1 application is not safe.")
    yield owed("every order of events", part(page, "explored"),
               f"Explored: every order of crashes, boots and waits of 5000 ms, however long, with at most 2 nodes not up ({STATES} states). "
               "Behind some of them this one runs nowhere: web.")
    yield owed("its row", row(page, "web"), ["web", "a", "not safe", "a + b", "5000 ms (a)", "5000 ms (a+b)", "0"])
    told = part(page, "loss-web-1")
    is_right = told.startswith("Behind the loss of a and b it is wanted a.") and told.endswith("crash a@x crash b@x tick 5000")
    yield "the shortest sequence", None if is_right else told
    yield owed("the links to its steps", re.findall(r'href="#plan=([^"]*)"', page), ["a%40x%2Bb%40x"])
    commands = part(page, "commands")
    yield owed("the commands to repeat it", commands, (
        f"./rehearse check < {path} ./rehearse lint {path} companions/rehearse-tools plans {path} --crashes 2 > plans.txt "
        "./rehearse sweep --json < plans.txt | companions/rehearse-tools survey --of plans.txt --least "
        f"./rehearse explore --states 200000 --memory 256 {path} - << 'EOF' {' '.join(asked)} EOF "
        "companions/rehearse-tools live --plans plans.txt companions/rehearse-tools page --sweep plans.txt > plans.html"))
    yield "the plans step by step", None if page.count("class=open data-plan=") == 3 else page[-2000:]
    yield owed("the title", title_of(page), f"What {path} survives")


def safe(program, folder):
    """Over the loss of one node it is safe; where live nodes aren't asked only by the rules."""
    path = written(folder, cluster(PAIR, WEB))
    for words, verdict, doubts in (((), "safe", "0"), (("--no-live",), "safe by the rules alone", "")):
        page = report(program, "--crashes", "1", *words, path).stdout
        yield owed(f"{verdict}", row(page, "web"), ["web", "a", verdict, "none", "5000 ms (a)", "", doubts])
        yield owed(f"{verdict}, in one sentence", part(page, "headline"),
                   f"Of 1 distributed application, over every loss of one node (2 plans): 1 application is {verdict}.")
    page = report(program, "--crashes", "1", "--title", "<Mine> & yours", path).stdout
    yield "a title", None if "<title>&lt;Mine&gt; &amp; yours</title>" in page and "<Mine>" not in page else page[:500]
    done = report(program, "--crashes", "1", path, "-o", os.path.join(folder, "page.html"))
    there = os.path.join(folder, "page.html")
    is_right = done.returncode == 0 and not done.stdout and os.path.getsize(there) > 10_000
    yield "-o", None if is_right else f"{done}"


def otherwise(program, folder):
    """Applications that share a tuple of standbys and a timeout run elsewhere by the rules; live nodes hang."""
    done = report(program, "--crashes", "1", written(folder, cluster(TRIPLE, TOGETHER)))
    page = done.stdout
    yield owed("in one sentence", part(page, "headline"),
               "Of 2 distributed applications, over every loss of one node (3 plans): 2 applications are safe by the rules alone.")
    yield owed("the row of one", row(page, "one"), ["one", "a", "safe by the rules alone", "none", "2000 ms (a)", "", "1"])
    live = part(page, "live")
    is_right = "applications lost together wait for one another at the standbys | 1 | a hangs at tick 2000" in live
    yield "why", None if is_right and "docs/LIVE_OTP.md#lost-together" in live else live
    yield owed("what hangs", part(page, "stuck"), "They hang, or burn, for good in: a.")
    heads, rows = re.findall(r"<button type=button class=sort>([^<]*)", page), re.findall(r'(?s)<tr[^>]*data-kinds="([^"]*)">(.*?)</tr>', page)
    yield owed("a column for live nodes", heads[:5], ["Plan", "one", "two", "live nodes", "Its events"])
    yield owed("what live nodes do in each plan", [(kinds, re.findall(r"<td class=\w+>(agrees|hangs)</td>", cells)) for kinds, cells in rows],
               [("moved live", ["hangs"]), ("", ["agrees"]), ("", ["agrees"])])
    yield "a box for these plans", None if "value=live autocomplete=off>differs live (1)</label>" in page else part(page, "filters")


def otherwise_booted(program, folder):
    """Without sync_nodes_* live nodes don't know one another, and each runs an instance: that is so at the boot already."""
    text = re.sub(r", {sync_nodes_optional, [^]]*]}, {sync_nodes_timeout, 1000}", "", cluster(PAIR, WEB))
    page = report(program, "--crashes", "1", written(folder, text)).stdout
    told = text_of(page.split('<section id="summary"')[1].split("<table")[0])
    yield owed("web", (row(page, "web") or [])[:4], ["web", "a", "safe by the rules alone", "none"])
    yield "what differs", None if "They differ at the boot of all nodes already: boot b@x: without sync_nodes_* the nodes don't connect" in told else told


def lists(program, folder):
    """Where explore finds a list behind which an application runs nowhere, which survives each loss, it isn't safe, and the list is
    shown. No cluster is known for which it does: so a program stands in that says so."""
    path = written(folder, cluster(PAIR, WEB))
    lines = [{"line": 1, "command": "boot a@x", "answer": "ok", "notices": []},
             {"states": 7, "deepest": 3, "steps": 3, "down": 1, "finished": False},
             {"ask": 1, "holds": False, "events": ["crash a@x", "boot a@x"],
              "report": {"time": 0, "nodes": [], "applications": [], "timers": []}}]
    told = "\n".join(map(json.dumps, lines))
    script = written(folder, f"""#!/bin/sh
[ "$1 $2" = 'explore --json' ] || exec "{program}" "$@"
cat << 'EOF'
{told}
EOF
exit 9
""", "program")
    os.chmod(script, 0o700)
    page = report(script, "--crashes", "1", "--no-live", path).stdout
    yield owed("its row", row(page, "web"), ["web", "a", "not safe", "none", "5000 ms (a)", "", ""])
    told = part(page, "list-web")
    yield "its list", None if told.startswith("It survives each loss") and told.endswith("crash a@x boot a@x") else told
    yield owed("how far it looked", part(page, "explored"),
               "Explored: every list of up to 3 crashes, boots and waits of 5000 ms, with at most 1 node not up (7 states). "
               "Longer lists lead to more states than a report looks at. Behind some of them this one runs nowhere: web.")


def lengths(program, folder):
    """How long the lists are that were tried: of any length, as many as were asked for, or as many as there is room for."""
    path = written(folder, cluster(PAIR, WEB))
    small = written(folder, f"""#!/bin/sh
[ "$*" != 'explore --json --pick first --states 200000 --memory 256' ] || exec "{program}" explore --json --states 8
exec "{program}" "$@"
""", "small")
    os.chmod(small, 0o700)
    runs = "Behind each of them, where no timer is set, this application runs: web."
    nowhere = "Behind some of them this one runs nowhere: web."
    some = "crashes, boots and waits of 5000 ms"
    for name, words, other, steps, told in [
            ("of any length", ["--crashes", "1"], program, [],
             f"every order of {some}, however long, with at most 1 node not up ({STATES_OF_ONE} states). {runs}"),
            ("two steps", ["--steps", "2"], program, ["2"],
             f"every list of up to 2 {some}, with at most 2 nodes not up ({STATES_BY_TWO} states). {runs}"),
            ("more steps than there are", ["--steps", "6"], program, ["6"],
             f"every order of {some}, however long, with at most 2 nodes not up ({STATES} states). {nowhere}"),
            ("no more room", [], small, [], f"every list of up to 2 {some}, with at most 2 nodes not up (8 states). Longer lists lead to "
             f"more states than a report looks at. {nowhere}")]:
        page = report(other, "--no-live", *words, path).stdout
        yield owed(name, part(page, "explored"), f"Explored: {told}")
        yield owed(f"{name}: the steps that are asked for", re.findall(r"\bsteps (\d+)", part(page, "commands")), steps)


def no_lists(program, folder):
    """Without explore, or where it tells nothing as JSON, nothing is said of lists; one that answers nothing is refused."""
    path = written(folder, cluster(PAIR, WEB))
    others = {status: written(folder, f"""#!/bin/sh
[ "$1" = explore ] && exit {status}
exec "{program}" "$@"
""", f"program-{status}") for status in (0, 1)}
    for other in others.values():
        os.chmod(other, 0o700)
    for words, other in ((["--no-explore"], program), ([], others[1])):
        page = report(other, "--crashes", "1", "--no-live", *words, path).stdout
        is_right = "Explored:" not in page and "rehearse explore" not in page and "safe by the rules alone" in page
        yield f"no explore: {words}", None if is_right else page[:500]
        yield f"no live: {words}", None if "live nodes</button>" not in page and "differs live" not in page else "they are there"
    done = report(others[0], path)
    yield "explore answers nothing", None if done.returncode == 2 and "explore doesn't answer each question" in done.stderr else f"{done}"


def unstarted(program, folder):
    """What nobody starts isn't safe, and no loss is to blame for it; and where nothing is distributed that is said."""
    idle = cluster(PAIR, WEB).replace("{boot, [{web, permanent}]}", "{boot, []}")
    page = report(program, "--crashes", "1", written(folder, idle)).stdout
    # Nothing fails over, so the longest wait is that of a booting node.
    owed_row = ["web", "quiet", "not safe", "none is needed: it doesn't run behind the boot of all nodes", "", "1000 ms (a, b)", "0"]
    yield owed("an application that nobody starts", row(page, "web"), owed_row)
    page = report(program, "--crashes", "1", written(folder, cluster(PAIR, WEB).replace("{distributed,", "{distribted,"))).stdout
    yield owed("nothing is distributed", part(page, "headline"),
               "No application is distributed, so none fails over. Is a name in the configuration misspelt?")


def faults(program, folder):
    """What isn't there, or is refused."""
    path = written(folder, cluster(PAIR, WEB))
    wrong = written(folder, "{node, a@x, [}.", "wrong.txt")
    for words, status, told in (
            ([], 1, "the following arguments are required: RELEASE"), (["/nowhere"], 2, "report: /nowhere: No such file or directory"),
            ([wrong], 2, f"report: {wrong}: cluster refused C1 T1 syntax line 1"),
            ([path, "--crashes", "0"], 1, "--crashes: '0' is no number from 1 on"),
            ([folder, f"{folder}:a@x"], 2, f"report: {folder}: which nodes run it?")):
        done = report(program, *words)
        is_right = done.returncode == status and not done.stdout and told in done.stderr and "Traceback" not in done.stderr
        yield f"refused: {told}", None if is_right else f"{done}"


def from_release(program, folder):
    """The release of README.md, unpacked and packed: its nodes are those that its configuration names."""
    subprocess.run([os.path.join(TOP, "examples", "shop", "make"), os.path.join(folder, "target")], check=True, capture_output=True,
                   timeout=LONGEST_RUN)
    done = report(program, "target", cwd=folder)
    page = done.stdout
    yield "a release", None if done.returncode == 0 and not done.stderr else f"{done}"[:2000]
    # As README.md tells it of its fourth and sixth command.
    away = "5000 ms (a@host1, a@host1+b@host2, a@host1+c@host3)"
    yield owed("billing", row(page, "billing"), ["billing", "a@host1", "safe", "none", away, "", "0"])
    yield owed("report", row(page, "report"), ["report", "c@host3", "not safe", "a@host1 + c@host3", "2000 ms (c@host3, b@host2+c@host3)",
                                              "10000 ms (a@host1+c@host3)", "0"])
    yield owed("its title", title_of(page), "What shop survives")
    command = part(page, "commands").split(" ./rehearse check")[0]
    yield owed("the command of the cluster file", command, "companions/rehearse-tools gather --release target --named > cluster.txt")
    done = report(program, "--crashes", "1", "target:a@host1,b@host2,c@host3", cwd=folder)
    is_right = done.returncode == 0 and "--node c@host3 --release target" in part(done.stdout, "commands")
    yield "a release with its nodes", None if is_right else f"{done}"[:2000]
    done = report(program, "target:a@host1", cwd=folder)
    is_right = done.returncode == 2 and "names b@host2, which isn't given: add --node b@host2" in done.stderr and not done.stdout
    yield "a node that isn't given", None if is_right else f"{done}"[:2000]


THREE_NODES = """[{kernel, [{distributed, [{web, 5000, [a@x, b@x]}, {far, 5000, [c@x]}]}, {sync_nodes_optional, [a@x, b@x, c@x]},
  {sync_nodes_timeout, 1000}]}]."""


def unpacked(folder, where, name, app):
    """Writes a release of one application, as it lies in a folder when it was unpacked, but without a boot script."""
    write(folder, f"{where}/releases/start_erl.data", "1 7.1\n")
    write(folder, f"{where}/releases/7.1/start.rel", f'{{release, {{"{name}", "7.1"}}, {{erts, "1"}}, [{{kernel, "1"}}, {{stdlib, "1"}}, {{{app}, "1.0"}}]}}.\n')
    write(folder, f"{where}/releases/7.1/sys.config", THREE_NODES)
    write(folder, f"{where}/lib/{app}-1.0/ebin/{app}.app", f'{{application, {app}, [{{vsn, "1.0"}}, {{applications, [kernel, stdlib]}}]}}.\n')


def titles(program, folder):
    """The title has the names that the releases give themselves, each once, and not those of their folders or archives."""
    unpacked(folder, "first", "web shop", "web")
    unpacked(folder, "second", "edge", "far")
    with tarfile.open(os.path.join(folder, "packed.tar.gz"), "w:gz") as archive:
        for name in ("releases", "lib"):
            archive.add(os.path.join(folder, "second", name), name)
    for name, words, title in [
            ("a folder and an archive", ["first:a@x,b@x", "packed.tar.gz:c@x"], "What web shop, edge survives"),
            ("the other way round", ["packed.tar.gz:c@x", "first:b@x,a@x"], "What edge, web shop survives"),
            ("two of one name", ["first:a@x", "first:b@x", "second:c@x"], "What web shop, edge survives"),
            ("another title", ["first:a@x,b@x", "second:c@x", "--title", "Mine"], "Mine")]:
        done = report(program, "--no-live", "--no-explore", "--crashes", "1", *words, cwd=folder)
        yield owed(f"the title of {name}", (title_of(done.stdout), done.stderr), (title, ""))


def secrets(program, folder):
    """The values of variables that are secrets by their names stand nowhere in a page, and those of others in the command."""
    unpacked(folder, "first", "web shop", "web")
    variables = {"COOKIE": "w0rd1", "Db_Password": "w0rd2=w0rd3", "release_secret_at": "w0rd4", "APITOKEN": "w0rd5 w0rd6", "ssh_key": "w0rd7",
                 "REGION": "north west", "NOTHING": "", "MORE": "a_key=b"}
    write(folder, "first/releases/7.1/vm.args.src", "".join(f"-any '${{{name}}}'\n" for name in variables))
    given = [word for name, value in variables.items() for word in ("--env", f"{name}={value}")]
    for words, behind in ((["first"], "--release first --named {}"), (["first:a@x,b@x,c@x"], "{} " + " ".join(
            f"--node {node} --release first" for node in ("a@x", "b@x", "c@x")))):
        done = report(program, "--no-live", "--no-explore", "--crashes", "1", *given, *words, cwd=folder)
        shown = behind.format("--env COOKIE=... --env Db_Password=... --env release_secret_at=... --env APITOKEN=... --env ssh_key=... "
                              "--env 'REGION=north west' --env NOTHING= --env MORE=a_key=b")
        command = part(done.stdout, "commands").split(" ./rehearse check")[0]
        yield owed(f"the command of {words[0]}", command, f"companions/rehearse-tools gather {shown} > cluster.txt")
        yield owed(f"what is hidden of {words[0]}", (re.findall("w0rd.", done.stdout), done.stderr), ([], ""))


def mix_title(program, folder):
    """A release of Elixir's Mix gives itself a name too."""
    os.rename(os.path.join(folder, mixed(folder)), os.path.join(folder, "unpacked"))
    done = report(program, "--no-live", "--crashes", "1", "unpacked", cwd=folder)
    yield owed("the title of a release of Mix", title_of(done.stdout), "What duo survives")


def in_browser(program, folder):
    """The summary stands above the plans and their steps, and a link of it opens the steps of a plan."""
    there = os.path.join(folder, "page.html")
    report(program, written(folder, cluster(PAIR, WEB)), "-o", there)
    page = read(there).decode()
    ids = re.findall(r'\bid="([^"]*)"', page.split("<script", 1)[0])
    yield owed("each id stands once", len(ids), len(set(ids)))
    browser = Browser(folder)
    try:
        browser.open(there, "#plan=a%40x%2Bb%40x")
        yield owed("the plan that is shown", browser.text("of"), "Plan a@x+b@x")
        yield owed("its end", browser.text("report").strip().split("\n")[-1], "app web wanted a@x")
        yield owed("the summary", browser.text("headline"), part(page, "headline"))
        browser.open(there, "")
        yield owed("the base first", browser.text("of"), "The base")
        browser.value("document.querySelector('#loss-web-1 a').click()")
        yield owed("a link to a plan", browser.text_that_becomes("of", "Plan a@x+b@x"), "Plan a@x+b@x")
        yield "nothing went wrong in the page", browser.troubles()
    finally:
        browser.close()


TESTS = (*(Group(in_folder(tests)) for tests in (losses, safe, otherwise, otherwise_booted, lists, lengths, no_lists, unstarted, faults)),
         Group(in_folder(in_browser), needs=("chromium",)), Group(in_folder(from_release), needs=("erl", "escript", "erlc")),
         *(Group(in_folder(tests), needs=("escript",)) for tests in (titles, secrets)), Group(in_folder(mix_title), needs=("mix", "escript")))
