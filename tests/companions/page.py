"""Tests of companions/page: pages are opened in a real browser, headless Chromium, whose keys and mouse are used over its
DevTools pipe. What a page has to show is worked out by hand from docs/RULES.md, or told in README.md.
"""
import os
import re
import resource
import subprocess
import sys

from browser import OPTIONS
from groups import Group
from pages import COLUMN, HEADS, LABELS, OVERFLOW, WORDS, all_same, example, in_browser, made, page, same
from support import LONGEST_RUN, TOP, example_files, in_folder

sys.path.append(os.path.join(TOP, "companions"))
from rehearse_tools.page_names import names_of  # noqa: E402

NEEDS = ("chromium", "jinja2")
THREE_UP = """now 0
node cp1@cave up 1
  running myapp permanent normal
node cp2@cave up 1
  waiting myapp permanent
node cp3@cave up 1
  waiting myapp permanent
app myapp running cp1@cave
"""
# What a sheet of A4 on its side has room for, below its margins.
HIGHEST = 700
# The rows of the chart of examples/repaired-node.txt, with what stands in them at two steps.
AT_4 = [["step", ""], ["clock", "0 ms"], ["passes", ""], ["myapp", "myapp lost cp1@cave"],
        ["1 cp1", "cp1@cave is down, booted 1×"], ["myapp", "myapp lost cp1@cave"],
        ["2 cp2", "cp2@cave is up, booted 1×"], ["myapp", "myapp waits at cp2@cave, permanent"],
        ["3 cp3", "cp3@cave is up, booted 1×"], ["myapp", "myapp waits at cp3@cave, permanent"]]
AT_8 = [["step", ""], ["clock", "10000 ms"], ["passes", ""], ["myapp", "myapp running cp3@cave"],
        ["1 cp1", "cp1@cave is down, booted 1×"], ["myapp", ""],
        ["2 cp2", "cp2@cave is waiting, booted 2×"], ["myapp", ""],
        ["3 cp3", "cp3@cave is up, booted 1×"], ["myapp", "myapp runs at cp3@cave, permanent normal"]]
# 100 keys, and how many elements the chart had at most behind one. A key that is pressed would wait for the browser to paint,
# which on a machine with other work takes as long as that leaves.
HUNDRED_KEYS = """(() => {
  let most = 0;
  for (let key = 0; key < 100; key += 1) {
    document.dispatchEvent(new KeyboardEvent("keydown", { key: "ArrowRight" }));
    most = Math.max(most, document.getElementById("chart").getElementsByTagName("*").length);
  }
  return most;
})()"""
# Of each span that fills all that is in view beside the names: its words that are whole in view.
WHOLE_WORDS = """(() => {
  const frame = document.getElementById("frame");
  const left = document.getElementById("names").getBoundingClientRect().right;
  const right = frame.getBoundingClientRect().left + frame.clientWidth;
  return [...document.querySelectorAll("#body g")].map((span) => ({ span, box: span.querySelector("rect").getBoundingClientRect() }))
    .filter(({ box }) => box.left <= left + 1 && box.right >= right - 1).map(({ span }) => [...span.querySelectorAll("text")].filter((text) => {
      const box = text.getBoundingClientRect();
      return box.left >= left && box.right <= right;
    }).map((text) => text.textContent));
})()"""
# The space between each two clock numbers side by side that don't stand upright.
CLOCK_GAPS = """(() => {
  const boxes = [...document.querySelectorAll("#head text.clock")].filter((text) => !text.hasAttribute("transform"))
    .map((text) => text.getBoundingClientRect()).sort((one, other) => one.left - other.left);
  return boxes.slice(1).map((box, at) => box.left - boxes[at].right);
})()"""
# Names that end elements and begin others, were they put into a page as they stand.
STRANGE = ["</script><script>document.title=1</script>", "<img/src=x/onerror=document.title=2>", "&amp;\"<!--STORY-->", "\u00a0", "é\u2028x"]


def made_within(seconds, program, folder, words, text):
    """The path of a page, and what is wrong if the companion and the program took longer on a processor."""
    begin = resource.getrusage(resource.RUSAGE_CHILDREN)
    path = made(program, folder, words, text)
    end = resource.getrusage(resource.RUSAGE_CHILDREN)
    taken = end.ru_utime + end.ru_stime - begin.ru_utime - begin.ru_stime
    return path, None if taken < seconds else f"{taken:.1f} seconds"


def one_rehearsal(program, folder, browser):
    """A page of three nodes: its keys, its slider, its chart, the moment that it shows."""
    path = made(program, folder, [example("repaired-node.txt")])
    browser.open(path)
    yield "it loads, and asks for nothing else", browser.troubles()
    first = "now 0\n" + "".join(f"node cp{node}@cave down 0\n" for node in (1, 2, 3)) + "app myapp quiet\n"
    yield "it begins with the first state", all_same(("0", browser.text("step")), (first, browser.text("report")))
    yield "Right goes on", all_same(
        ("3", browser.press(*["ArrowRight"] * 3)), (THREE_UP, browser.text("report")), ("boot cp3@cave", browser.text("command")),
        ("ok\nup cp1@cave\nup cp2@cave\nup cp3@cave\nstarted myapp cp1@cave normal\nwaits myapp cp2@cave\nwaits myapp cp3@cave",
         browser.text("answer")))
    yield "Left goes back", all_same(("2", browser.press("ArrowLeft")), ("boot cp2@cave", browser.text("command")))
    yield "End and Home", all_same(("12", browser.press("End", "ArrowRight")), ("show", browser.text("command")),
                                   ("0", browser.press("Home", "ArrowLeft")), (first, browser.text("report")))
    left, top, width, height = browser.box("#slider")
    middle = (left + width / 2, top + height / 2)
    yield "the slider is dragged", all_same(
        ("6", browser.mouse((left + 8, middle[1]), (left + width / 4, middle[1]), middle)), ("5000", browser.text("clock")),
        ("7", browser.press("ArrowUp")), ("0", browser.press("PageUp")), ("10", browser.press("PageDown")))
    yield "undo goes back to the moment before", all_same(("undo", browser.text("command")), ("10000", browser.text("clock")))
    names, column = browser.box("#names"), browser.box("#cursor")[2]
    yield "a click into the chart", all_same(
        ("9", browser.mouse((names[0] + names[2] + 9.2 * column, names[1] + names[3] - 10))),
        ("4", browser.mouse((names[0] + names[2] + 4.8 * column, names[1] + 10))),
        ("Two of them fail, one after the other. Each time myapp moves on, five seconds later.", browser.text("notes")))
    yield "the chart where it is lost", same(AT_4, browser.value(COLUMN))
    browser.open(path, "#step=8")
    yield "the address tells a step", all_same(("8", browser.text("step")), (AT_8, browser.value(COLUMN)))
    yield "each span has a word", same(0, browser.value(
        "[...document.querySelectorAll('#body g')].filter((span) => span.querySelector('title') && !span.querySelector('text')).length"))
    browser.value("location.hash = '#step=3'")
    yield "a link to a step", same("3", browser.text_that_becomes("step", "3"))
    marked = ["node cp1@cave up 1", "  running myapp permanent normal", "node cp2@cave up 1", "  waiting myapp permanent",
              "node cp3@cave up 1", "  waiting myapp permanent", "app myapp running cp1@cave"]
    yield "what has changed is marked", same(marked, browser.value("[...document.querySelectorAll('#report b')].map((b) => b.textContent)"))
    yield "nothing went wrong in it", browser.troubles()


def wanted_and_forbidden(program, folder, browser):
    """The chart where no node can run an application: the example of the report in docs/SCRIPTS.md."""
    kernel = "{distributed, [{svc, 1000, [n1@lab, n2@lab]}]}"
    boot = "{rehearse, [{boot, [{log, permanent}, {svc, permanent}]}]}"
    text = f"{{node, n1@lab, [{{kernel, [{kernel}]}}, {boot}]}}.\n"
    text += f"{{node, n2@lab, [{{kernel, [{kernel}, {{permissions, [{{svc, false}}]}}]}}, {boot}]}}.\n"
    text += "{application, log, []}.\n{application, svc, [{applications, [log]}]}.\n===\n"
    text += "boot n1@lab\nboot n2@lab\ncrash n1@lab\ntick 1000\npermit n2@lab svc true\n"
    browser.open(made(program, folder, ["-"], text.encode()), "#step=4")
    yield "the chart where it is wanted", same(
        [["step", ""], ["clock", "1000 ms"], ["passes", "1000 ms pass"], ["svc", "svc wanted n1@lab"],
         ["1 n1", "n1@lab is down, booted 1×"], ["svc", "svc wanted n1@lab"], ["log", ""], ["2 n2", "n2@lab is up, booted 1×"],
         ["svc", "svc waits at n2@lab, permanent, forbidden"], ["log", "log runs at n2@lab, permanent normal"]], browser.value(COLUMN))
    browser.press("ArrowRight")
    have = browser.value(COLUMN)
    yield "the chart where it is permitted", all_same((["svc", "svc running n2@lab"], have[3]), (["svc", ""], have[5]),
                                                      (["svc", "svc runs at n2@lab, permanent normal"], have[8]))


def dumped(program, folder):
    """What the browser makes of a page when it is asked for no more than that."""
    path = made(program, folder, [example("repaired-node.txt")])
    done = subprocess.run(["chromium", *OPTIONS, f"--user-data-dir={folder}/other", "--dump-dom", f"file://{path}#step=7"],
                          stdin=subprocess.DEVNULL, stdout=subprocess.PIPE, stderr=subprocess.DEVNULL, timeout=LONGEST_RUN)
    text = done.stdout.decode()
    missing = [part for part in ('<b id="step">7</b>', "<b>app myapp running cp3@cave</b>", "<b>now 10000</b>") if part not in text]
    yield "a dump at a step", f"it lacks {missing}" if missing else None


def printed(program, folder, browser):
    """Printed, the chart stands in bands below one another, each with its labels."""
    ticks = b"".join(b"tick 1000\n" for _ in range(100))
    path = made(program, folder, ["-", "--title", "A <long> one"], b"{node, a@x, []}.\n===\nboot a@x\n" + ticks)
    browser.open(path)
    browser.value("addEventListener('beforeprint', () => { window.printed = document.querySelectorAll('.band').length; })")
    browser.call("Emulation.setEmulatedMedia", media="print")
    browser.call("Emulation.setDeviceMetricsOverride", width=1047, height=700, deviceScaleFactor=1, mobile=False)
    browser.value("dispatchEvent(new Event('beforeprint'))")
    bands = browser.value("[...document.querySelectorAll('.band')].map((band) => [band.getBoundingClientRect().top, "
                          "band.lastChild.getBoundingClientRect().right, band.firstChild.getBoundingClientRect().width, "
                          "getComputedStyle(band).breakInside])")
    yield "bands in print", all_same(
        (2, len(bands)), (sorted(bands), bands), (True, all(right <= 1047 and names > 40 for _, right, names, _ in bands)),
        ({"avoid"}, {cut for *_, cut in bands}), (0, browser.value("document.getElementById('frame').getBoundingClientRect().width")))
    yield "all steps are in print", same([str(step) for step in range(102) if step % 2 == 0], browser.value(
        "[...document.querySelectorAll('.band .number')].map((number) => number.textContent)"))
    yield "printed, a moment tells its step", same("step 0 of 101, clock 0 ms", browser.value("document.getElementById('told').innerText"))
    browser.value("dispatchEvent(new Event('afterprint'))")
    browser.value("window.printed = 0")
    pdf = browser.call("Page.printToPDF", preferCSSPageSize=True, printBackground=False)["data"]
    yield "it prints", None if pdf.startswith("JVBERi") and len(pdf) > 20_000 else f"{len(pdf)} characters, {pdf[:20]}"
    yield "it prints the chart", same(2, browser.value("window.printed"))
    browser.call("Emulation.setEmulatedMedia", media="")
    browser.call("Emulation.clearDeviceMetricsOverride")
    yield "its title", all_same(("A <long> one", browser.value("document.title")))


def strange_names(program, folder, browser):
    """Names, comments and words are shown as they are, whatever they would mean in a page."""
    nodes = "".join(f"{{node, '{name}', []}}.\n" for name in STRANGE)
    boots = "".join(f"# </script><!--DATA--> {name}\nboot {name}\n" for name in STRANGE)
    text = f"{nodes}===\n{boots}boot <i>nobody</i>\r\n".encode() + b"# \xff\nshow"
    browser.open(made(program, folder, ["--title", "mine", "-"], text))
    last = str(len(STRANGE) + 2)
    yield "strange names: all steps", all_same((last, browser.press("End")), ("show", browser.text("command")), ("ok", browser.text("answer")))
    report = "now 0\n" + "".join(f"node {name} up 1\n" for name in STRANGE)
    yield "strange names: the report", same(report, browser.text("report"))
    yield "strange names: a refused command", all_same(
        (str(int(last) - 1), browser.press("ArrowLeft")), ("boot <i>nobody</i>", browser.text("command")),
        ("refused S1 unknown_node", browser.text("answer")))
    yield "strange names: nothing else is run", browser.troubles() or all_same(
        ("mine", browser.value("document.title")), (1, browser.value("document.querySelectorAll('#chart').length")),
        (0, browser.value("document.querySelectorAll('img, i').length")))


def labels(program, folder, browser):
    """Names as a release makes them: all with the same front, and hosts of one domain."""
    hosts = [f"orders@{city}.prod.example.net" for city in ("ams1", "fra1", "ams2-app-09")]
    kernel = f"{{distributed, [{{ledger_writer, 500, [{', '.join(repr(host) for host in hosts)}]}}]}}"
    boot = "{boot, [{ledger_writer, permanent}]}"
    text = "".join(f"{{node, '{host}', [{{kernel, [{kernel}]}}, {{rehearse, [{boot}]}}]}}.\n" for host in hosts)
    text += "{application, ledger_writer, []}.\n===\n" + "".join(f"boot {host}\n" for host in hosts)
    text += f"permit {hosts[2]} ledger_writer false\ntick 90000\ncrash {hosts[0]}\ntick 500\ntick 1500\n"
    path = made(program, folder, ["-"], text.encode())
    browser.open(path, "#step=8")
    yield "labels of nodes", same(["1 orders@ams1", "2 orders@fra1", "3 orders@ams2-app-09"], browser.value(LABELS))
    yield "a full name as a tooltip", same(hosts, browser.value(
        "[...document.querySelectorAll('#names .node')].map((label) => label.parentNode.querySelector('title').textContent)"))
    yield "heads aren't cut", same("permit ams2-app-09 ledger_writer false", browser.value(HEADS)[4].replace("|", " "))
    yield "where it runs", same(["quiet", "orders@ams1", "lost", "orders@fra1"], browser.value(WORDS + "('ledger_writer')"))
    yield "times", same(["0 ms", "0:01:30", "0:01:30.500", "01:32"], browser.value(WORDS + "('clock')"))
    yield "what passes", all_same(
        (["+90 s", "500ms", "1.5s"], browser.value(WORDS + "('passes')")), (["90000 ms pass", "500 ms pass", "1500 ms pass"], browser.value(
            "[...document.querySelectorAll('#head rect.pass')].map((box) => box.parentNode.querySelector('title').textContent)")))
    yield "the clock of the moment", all_same(("92000", browser.text("clock")), (" (0:01:32)", browser.text("time")))
    browser.press("Home")
    yield "the next loss", all_same(("6", browser.press("n")), ("6", browser.press("n")), ("1 step with a loss", browser.text("losses")))
    yield from sizes_of(browser, path)


def sizes_of(browser, path):
    """The columns are made wider and narrower; a narrow window, in the light and in the dark."""
    width = "document.getElementById('cursor').getBoundingClientRect().width"
    before = browser.value(width)
    browser.press("+")
    wider = browser.value(width)
    browser.press("-", "-")
    yield "wider and narrower", None if wider > before > browser.value(width) else f"{wider} {before}"
    browser.press("f")
    yield "all side by side", same(True, browser.value("view.layout.x[view.layout.x.length - 1] <= sizes().width + 1"))
    browser.value("document.getElementById('by-time').click()")
    yield "a longer time is wider", same(True, browser.value("view.layout.x[6] - view.layout.x[5] > 4 * (view.layout.x[2] - view.layout.x[1])"))
    browser.call("Emulation.setDeviceMetricsOverride", width=400, height=800, deviceScaleFactor=1, mobile=False)
    browser.open(path, "#step=6")
    yield "400 points: nothing is wider than the window", same(0, browser.value(OVERFLOW))
    names, frame = browser.box("#names"), browser.box("#frame")
    yield "400 points: the names leave room", None if names[2] < 0.45 * frame[2] else f"{names} {frame}"
    yield "400 points: all controls are in the window", same([], browser.value(
        "[...document.querySelectorAll('.bar *')].filter((each) => each.getBoundingClientRect().right > innerWidth).map((each) => each.id)"))
    color = "getComputedStyle(document.body).backgroundColor"
    light = browser.value(color)
    browser.call("Emulation.setEmulatedMedia", features=[{"name": "prefers-color-scheme", "value": "dark"}])
    yield "dark and light", None if light == "rgb(255, 255, 255)" != browser.value(color) else light
    browser.call("Emulation.setEmulatedMedia", features=[])
    browser.call("Emulation.clearDeviceMetricsOverride")
    yield "its tables have captions and scopes", same(0, browser.value(
        "document.querySelectorAll('table:not(:has(caption)), th:not([scope])').length"))


def long_spans(program, folder, browser):
    """On a phone each span that fills what is in view has a whole word there, wherever that is. The third node comes and goes, and
    nothing else happens."""
    hosts = [f"orders@{host}" for host in ("ams1-app-01", "ams1-app-02", "fra1-app-01")]
    boot = f"{{distributed, [{{ledger, 500, ['{hosts[0]}', '{hosts[1]}']}}]}}]}}, {{rehearse, [{{boot, [{{ledger, permanent}}]}}]}}"
    text = "".join(f"{{node, '{host}', [{{kernel, [{boot}]}}.\n" for host in hosts[:2]) + f"{{node, '{hosts[2]}', []}}.\n"
    text += "{application, ledger, []}.\n===\n" + "".join(f"boot {host}\n" for host in hosts)
    text += f"crash {hosts[2]}\nboot {hosts[2]}\n" * 60
    browser.call("Emulation.setDeviceMetricsOverride", width=400, height=800, deviceScaleFactor=1, mobile=False)
    browser.open(made(program, folder, ["-"], text.encode()))
    seen = []
    for left in range(300, 1500, 90):
        browser.value(f"document.getElementById('frame').scrollLeft = {left}")
        browser.value("draw()")
        seen.append([set(words) for words in browser.value(WHOLE_WORDS)])
    owed = [{"ams1-app-01"}, {"up"}, {"runs"}, {"up"}, {"waits"}]
    yield "400 points: a word of each long span is in view", same([owed] * len(seen), seen)
    browser.call("Emulation.clearDeviceMetricsOverride")
    yield "400 points: nothing went wrong", browser.troubles()


def clock_numbers(program, folder, browser):
    """Numbers of the clock with five digits, a column each: these have 35 points, so they stand upright where a column has no room for 6
    more."""
    browser.open(made(program, folder, ["-"], ("{node, a@x, []}.\n===\nboot a@x\ntick 10000\n" + "tick 1000\n" * 45).encode()))
    for width, is_flat in ((28, False), (36, False), (38, False), (40, False), (42, True), (44, True)):
        browser.value(f"zoom({width})")
        gaps = browser.value(CLOCK_GAPS)
        is_right = len(gaps) > 5 and min(gaps) > 3 if is_flat else len(gaps) <= 1
        yield f"clock numbers in columns of {width} points", None if is_right else f"{gaps}"


def short_names(_program, _folder):
    """What tells nodes from one another."""
    for full, labels_owed, shorts, lacks in (
            (["a@h1.x.net", "a@h2.x.net"], ["a@h1", "a@h2"], ["h1", "h2"], ".x.net"), (["a@h", "b@h"], ["a", "b"], ["a", "b"], "@h"),
            (["a@h1", "b@h2"], ["a@h1", "b@h2"], ["a", "b"], ""), (["a@x.net", "a@b.x.net"], ["a@x", "a@b.x"], ["x", "b.x"], ".net"),
            (["a@h1.x", "b@h1.x", "a@h2.x"], ["a@h1", "b@h1", "a@h2"], ["a@h1", "b@h1", "a@h2"], ".x"),
            (["a@h.x"], ["a@h.x"], ["a@h.x"], ""), (["n1", "n2@h"], ["n1", "n2@h"], ["n1", "n2@h"], "")):
        names = names_of(full)
        yield f"short names of {full}", all_same((labels_owed, [names.all[name].label for name in full]),
                                                 (shorts, [names.all[name].short for name in full]), (lacks, names.lacks))


def greatest(program, folder, browser):
    """As many nodes and applications as profile 2 has. Each application is started at two of them, so each node has four."""
    pairs = [(app % 64, (app + 1) % 64) for app in range(128)]
    entries = ", ".join(f"{{p{app}, 500, [n{first}, n{second}]}}" for app, (first, second) in enumerate(pairs))
    text = ""
    for node in range(64):
        boot = ", ".join(f"{{p{app}, permanent}}" for app, pair in enumerate(pairs) if node in pair)
        text += f"{{node, n{node}, [{{kernel, [{{distributed, [{entries}]}}]}}, {{rehearse, [{{boot, [{boot}]}}]}}]}}.\n"
    text += "".join(f"{{application, p{app}, []}}.\n" for app in range(128)) + "===\n"
    text += "".join(f"boot n{node}\n" for node in range(64)) + "crash n63\ntick 500\nstop_all p127\n"
    done = page(program, ["-"], text.encode())
    is_told = done.returncode == 2 and not done.stdout and b"standard input: cluster refused C3 too_many" in done.stderr
    yield "64 nodes of profile 1", None if is_told else f"{done}"
    path, wrong = made_within(10, program, folder, ["-"], ("{profile, 2}.\n" + text).encode())
    yield "64 nodes: made in 10 seconds", wrong
    browser.open(path)
    browser.press("End")
    yield "64 nodes: at most 0.5 MB", None if os.path.getsize(path) < 500_000 else f"{os.path.getsize(path)} bytes"
    yield "64 nodes: what is counted", same(
        "64 nodes, profile 2, 67 steps, 500 ms", browser.value("document.querySelector('p.small').textContent").split(".")[0])
    yield "64 nodes: the rows", all_same(*(
        (count, browser.value(f"view.layout.body.filter(({{ row }}) => row.kind === '{kind}').length"))
        for kind, count in (("app", 128), ("node", 64), ("lane", 256))))
    browser.value("dispatchEvent(new Event('beforeprint'))")
    highest = browser.value("Math.max(...[...document.querySelectorAll('.band .names')].map((names) => names.height.baseVal.value))")
    yield "64 nodes: no block of the chart is higher than a sheet", None if highest <= HIGHEST else f"{highest}"
    # p63 and p127 are lost with n63, and n0 is behind it in their lists.
    lines = browser.text("report").split("\n")
    browser.value("document.getElementById('frame').scrollTo(300, 3000)")
    frame, head, names = (browser.box(selector) for selector in ("#frame", "#head", "#names"))
    yield "64 nodes: heads and names stay in view", all_same((frame[1], head[1]), (frame[0], names[0]), (True, names[1] < frame[1] - 2000))
    browser.value("draw()")
    # Also where it ran for one step alone the chart tells where: here the last node.
    yield "64 nodes: a node's number fits into a column", same("64", browser.value("fitting(['n63', '64', 'R'], usualWidth(base) - 2)"))
    yield "64 nodes: what is in view is drawn", same([True, True], browser.value(
        "[isDrawn(), document.querySelectorAll('#names g').length < 200]"))
    yield "64 nodes: the end", all_same(
        ("ok\nstopped p127 n0", browser.text("answer")), (True, "node n63 down 1" in lines),
        (["app p62 running n62", "app p63 running n0", "app p64 running n0"],
         [line for line in lines if re.match("app p6[234] ", line)]), (True, "app p127 quiet" in lines))
    yield "64 nodes: nothing went wrong", browser.troubles()


def large(program, folder, browser):
    """32 nodes and 2,000 steps: 32 boots, and 492 times a crash, a tick, the boot and a tick."""
    nodes = [f"n{number}@x" for number in range(32)]
    kernel = "{kernel, [{distributed, [{svc, 1000, [n0@x, n1@x]}, {far, 500, [n31@x, {n2@x, n3@x, n4@x}]}]}]}"
    also = {"n0@x": ", {svc, permanent}", "n1@x": ", {svc, permanent}"}
    also.update({node: ", {far, permanent}" for node in ("n31@x", "n2@x", "n3@x", "n4@x")})
    text = "".join(f"{{node, {node}, [{kernel}, {{rehearse, [{{boot, [{{log, permanent}}{also.get(node, '')}]}}]}}]}}.\n" for node in nodes)
    text += "{application, svc, []}. {application, far, []}. {application, log, []}.\n===\n" + "".join(f"boot {node}\n" for node in nodes)
    turns = [nodes[turn % 32] for turn in range(492)]
    text += "".join(f"crash {node}\ntick 1000\nboot {node}\ntick 1000\n" for node in turns)
    path, wrong = made_within(10, program, folder, ["-"], text.encode())
    yield "2,000 steps: made in 10 seconds", wrong
    browser.open(path)
    browser.press("End")
    yield "2,000 steps: at most 1 MB", None if os.path.getsize(path) < 1_000_000 else f"{os.path.getsize(path)} bytes"
    # 492 is 15 times 32 and 12: so often n0 crashed once more than n31.
    ends = [line for line in browser.text("report").split("\n") if line.startswith(("app ", "timer ", "node n0@x", "node n31@x"))]
    yield "2,000 steps: the end", all_same(
        ("2000", browser.text("step")), ("984000", browser.text("clock")), ("tick 1000", browser.text("command")),
        (["node n0@x up 17", "node n31@x up 16", "app svc running n0@x", "app far running n31@x"], ends))
    shown = browser.value("(() => { const c = document.getElementById('cursor').getBoundingClientRect(),"
                          " f = document.getElementById('frame').getBoundingClientRect(); return c.left >= f.left && c.right <= f.right + 1; })()")
    yield "2,000 steps: the step is in view", same(True, shown)
    left, top, width, height = browser.box("#overview")
    browser.mouse((left + width / 2, top + height / 2))
    yield "2,000 steps: a click into the strip above", same(True, browser.value(
        "Math.abs(columnAt(view.layout.x, sizes().left + sizes().width / 2) - 1000) < 20"))
    browser.press("Home", *["ArrowRight"] * 33)
    lost = [line for line in browser.text("report").split("\n") if line.startswith(("app ", "timer ", "node n0@x"))]
    yield "2,000 steps: it is lost", same(["node n0@x down 1", "app svc lost n0@x", "app far running n31@x", "timer failover svc 1000"], lost)
    yield "2,000 steps: it runs elsewhere", all_same(("34", browser.press("ArrowRight")), ("ok\nstarted svc n1@x normal", browser.text("answer")))
    yield "2,000 steps: it is taken over", all_same(
        ("35", browser.press("ArrowRight")), (True, "started svc n0@x takeover n1@x\nstopped svc n1@x" in browser.text("answer")))
    most = browser.value(HUNDRED_KEYS)
    yield "2,000 steps: only what is in view is drawn", all_same(("135", browser.text("step"))) or (None if most < 10_000 else f"{most} elements")
    yield "2,000 steps: nothing went wrong", browser.troubles()


def refusals(program, folder):
    """What is refused, with its status, and words of what is told."""
    cluster = b"{node, a@x, []}.\n===\n"
    for name, words, text, status, told in [
            ("a bad line", [], cluster + b"boot a@x\n\nreboot a@x\n", 2, "standard input line 5 (line 3 behind ===): it is no command here: reboot a@x"),
            ("a plan without --sweep", [], cluster + b"plan p\n", 2, "line 3 (line 1 behind ===): plans need --sweep: plan p"),
            ("undo in a plan", ["--sweep"], cluster + b"plan p\nundo\n", 2, "line 4 (line 2 behind ===): it is no command here: undo"),
            ("a base that isn't at its end", ["--sweep"], cluster + b"boot a@x\nundo\nplan p\n", 2, "sweep refused V2 base_not_at_end"),
            ("a cluster file", [], b"{node, a@x, []}. {node, a@x, []}.", 2, "standard input: cluster refused C4 duplicate_name"),
            ("a text that is cut", [], b"{node, a@x, ", 2, "cluster refused C1 T1 syntax line 1"),
            ("too many commands", [], cluster + b"show\n" * 10_001, 2, "10001 commands; a page shows at most 10000"),
            ("a file that isn't there", [f"{folder}/none"], b"", 2, f"{folder}/none: No such file"),
            ("no plans", ["--sweep"], cluster + b"boot a@x\n", 2, "standard input: it has no plans, which --sweep needs: companions/plans"),
            ("a place that isn't there", ["-o", f"{folder}/none/page.html"], cluster, 2, f"{folder}/none/page.html: No such file"),
            ("a number of workers", ["--workers", "17"], b"", 1, "--workers"),
            ("a program that isn't there", ["--rehearse", f"{folder}/none"], b"", 1, f"no program {folder}/none"),
            ("another program", ["--rehearse", "/bin/true"], cluster, 2, "/bin/true isn't the program: it doesn't answer as that does")]:
        done = page(program, words, text)
        is_told = done.returncode == status and not done.stdout and told.encode() in done.stderr and b"Traceback" not in done.stderr
        yield f"refused: {name}", None if is_told else f"status {done.returncode}: {done.stdout[:100]} {done.stderr}"
    done = page(program, ["--help"])
    missing = [word for word in ("--sweep", "#step=12", "Home", "examples/repaired-node.txt", "Exit status") if word not in done.stdout.decode()]
    yield "--help", f"status {done.returncode}, it lacks {missing}" if done.returncode or missing else None


def all_examples(program, _):
    """Each example of a run makes a page, on standard output; no script makes one too."""
    for path in example_files():
        with open(path, "rb") as file:
            text = file.read()
        if any(line in text for line in (b"\nplan ", b"\nmay ", b"\n1 ")) or "refused" in path or "bad-line" in path:
            continue
        done = page(program, [path])
        is_page = done.stdout.startswith(b"<!DOCTYPE html>") and done.stdout.endswith(b"</html>\n") and not done.stderr
        yield os.path.relpath(path, TOP), None if done.returncode == 0 and is_page else f"status {done.returncode}: {done.stderr}"


TESTS = (*(Group(in_browser(part), is_long=True) for part in (large, greatest)),
         *map(in_browser, (one_rehearsal, wanted_and_forbidden, printed, strange_names, labels, long_spans, clock_numbers)),
         *map(in_folder, (dumped, refusals, all_examples, short_names)))
