"""Tests of companions/page --sweep: its table of plans and their steps, in a real browser. What became of the plans is worked out
by hand from docs/RULES.md, or told in README.md.
"""
from pages import COLUMN, HEADS, OVERFLOW, REFUSED_COMMANDS, ROWS_OF_PLANS, SHOWN_PLANS, WORDS, all_same, example, in_browser, made, page, same
from support import in_folder

NEEDS = ("chromium", "jinja2")
# Both nodes boot web, which is sent away from a@x at step 3. Behind that come plans.
TWO_NODES = "".join(f"{{node, {node}, [{{kernel, [{{distributed, [{{web, 500, [a@x, b@x]}}]}}]}},\n"
                    "  {rehearse, [{boot, [{web, permanent}]}]}]}.\n" for node in ("a@x", "b@x")) + "{application, web, []}.\n===\n"
SENT_AWAY = "boot a@x\nboot b@x\npermit a@x web false\n"
AT_ALL = "# It may run there again.\npermit a@x web true\nstop_all web\nstart_all web temporary\nstart_all web permanent\n"
# The answer where web is permitted again, by the profile, and what the chart shows then: where web stands, and what it does at a@x
# and at b@x.
PULLED_BACK = {
    1: ("ok", "running b@x", "web waits at a@x, permanent", "web runs at b@x, permanent normal"),
    2: ("ok\nstarted web a@x takeover b@x\nstopped web b@x", "running a@x", "web runs at a@x, permanent takeover b@x",
        "web waits at b@x, permanent")}
STOPPED = {1: "ok\nstopped web b@x", 2: "ok\nstopped web a@x"}
PLANS_AT_ALL = ("plan given-back\npermit a@x web true\nplan stopped\nstop_all web\nplan again\nstop_all web\n"
                "start_all web temporary\nplan twice\nstart_all web permanent\n")
GIVEN_BACK = {1: ("= b", "0"), 2: ("→ a", "1")}


def sweeps(program, folder, browser):
    """A sweep's table. What becomes of the plans follows from the lists of the example: see README.md."""
    path = made(program, folder, ["--sweep", "--workers", "3", example("five-nodes-sweep.txt")])
    browser.open(path)
    rows = browser.value(ROWS_OF_PLANS)
    stays = ["= core1", "= edge1", "= edge3"]
    yield "a sweep: plans", all_same(
        (17, len(rows)), (["→ core2", *stays[1:], "crash core1; tick 3000", "2 of 2", "1", "0"], rows.get("core1")),
        ([*stays, "crash core2; tick 3000", "2 of 2", "0", "0"], rows.get("core2")),
        (["✗ wanted, was at core1", *stays[1:], "crash core1; crash core2; tick 3000", "3 of 3", "0", "0"], rows.get("core1+core2")),
        (["… lost, was at core1", *stays[1:], "crash core1; crash core1; tick 3000✗ refused: 2 S5 not_alive", "1 of 3", "0", "0"],
         rows.get("core1-is-down")))
    tops = [browser.box(selector)[1] for selector in ("#sweep", "#controls", "#frame", "#steps")]
    yield "a sweep: the plans stand first", same(sorted(tops), tops)
    yield "a sweep: it opens at the end of the base", all_same(
        ("5", browser.text("step")), ("boot edge3@site", browser.text("command")), ("The base", browser.text("of")))
    yield from filters(browser)
    yield from orders(browser)
    yield from one_plan(browser, path)
    yield "a sweep: nothing went wrong", browser.troubles()


def filters(browser):
    """The boxes of the example leave only some plans."""
    told = browser.value("[...document.querySelectorAll('#filters label')].slice(0, 3).map((box) => box.textContent)")
    yield "a sweep: boxes", same(["nowhere (3)", "moved (10)", "refused (1)"], told)
    tick = "document.querySelector('[name=only][value={}]').click()"
    nowhere = ["core1+core2", "core2+edge3", "core1-is-down"]
    browser.value(tick.format("nowhere"))
    yield "a sweep: nowhere alone", all_same((nowhere, browser.value(SHOWN_PLANS)), ("3 of 17 shown", browser.text("shown")))
    browser.value(tick.format("nowhere"))
    browser.value(tick.format("refused"))
    yield "a sweep: refused alone", same(nowhere[2:], browser.value(SHOWN_PLANS))
    browser.value(tick.format("moved"))
    yield "a sweep: moved or refused", same(11, len(browser.value(SHOWN_PLANS)))
    browser.value(tick.format("moved"))
    browser.value(tick.format("refused"))
    browser.value("document.getElementById('search').focus()")
    browser.call("Input.insertText", text="boot core1")
    yield "a sweep: a text in the events", same(["core1-returns"], browser.value(SHOWN_PLANS))
    browser.value("document.getElementById('search').value = ''")
    browser.value("filter()")
    yield "a sweep: all again", same(17, len(browser.value(SHOWN_PLANS)))


def orders(browser):
    """The plans are sorted by a head, with the mouse and with a key."""
    by_file = browser.value(SHOWN_PLANS)
    head = "document.querySelectorAll('#plans .sort')[{}]"
    told = "document.querySelector('#plans th[aria-sort]')?.getAttribute('aria-sort')"
    browser.value(head.format(1) + ".click()")
    yield "a sweep: the worst of an application first", all_same(
        (["core1+core2", "core1-is-down", "core1"], browser.value(SHOWN_PLANS)[:3]), ("ascending", browser.value(told)))
    browser.value(head.format(6) + ".focus()")
    for _ in range(2):
        for kind in ("keyDown", "keyUp"):
            browser.call("Input.dispatchKeyEvent", type=kind, key="Enter", code="Enter", windowsVirtualKeyCode=13, text="\r")
    # Two failovers: as the file has them.
    yield "a sweep: most failovers first, by key", all_same(
        (["core1+edge1", "core1+edge3", "edge1+edge3"], browser.value(SHOWN_PLANS)[:3]), ("descending", browser.value(told)))
    browser.value(head.format(6) + ".click()")
    yield "a sweep: as in the file", all_same((by_file, browser.value(SHOWN_PLANS)), (None, browser.value(told)))


def one_plan(browser, path):
    """A plan is opened: its own steps."""
    browser.value("document.querySelector('[data-plan=\"0\"]').click()")
    yield "a plan: its last step", all_same(
        ("Plan core1", browser.text("of")), ("2", browser.text("step")), ("2", browser.text("count")), ("3000", browser.text("clock")),
        ("tick 3000", browser.text("command")), ("ok\nstarted ledger core2@site normal", browser.text("answer")),
        (True, "app ledger running core2@site" in browser.text("report").split("\n")))
    yield "a plan: its steps", all_same(
        (["the|base", "crash|core1", "tick|3000"], browser.value(HEADS)),
        (["core1", "lost", "core2"], browser.value(WORDS + "('ledger')")), (["0 ms", "3000"], browser.value(WORDS + "('clock')")))
    yield "a plan: back to where it is lost", all_same(
        ("1", browser.press("p")), (True, "app ledger lost core1@site" in browser.text("report").split("\n")),
        ("1 step with a loss", browser.text("losses")), (True, browser.value("document.getElementById('loss-before').disabled")))
    browser.press("b")
    yield "a plan: back to the base", all_same(("The base", browser.text("of")), ("5", browser.text("step")), ("5", browser.text("count")))
    browser.open(path, "#plan=core1-is-down&step=2")
    yield "a plan: by its address", all_same(
        ("Plan core1-is-down", browser.text("of")), ("2", browser.text("step")), ("refused S5 not_alive", browser.text("answer")),
        (["✗ crash core1"], browser.value(REFUSED_COMMANDS)))


def six_applications(program, folder, browser):
    """Six applications of nodes as a release names them fit a window of 1,400 points, also where none of them can run: what became of
    one is broken there, and its node isn't."""
    hosts = [f"'orders@{host}.prod.example.net'" for host in ("ams1-app-01", "ams1-app-02", "fra1-app-01")]
    apps = ("orders", "ledger", "billing", "shipping", "notifier", "metrics_hub")
    entries = ", ".join(f"{{{app}, 5000, [{hosts[0]}, {hosts[1]}]}}" for app in apps)
    boot = ", ".join(f"{{{app}, permanent}}" for app in apps)
    text = "".join(f"{{node, {host}, [{{kernel, [{{distributed, [{entries}]}}]}}, {{rehearse, [{{boot, [{boot}]}}]}}]}}.\n" for host in hosts[:2])
    text += f"{{node, {hosts[2]}, []}}.\n" + "".join(f"{{application, {app}, []}}.\n" for app in apps) + "===\n"
    names = [host.strip("'") for host in hosts]
    text += "".join(f"boot {name}\n" for name in names) + f"plan both\ncrash {names[0]}\ncrash {names[1]}\ntick 5000\n"
    text += f"plan one\ncrash {names[0]}\n"
    path = made(program, folder, ["--sweep", "-"], text.encode())
    for width in (1400, 400):
        browser.call("Emulation.setDeviceMetricsOverride", width=width, height=900, deviceScaleFactor=1, mobile=False)
        browser.open(path)
        rows = browser.value(ROWS_OF_PLANS)
        yield f"six applications, {width} points: what is told", all_same(
            (["✗ wanted, was at ams1-app-01"] * 6, rows["both"][:6]), (["… lost, was at ams1-app-01"] * 6, rows["one"][:6]))
        yield f"six applications, {width} points: names of nodes aren't broken", same([1] * 12, browser.value(
            "[...document.querySelectorAll('#plans td span')].map((name) => name.getClientRects().length)"))
        yield f"six applications, {width} points: nothing is wider than the window", same(0, browser.value(OVERFLOW))
        hidden = browser.value("(() => { const box = document.querySelector('#sweep .box'); return box.scrollWidth - box.clientWidth; })()")
        yield f"six applications, {width} points: all of the table is seen", None if (hidden == 0) == (width == 1400) else f"{hidden}"
    browser.call("Emulation.clearDeviceMetricsOverride")
    yield "six applications: nothing went wrong", browser.troubles()


def cut_ticks(program, folder, browser):
    """The steps of a plan: a tick is cut where a timer fires, and only there."""
    base = "boot a@x\nboot b@x\ncrash a@x\ntick 200\n"
    browser.open(made(program, folder, ["--sweep", "-"], (TWO_NODES + base + "plan p\ntick 2000\nplan q\ntick 300\ntick 10\n").encode()))
    browser.value("document.querySelector('[data-plan=\"0\"]').click()")
    yield "a tick is cut at a timer", all_same(
        (["the|base", "tick|300", "tick|1700"], browser.value(HEADS)), (["lost", "b"], browser.value(WORDS + "('web')")),
        (["200", "500", "2200"], browser.value(WORDS + "('clock')")), ("tick 2000, cut where a timer fires", browser.text("notes")),
        ("1", browser.press("ArrowLeft")), ("ok\nstarted web b@x normal", browser.text("answer")))
    browser.value("document.querySelector('[data-plan=\"1\"]').click()")
    yield "a tick that ends at a timer isn't cut", all_same(
        (["the|base", "tick|300", "tick|10"], browser.value(HEADS)), ("", browser.text("notes"))) or browser.troubles()


def no_bad_plans(program, folder, browser):
    """A box that would leave no plan can't be ticked."""
    browser.open(made(program, folder, ["--sweep", "-"], (TWO_NODES + SENT_AWAY + "plan p\npermit a@x web true\n").encode()))
    yield "no plan is bad", same([["nowhere (0)", True], ["moved (0)", True], ["refused (0)", True]], browser.value(
        "[...document.querySelectorAll('[name=only]')].map((box) => [box.parentNode.textContent, box.disabled])"))


def chart_of(web, at_a, at_b):
    """The rows of the chart of both nodes at a step."""
    return [["step", ""], ["clock", "0 ms"], ["passes", ""], ["web", f"web {web}"], ["1 a", "a@x is up, booted 1×"], ["web", at_a],
            ["2 b", "b@x is up, booted 1×"], ["web", at_b]]


def at_all_nodes(program, folder, browser):
    """Commands at all nodes, and a permission that is given back, in either profile."""
    for name, front, profile in (("no profile", "", 1), ("profile 2", "% Mine.\n{profile, % 1\n2 }. ", 2)):
        browser.open(made(program, folder, ["-"], (front + TWO_NODES + SENT_AWAY + AT_ALL).encode()), "#step=4")
        told = (f"2 nodes, profile {profile}, 7 steps, 0 ms. Made by companions/page from what rehearse answers. "
                "Names are shown without @x, which all nodes share.")
        yield f"{name}: what is counted", same(told, browser.value("document.querySelector('p.small').textContent"))
        answer, *standing = PULLED_BACK[profile]
        yield f"{name}: a permission given back", all_same(
            ("permit a@x web true", browser.text("command")), ("It may run there again.", browser.text("notes")),
            (answer, browser.text("answer")), (chart_of(*standing), browser.value(COLUMN)))
        yield f"{name}: stopped at all nodes", all_same(
            ("5", browser.press("ArrowRight")), ("stop_all web", browser.text("command")), (STOPPED[profile], browser.text("answer")),
            (chart_of("quiet", "", ""), browser.value(COLUMN)))
        yield f"{name}: started at all nodes", all_same(
            ("6", browser.press("ArrowRight")), ("start_all web temporary", browser.text("command")),
            ("ok\nstarted web a@x normal\nwaits web b@x", browser.text("answer")),
            (chart_of("running a@x", "web runs at a@x, temporary normal", "web waits at b@x, temporary"), browser.value(COLUMN)))
        yield f"{name}: refused at all nodes", all_same(
            ("7", browser.press("ArrowRight")), ("refused S11 already_started", browser.text("answer")),
            (["✗ start_all web permanent"], browser.value(REFUSED_COMMANDS)))
        text = front + TWO_NODES + SENT_AWAY + PLANS_AT_ALL
        browser.open(made(program, folder, ["--sweep", "-"], text.encode()))
        standing, takeovers = GIVEN_BACK[profile]
        owed = {"given-back": [standing, "permit a web true", "1 of 1", "0", takeovers],
                "stopped": ["– quiet", "stop_all web", "1 of 1", "0", "0"],
                "again": ["= b", "stop_all web; start_all web temporary", "2 of 2", "0", "0"],
                "twice": ["= b", "start_all web permanent✗ refused: 1 S11 already_started", "0 of 1", "0", "0"]}
        yield f"{name}: plans", same(owed, browser.value(ROWS_OF_PLANS)) or browser.troubles()


def counts(program, _):
    """One of each is counted as one."""
    done = page(program, ["--sweep"], b"{node, a@x, []}.\n===\nboot a@x\nplan p\ncrash a@x\n")
    missing = [words for words in (b"1 node, profile 1, 1 step, 0 ms", b"1 plan; 0 of them") if words not in done.stdout]
    yield "one of each", f"status {done.returncode}, it lacks {missing}" if done.returncode or missing else None


TESTS = (*map(in_browser, (sweeps, six_applications, at_all_nodes, cut_ticks, no_bad_plans)), in_folder(counts))
