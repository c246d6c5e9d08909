"""What programs read: `run --json`, `check --json`, `lint --json`, `sweep --json` and `explore --json` tell what these tell without it.

Each line is parsed by Python's json. From its fields the other output is written again, and has to be that output, byte for byte.
What that one doesn't tell is compared with what it was asked: the number and the text of a command's line with the script, the
cluster's names with the file, and the time of a notice with a run whose ticks are cut where a timer fired.
"""
import json
import os

import explored
import model
import random_scripts
from groups import Group
from row_files import EXAMPLES, ROWS, row_at
from support import example_files, files_below, read, run

# The keys of each object, in their order; those that may be missing stand behind a question mark.
KEYS = {
    "cluster": "profile nodes applications",
    "settings": "name distributed ?nodes",
    "refused": "refused reason",
    "command": "line command answer ?notices ?report",
    "bad": "line bad",
    "notice": "?time kind ?application node ?start ?from",
    "report": "time steps trail nodes applications timers",
    "node": "name mode starts running waiting forbidden",
    "running": "application restart start ?from",
    "waiting": "application restart",
    "standing": "name standing ?node",
    "timer": "timer ?node ?application due",
    "outcome": "plan accepted failovers takeovers ?refused applications",
    "event": "event answer",
    "search": "states deepest ?steps ?down finished",
    "verdict": "ask holds ?events ?report",
    "found": "time nodes applications timers",
    "finding": "?line kind code words ?path",
    "counts": "errors warnings hints",
}


def has_keys(kind, value):
    """The object, which has the keys of this kind in their order, and all that have to be there."""
    wanted = KEYS[kind].split()
    shown = [key for key in (key.lstrip("?") for key in wanted) if key in value]
    assert list(value) == shown, f"the keys of {kind} are {list(value)}"
    assert all(key in value for key in wanted if not key.startswith("?")), f"{kind} lacks a key: {list(value)}"
    return value


def parsed(line):
    """A line as an object. It has no blank outside a string: written by Python it is the same text."""
    value = json.loads(line)
    again = json.dumps(value, ensure_ascii=False, separators=(",", ":"))
    assert again == escaped_as_here(line), f"it isn't written as here: {line}"
    return value


def escaped_as_here(line):
    """The line with Python's short escapes of some control bytes."""
    for byte, short in ((8, "\\b"), (9, "\\t"), (10, "\\n"), (12, "\\f"), (13, "\\r")):
        line = line.replace("\\u%04x" % byte, short)
    return line


# ---- The other output, written from the fields


def words(*parts):
    """The parts that are there, as a line."""
    return " ".join(str(part) for part in parts if part is not None) + "\n"


def notice_line(notice):
    has_keys("notice", notice)
    return words(notice["kind"], notice.get("application"), notice["node"], notice.get("start"), notice.get("from"))


def node_lines(node):
    has_keys("node", node)
    lines = words("node", node["name"], node["mode"], node["starts"])
    for it in node["running"]:
        has_keys("running", it)
        lines += "  " + words("running", it["application"], it["restart"], it["start"], it.get("from"))
    for it in node["waiting"]:
        has_keys("waiting", it)
        lines += "  " + words("waiting", it["application"], it["restart"])
    return lines + "".join("  " + words("forbidden", name) for name in node["forbidden"])


def timer_line(timer):
    has_keys("timer", timer)
    return words("timer", timer["timer"], timer["node" if timer["timer"] == "sync" else "application"], timer["due"])


def report_text(report, kind="report"):
    has_keys(kind, report)
    return (words("now", report["time"]) + "".join(map(node_lines, report["nodes"]))
            + "".join(map(standing_line, report["applications"]))
            + "".join(map(timer_line, report["timers"])))


def answer_text(told):
    """The answer to a command, as `run` prints it."""
    has_keys("command", told)
    is_step = told["command"].split()[0] not in ("undo", "redo", "undo_all", "redo_all", "show")
    assert ("notices" in told) == (is_step and told["answer"] == "ok"), f"notices: {told}"
    assert ("report" in told) == (told["command"].split() == ["show"]), f"report: {told}"
    return (words(told["answer"]) + "".join(map(notice_line, told.get("notices", ())))
            + (report_text(told["report"]) if "report" in told else ""))


def run_text(lines):
    """What `run` prints where `run --json` prints these lines."""
    if "refused" in lines[0]:
        return "cluster " + words("refused", lines[0]["refused"], lines[0]["reason"])
    bad = lines[-1] if "bad" in lines[-1] else None
    told = lines[1:-1] if bad else lines[1:]
    return "".join(map(answer_text, told)) + (words("bad line", bad["line"]) if bad else "")


def standing_line(it):
    has_keys("standing", it)
    return words("app", it["name"], it["standing"], it.get("node"))


def refused_line(event):
    has_keys("event", event)
    assert event["answer"].startswith("refused "), f"a refused event is answered by {event['answer']!r}"
    return words("refused", event["event"], event["answer"].removeprefix("refused "))


def outcome_text(told):
    """What `sweep` prints of a plan."""
    has_keys("outcome", told)
    return (words("plan", told["plan"], "accepted", told["accepted"], "failovers", told["failovers"], "takeovers", told["takeovers"])
            + (refused_line(told["refused"]) if "refused" in told else "") + "".join(map(standing_line, told["applications"])))


def sweep_text(lines):
    """What `sweep` prints where `sweep --json` prints these lines."""
    if "bad" in lines[-1]:
        assert len(lines) == 2, "more is told than the bad line"
        return words("bad line", has_keys("bad", lines[-1])["line"])
    if "refused" in lines[0]:
        return run_text(lines)
    base, plans = base_and_plans(lines)
    if plans and "reason" in plans[-1]:
        assert len(plans) == 1, "plans are told of a sweep that is refused"
        return "".join(map(answer_text, base)) + "sweep " + words("refused", plans[0]["refused"], has_keys("refused", plans[0])["reason"])
    return "".join(map(answer_text, base)) + "".join(map(outcome_text, plans))


def up_to(found, key, what):
    """The bound of a search, if it has one."""
    return f" up to {found[key]} {what}" if key in found else ""


def verdict_text(told):
    """What `explore` prints of an ask."""
    has_keys("verdict", told)
    assert told["holds"] is not ("events" in told) and told["holds"] is not ("report" in told), f"events and report: {told}"
    if told["holds"]:
        return "holds\n"
    events = "".join(f"{event}\n" for event in told["events"])
    return words("fails in", len(told["events"])) + events + report_text(told["report"], "found")


def explore_text(lines):
    """What `explore` prints where `explore --json` prints these lines."""
    if "bad" in lines[-1]:
        assert len(lines) == 2, "more is told than the bad line"
        return words("bad line", has_keys("bad", lines[-1])["line"])
    if "refused" in lines[0]:
        return run_text(lines)
    base, (found, *verdicts) = base_and_plans(lines)
    has_keys("search", found)
    assert [told["ask"] for told in verdicts] == [*range(1, len(verdicts) + 1)], "the asks aren't numbered from 1"
    return ("".join(map(answer_text, base)) + f"explored {found['states']} states deepest {found['deepest']}"
            + up_to(found, "steps", "steps") + up_to(found, "down", "down") + "\n"
            + "".join(map(verdict_text, verdicts)) + ("" if found["finished"] else "unfinished\n"))


def base_and_plans(lines):
    """The lines of the base's commands, and those behind them: of plans, or of a search."""
    count = sum("command" in it for it in lines)
    base, plans = lines[1:1 + count], lines[1 + count:]
    assert all("command" in it for it in base), "a command of the base isn't told first"
    return base, plans


def check_text(line):
    """What `check` prints where `check --json` prints this line."""
    if "refused" in line:
        has_keys("refused", line)
        return run_text([line])
    has_keys("cluster", line)
    return f"ok {len(line['nodes'])} nodes {len(line['applications'])} applications\n"


# ---- What the other output doesn't tell


def script_of(text):
    """The lines behind the first line `===`."""
    lines = [line.removesuffix("\r") for line in text.split("\n")]
    return lines[lines.index("===") + 1:] if "===" in lines else []


def is_command(line):
    return not line.startswith("#") and line.strip(" ") != ""


def base_of(text, *begins):
    """An input up to the first line of its script that begins with one of these words: that of a plan, or those of a search."""
    front, apart, script = text.partition("===\n")
    lines = script.split("\n")
    first = next((at for at, line in enumerate(lines) if is_command(line) and line.split()[0] in begins), len(lines))
    return front + apart + "\n".join(lines[:first])


def assert_lines(text, lines):
    """The commands are those of the script, each with its line and the number of it, up to the bad one."""
    asked = [(number, line) for number, line in enumerate(script_of(text), 1) if is_command(line)]
    for told, (number, line) in zip(lines, asked):
        assert told["line"] == number, f"line {number} is told as {told['line']}"
        assert "bad" in told or told["command"] == line, f"line {number} is {line!r}"
    assert len(lines) == len(asked) or "bad" in lines[-1], "not all commands are told"


def cut_tick(command, time, notices):
    """A tick from this time on, cut where a timer fired: the commands, and the notices that each has to tell."""
    end = time + int(command.split()[1])
    ends = sorted({it["time"] for it in notices if time < it["time"] < end} | {end})
    begins = [time, *ends[:-1]]
    owed = [[notice_line(it) for it in notices if (it["time"] > begin or begin == time) and it["time"] <= until]
            for begin, until in zip(begins, ends)]
    return [f"tick {until - begin}" for begin, until in zip(begins, ends)], owed


def assert_times(program, options, text, lines):
    """The notices of a tick have the times at which a run tells them whose ticks are cut there; no other notice has a time. The script
    takes no step back."""
    front = text[:text.index("===")] + "===\n"
    time, script, owed = 0, [], []
    for told in lines:
        notices = told.get("notices", [])
        if told["command"].split()[0] == "tick" and told["answer"] == "ok":
            assert all("time" in it for it in notices), f"a notice has no time: {told}"
            ticks, parts = cut_tick(told["command"], time, notices)
            script += ticks
            owed += parts
            time += int(told["command"].split()[1])
        else:
            assert not any("time" in it for it in notices), f"a notice has a time: {told}"
            script.append(told["command"])
            owed.append([answer_text(told)[len(told["answer"]) + 1:]])
    wanted = "".join("".join(part) for part in owed)
    shown = run(program, ["run", *options], input=(front + "\n".join(script) + "\n").encode(errors="surrogateescape")).stdout.decode()
    kept = "".join(line for line in shown.splitlines(keepends=True) if not line.startswith(("ok", "refused ")))
    assert kept == wanted, "the times aren't those at which timers fire"


# ---- The tests


def told_by(program, command, options, text):
    """The lines of a program, as objects, and its status."""
    ended = run(program, [command, "--json", *options], input=text)
    assert ended.stderr == b"", ended.stderr
    shown = ended.stdout.decode()
    assert shown == "" or shown.endswith("\n"), "the last line has no end"
    return [parsed(line) for line in shown.split("\n")[:-1]], ended.returncode


def fault_in(check, program, options, data):
    """What is wrong with the JSON of an input, or None."""
    try:
        check(program, options, data)
        return None
    except (AssertionError, ValueError, KeyError, IndexError) as fault:
        return f"{type(fault).__name__}: {fault}"


def check_run(program, options, data):
    """The lines of a run tell what `run` prints, and that of a check what `check` prints."""
    lines, status = told_by(program, "run", options, data)
    plain = run(program, ["run", *options], input=data)
    assert status == plain.returncode, f"status {status}, without --json {plain.returncode}"
    if not lines:
        assert plain.stdout == b"", "nothing is told"
        return
    assert run_text(lines) == plain.stdout.decode(), "it isn't what `run` prints"
    [line], status = told_by(program, "check", [], data)
    check = run(program, ["check"], input=data)
    assert (check_text(line), status) == (check.stdout.decode(), check.returncode), "it isn't what `check` prints"
    assert line == lines[0], "the first line isn't that of `check`"
    if "refused" not in line:
        # A line of a script may be no UTF-8: it is no command.
        text = data.decode(errors="surrogateescape")
        assert_lines(text, lines[1:])
        commands = [it for it in lines[1:] if "bad" not in it]
        if not any(it["command"].split()[0] in ("undo", "redo", "undo_all", "redo_all") for it in commands) and "===\n" in text:
            assert_times(program, options, text, commands)


def told_as_printed(program, word, options, data, text_of):
    """The lines of a program, and how it ends. They tell what it prints without --json, and the first one is that of `check`."""
    lines, status = told_by(program, word, options, data)
    plain = run(program, [word, *options], input=data)
    assert status == plain.returncode, f"status {status}, without --json {plain.returncode}"
    assert text_of(lines) == plain.stdout.decode(), f"it isn't what `{word}` prints"
    [line], _ = told_by(program, "check", [], data)
    assert line == lines[0], "the first line isn't that of `check`"
    return lines, status


def check_base(program, options, data, lines, *words):
    """The lines of the base, behind which one begins with one of these words, are those of `run --json`."""
    if "refused" in lines[0] or "bad" in lines[-1]:
        return
    base, _ = base_and_plans(lines)
    text = base_of(data.decode(errors="surrogateescape"), *words)
    told = told_by(program, "run", options, text.encode(errors="surrogateescape"))[0]
    assert told == [lines[0], *base], "the base isn't that of `run`"


def check_sweep(program, options, data):
    """The lines of a sweep tell what `sweep` prints, its base what `run --json` tells of it, and workers make no difference."""
    lines, status = told_as_printed(program, "sweep", options, data, sweep_text)
    others = without(options, "--workers")
    assert told_by(program, "sweep", [*others, "--workers", "5"], data) == (lines, status), "by five workers other lines are told"
    check_base(program, others, data, lines, "plan")


def check_explore(program, options, data):
    """The lines of a search tell what `explore` prints, its base what `run --json` tells of it, and workers make no difference."""
    lines, status = told_as_printed(program, "explore", options, data, explore_text)
    others = without(options, "--workers")
    assert told_by(program, "explore", [*others, "--workers", "5"], data) == (lines, status), "by five workers other lines are told"
    check_base(program, without(without(others, "--states"), "--memory"), data, lines, "may", "down", "steps", "ask")


def finding_text(line):
    """A finding as `lint` prints it."""
    it = has_keys("finding", line)
    place, way = f"{it['line']}: " if "line" in it else "", f" ({it['path']})" if "path" in it else ""
    return f"{place}{it['kind']} {it['code']}: {it['words']}{way}\n"


def check_lint(program, options, data):
    """The lines of findings tell what `lint` prints, and are as many as the last one says."""
    lines, status = told_by(program, "lint", options, data)
    plain = run(program, ["lint", *options], input=data)
    assert status == plain.returncode, f"status {status}, without --json {plain.returncode}"
    counts = has_keys("counts", lines[-1])
    assert counts == {f"{kind}s": sum(it["kind"] == kind for it in lines[:-1]) for kind in ("error", "warning", "hint")}, f"{counts}"
    last = "{errors} errors, {warnings} warnings, {hints} hints\n".format(**counts)
    assert "".join(map(finding_text, lines[:-1])) + last == plain.stdout.decode(), "it isn't what `lint` prints"


def without(options, name):
    """The options but for the one of this name, with its value behind it or behind `=`."""
    places = [at for at, word in enumerate(options) if word == name]
    return [word for at, word in enumerate(options) if at not in places and at - 1 not in places and not word.startswith(f"{name}=")]


def json_of_examples(program):
    """The examples, the refused ones among them, told as JSON."""
    for path in example_files():
        yield f"json of examples/{os.path.relpath(path, EXAMPLES)}", fault_in(check_run, program, [], read(path))
        yield f"json of a sweep of examples/{os.path.relpath(path, EXAMPLES)}", fault_in(check_sweep, program, [], read(path))
        yield f"json of a search of examples/{os.path.relpath(path, EXAMPLES)}", fault_in(check_explore, program, [], read(path))
        yield f"json of lint of examples/{os.path.relpath(path, EXAMPLES)}", fault_in(check_lint, program, ["--all"], read(path))


def json_of_rows(program):
    """The inputs of the rows of `run`, `lint`, `sweep` and `explore`, told as JSON."""
    for path in files_below(ROWS):
        row = row_at(path)
        check = {"run": check_run, "lint": check_lint, "sweep": check_sweep, "explore": check_explore}.get(row.words[0] if row.words else "")
        is_plain = not {"--json", "--echo", "--strict", "--rules"} & {*row.words} and row.status in (0, 2, 3, 6)
        # Of findings and of searches any end is told; of searches on live nodes live_explore.py says more.
        is_told = check is check_lint or check is check_explore and "--rules" not in row.words
        # With status 1 nothing is told: it is no command line.
        if check and row.status != 1 and (is_plain or is_told and "--json" not in row.words):
            yield f"json of {os.path.relpath(path, ROWS)}", fault_in(check, program, row.words[1:], row.input)


def json_of_random_scripts(program, numbers):
    """Random scripts, told as JSON."""
    for number in numbers:
        given, text, _ = random_scripts.case(number)
        check = {"run": check_run, "sweep": check_sweep}.get(given[0])
        if check:
            yield f"json of random script {number}", fault_in(check, program, given[1:], text.encode())


def json_of_random_searches(program, numbers):
    """Random searches, told as JSON."""
    for number in numbers:
        cluster, lines, most, pick = explored.search(number)
        text = cluster + "===\n" + model.joined(lines)
        yield f"json of random search {number}", fault_in(check_explore, program, ["--pick", pick, "--states", str(most)], text.encode())


TESTS = (json_of_examples, json_of_rows,
         Group(json_of_random_scripts, [range(begin, begin + 40) for begin in range(0, 160, 40)]),
         Group(json_of_random_searches, [range(begin, begin + 20) for begin in range(0, 80, 20)]))
