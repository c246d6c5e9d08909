"""What programs read of live nodes: `run --rules otp25 --json` tells what `run --rules otp25` tells.

Each line is parsed by Python's json. From its fields the other output is written again, and has to be that output, byte for byte. What
that one doesn't tell is compared with what it was asked, as in json_lines.py, whose fields these are where the same is meant.
"""
from collections.abc import Iterable, Iterator
from typing import Any, Optional

from groups import Group
from json_lines import KEYS, assert_lines, check_text, has_keys, parsed, words
from live_rules import SCRIPTS, back_and_forth
from random_live import rehearsal
from row_files import ROWS, row_at
from support import files_below, read, run

# Seeds of random rehearsals, and how many are taken at once.
FIRST, COUNT, AT_ONCE = 80_000, 80, 20
Test = tuple[str, Optional[str]]
Object = dict[str, Any]

KEYS.update({
    "live command": "line command answer ?error ?notices ?report",
    "live notice": "kind ?call ?application ?node ?start ?from ?restart ?permission ?reason ?answer ?error",
    "live report": "time steps trail nodes applications open",
    "live node": "name mode starts running waiting forbidden starting ?dist_ac ?boot timers",
    "block": "for ?application ?node",
    "live timer": "timer ?application due",
    "places": "name nodes",
    "call": "call application node ?restart ?permission ?reason",
})
OF_ONE = ("up", "ended")
LAST = {"start": "restart", "takeover": "restart", "permit": "permission", "exit": "reason"}
REVERSALS = ("undo", "redo", "undo_all", "redo_all")


def call_words(call: Object) -> str:
    """A call, as the command that makes it."""
    last = call.get(LAST.get(call["call"], ""))
    return words(call["call"], call["node"], call["application"], str(last).lower() if isinstance(last, bool) else last).rstrip("\n")


def error_of(told: Object) -> Optional[str]:
    """The error that an answer tells, if it tells one: it has a field of its own."""
    error = told["answer"].removeprefix("error ") if told["answer"].startswith("error ") else None
    assert told.get("error") == error, f"the error of {told}"
    return error


def notice_line(notice: Object) -> str:
    has_keys("live notice", notice)
    kind = notice["kind"]
    if kind in OF_ONE:
        return words(kind, notice["node"])
    if kind == "answered":
        error_of(notice)
        return f"answered {call_words(notice)}: {notice['answer']}\n"
    assert ("error" in notice) == (kind == "failed"), f"an error of {notice}"
    return words(kind, notice["application"], notice["node"], notice.get("start"), notice.get("from"), notice.get("error"))


def block_words(block: Object) -> str:
    has_keys("block", block)
    node = f" for {block['node']}" if "node" in block else ""
    return words(block["for"], block.get("application")).rstrip("\n") + node


def node_lines(node: Object) -> str:
    has_keys("live node", node)
    lines = [words("node", node["name"], node["mode"], node["starts"])]
    lines += ["  " + words("running", it["application"], it["restart"], it["start"], it.get("from"))
              for it in node["running"] if has_keys("running", it)]
    lines += ["  " + words("waiting", it["application"], it["restart"]) for it in node["waiting"] if has_keys("waiting", it)]
    lines += ["  " + words("forbidden", name) for name in node["forbidden"]]
    lines += ["  " + words("starting", name) for name in node["starting"]]
    lines += [f"  blocked dist_ac {block_words(node['dist_ac'])}\n"] if "dist_ac" in node else []
    lines += ["  " + words("blocked boot", node["boot"])] if "boot" in node else []
    lines += ["  " + words("timer", it["timer"], it.get("application"), it["due"]) for it in node["timers"] if has_keys("live timer", it)]
    return "".join(lines)


def places_line(it: Object) -> str:
    has_keys("places", it)
    return words("app", it["name"], *(["running", *it["nodes"]] if it["nodes"] else ["nowhere"]))


def report_text(report: Object) -> str:
    has_keys("live report", report)
    return (words("now", report["time"]) + "".join(map(node_lines, report["nodes"])) + "".join(map(places_line, report["applications"]))
            + "".join(words("open", call_words(has_keys("call", call))) for call in report["open"]))


def answer_text(told: Object) -> str:
    """The answer to a command, as the other output has it."""
    has_keys("live command", told)
    word = told["command"].split()[0]
    error_of(told)
    assert ("report" in told) == (word == "show"), f"report: {told}"
    assert "notices" not in told or word not in ("show", *REVERSALS), f"notices: {told}"
    return (words(told["answer"]) + "".join(map(notice_line, told.get("notices", ())))
            + (report_text(told["report"]) if "report" in told else ""))


def run_text(lines: list[Object]) -> str:
    """What is printed where these lines are."""
    if "refused" in lines[0]:
        return "cluster " + words("refused", lines[0]["refused"], lines[0]["reason"])
    bad = lines[-1] if "bad" in lines[-1] else None
    told = lines[1:-1] if bad else lines[1:]
    return "".join(map(answer_text, told)) + (words("bad line", has_keys("bad", bad)["line"]) if bad else "")


def steps_are_counted(lines: list[Object]) -> None:
    """The steps of each report are those that were made before it and weren't taken back."""
    done, made = 0, 0
    for told in lines[1:]:
        word = told.get("command", "").split()[:1]
        if "notices" in told:
            done += 1
            made = done
        elif told.get("answer", "").startswith("ok") and word and word[0] in REVERSALS:
            done = {"undo": done - 1, "redo": done + 1, "undo_all": 0, "redo_all": made}[word[0]]
        elif "report" in told:
            report = told["report"]
            assert (report["steps"], report["trail"]) == (done, made), f"{done} of {made} steps, told are {report['steps']} of {report['trail']}"


def wrong_with(program: str, options: list[str], text: bytes) -> Optional[str]:
    """What is wrong with the lines for an input, or None."""
    plain = run(program, ["run", "--rules", "otp25", *options], input=text)
    ended = run(program, ["run", "--rules", "otp25", "--json", *options], input=text)
    try:
        assert (ended.returncode, ended.stderr) == (plain.returncode, b""), f"status {ended.returncode}: {ended.stderr!r}"
        shown = ended.stdout.decode()
        lines = [parsed(line) for line in shown.split("\n")[:-1]]
        assert shown.endswith("\n") and run_text(lines) == plain.stdout.decode(), "it isn't what is told in words"
        if "refused" not in lines[0]:
            check_text(lines[0])
            assert_lines(text.decode(), lines[1:])
            steps_are_counted(lines)
        return None
    except (AssertionError, ValueError, KeyError, IndexError) as fault:
        return f"{type(fault).__name__}: {fault}"


def with_shows(text: str) -> bytes:
    """A rehearsal with a report behind each command, and one that goes back."""
    head, apart, script = text.partition("===\n")
    lines = [told for line in script.splitlines() for told in (line, "show")]
    return (head + apart + "".join(f"{line}\n" for line in [*lines, "undo", "show", "undo_all", "show", "redo", "show"])).encode()


def of_rows(program: str) -> Iterator[Test]:
    """The rows of these rules."""
    for path in files_below(f"{ROWS}/otp25"):
        row = row_at(path)
        if row.words[0] != "run":
            continue
        options = [word for word in row.words[1:] if word not in ("--rules", "otp25", "--echo", "--strict", "--json")]
        yield f"JSON of {path}", wrong_with(program, options, row.input)


def of_scripts(program: str) -> Iterator[Test]:
    """The scripts that real nodes made."""
    for path in SCRIPTS:
        yield f"JSON of {path} on live nodes", wrong_with(program, [], with_shows(read(path).decode()))


def of_random_ones(program: str, seeds: Iterable[int]) -> Iterator[Test]:
    """Random rehearsals, some of which go back and forth, in other orders, too."""
    for seed in seeds:
        text = back_and_forth(seed) if seed % 2 else rehearsal(seed).text
        yield f"JSON of the random rehearsal {seed} on live nodes", wrong_with(program, ["--pick", "last"] if seed % 4 < 2 else [], with_shows(text))


TESTS = (of_rows, of_scripts, Group(of_random_ones, [range(seed, seed + AT_ONCE) for seed in range(FIRST, FIRST + COUNT, AT_ONCE)], is_long=True))
