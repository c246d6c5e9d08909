"""What `live` prints: its answers as a text, or as JSON."""
import json
from typing import Any, Iterator, Optional


from rehearse_tools.inputs import is_command
from rehearse_tools.live_sides import Answer, agree, is_compared, rows_of
from rehearse_tools.otp25.release import MEASURED
from rehearse_tools.otp25.waiting import Wait

PAGE = "docs/LIVE_OTP.md"
HEAD = f"< by the rules, > live nodes of OTP {MEASURED.release}"
NONE_DIFFERS, SOME_DIFFER, SOMETHING_HANGS = 0, 1, 3


def status_of(answers: list[Answer]) -> int:
    """The exit status."""
    if any(answer.hangs or answer.burns for answer in answers):
        return SOMETHING_HANGS
    return NONE_DIFFERS if all(answer.agrees for answer in answers) else SOME_DIFFER


def first_of(answers: list[Answer]) -> Optional[int]:
    """The place of the first answer that differs."""
    return next((place for place, answer in enumerate(answers) if not answer.agrees), None)


def last_line(answers: list[Answer]) -> str:
    """How many commands are as by the rules, and the first that isn't."""
    first = first_of(answers)
    told = f"{sum(answer.agrees for answer in answers)} of {len(answers)} commands as by the rules"
    if first is not None:
        told += f"; the first that differs: {answers[first].line} (line {answers[first].number} behind ===)"
    return told + "\n"


def live_lines(answer: Answer) -> Iterator[str]:
    """A command, and what live nodes show for it."""
    yield answer.line
    yield from (f"  {line}" for line in answer.live)


def texts_of(answers: list[Answer], lines: list[str], orders: int) -> Iterator[str]:
    """The lines of the answers, with the script's own comments among them."""
    yield HEAD
    told = {answer.number: answer for answer in answers}
    last = max(told, default=0)
    begun: dict[Any, tuple[int, Wait]] = {}
    first = first_of(answers)
    for number, line in enumerate(lines[:last], 1):
        if number in told:
            yield from answer_lines(told[number], orders, begun)
            if first is not None and number == answers[first].number and number != last:
                yield "~ from here on the rules and the live nodes have different pasts"
        elif line and not is_command(line):
            yield line


def answer_lines(answer: Answer, orders: int, begun: dict[Any, tuple[int, Wait]]) -> Iterator[str]:
    """A command, both answers, and what there is to be told of it. `begun` has the line at which each wait began."""
    yield answer.line
    yield from (f"{mark} {line}" for mark, line in rows_of(answer.rules, answer.live))
    for live, which in answer.outcomes[1:]:
        yield f"? so in {len(answer.outcomes[0][1])} of {orders} orders of messages, and in {len(which)} otherwise:"
        yield from (f"? {mark} {line}" for mark, line in rows_of(answer.rules, live))
    if not answer.agrees or answer.burns and answer.reason:
        yield why(answer)
    for key in begun.keys() - {wait.key for wait in answer.waits}:
        del begun[key]
    yield from (line for wait in answer.waits for line in wait_lines(wait, answer.number, begun))
    if answer.hanging not in (0, orders):
        yield f"! this hangs in {answer.hanging} of {orders} orders of messages"
    for pair in answer.burns:
        yield f"! burns: the dist_ac of {' and '.join(pair)} send one another messages for ever"


def why(answer: Answer) -> str:
    """Why a command differs."""
    if answer.reason is not None:
        return f"! why: {answer.sentence} ({PAGE}#{answer.reason})"
    return "! why: it follows from what differs before"


def wait_lines(wait: Wait, number: int, begun: dict[Any, tuple[int, Wait]]) -> Iterator[str]:
    """What waits, in full where it is new, or blocks something else than before."""
    since, before = begun.get(wait.key, (number, None))
    begun[wait.key] = (since, wait)
    if wait.ends is not None:
        yield f"! waits: {wait.line}; that ends when the clock is {wait.ends}"
    elif before is not None:
        yield f"! still hangs since line {since}: {wait.line}"
    else:
        yield f"! hangs: {wait.line}"
    if before is None or before.blocks != wait.blocks:
        yield from (f"!   this blocks {what}" for what in wait.blocks)


# ---- JSON


def as_json(answers: list[Answer], orders: int, refused: str) -> str:
    """All answers as one JSON object."""
    first = first_of(answers)
    return json.dumps({
        "release": MEASURED.release, "orders": orders, "commands": [answer_object(answer) for answer in answers],
        "agree": sum(answer.agrees for answer in answers), "commands_count": len(answers), "first": first,
        "hangs": any(answer.hangs for answer in answers), "burns": any(answer.burns for answer in answers),
        "refused": refused or None, "status": 2 if refused else status_of(answers)}, indent=1) + "\n"


def answer_object(answer: Answer) -> dict[str, Any]:
    """An answer."""
    return {"line": answer.number, "command": answer.line, "rules": [line for line in answer.rules if is_compared(line)],
            "live": answer.live, "agrees": answer.agrees,
            "outcomes": [{"orders": len(which), "which": which, "live": live, "agrees": agree(answer.rules, live)}
                         for live, which in answer.outcomes],
            "anchor": answer.reason, "reason": answer.sentence, "hanging_orders": answer.hanging,
            "waits": [wait_object(wait) for wait in answer.waits], "burns": [list(pair) for pair in answer.burns]}


def wait_object(wait: Wait) -> dict[str, Any]:
    """A wait."""
    return {"node": wait.node, "process": wait.process, "text": wait.line, "blocks": list(wait.blocks), "ends": wait.ends}
