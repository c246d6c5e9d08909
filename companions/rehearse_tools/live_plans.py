"""The plans of a sweep's input by `live`: for each whether live nodes do otherwise, hang or burn."""
import json
import multiprocessing
import os
import signal
from argparse import Namespace
from collections import Counter
from collections.abc import Iterator, Sequence
from concurrent.futures import ProcessPoolExecutor
from dataclasses import asdict, dataclass
from typing import Optional

from rehearse_tools.endings import Refused, end_by_interrupt
from rehearse_tools.inputs import Plan, split_input, words_of, write_out
from rehearse_tools.live_sides import BACK_AND_FORTH, Answer, Ruled, Sides, rules_of
from rehearse_tools.live_text import HEAD, NONE_DIFFERS, PAGE, SOME_DIFFER, SOMETHING_HANGS, first_of, status_of
from rehearse_tools.otp25.cluster import cluster_of
from rehearse_tools.otp25.reasons import SENTENCES
from rehearse_tools.program import Program
from rehearse_tools.progress import Bar
from rehearse_tools.words import plural

# So many plans are one piece of work.
AT_ONCE = 20
AGREES = "agrees"


@dataclass(frozen=True)
class Verdict:
    """What becomes of a plan: agrees, differs, hangs or burns, at which event, and why."""
    name: str
    word: str
    event: Optional[int] = None
    line: Optional[str] = None
    anchor: Optional[str] = None
    wait: Optional[str] = None

    @property
    def text(self) -> str:
        if self.word == AGREES:
            return f"plan {self.name} agrees"
        told = f"plan {self.name} {self.word} at event {self.event}, {self.line}"
        told += f": {PAGE}#{self.anchor}" if self.anchor else ""
        return told + (f" ({self.wait})" if self.wait else "")


@dataclass(frozen=True)
class Sweep:
    """What a process needs for its work: the program, a cluster file, the base of the plans, and how many orders are tried."""
    program: Program
    cluster: str
    base: list[str]
    orders: int


class Judge:
    """The base of a sweep, made once, and what is needed to try a plan behind it."""

    def __init__(self, sweep: Sweep):
        self.sweep = sweep
        goes_back = any(words_of(line)[0] in BACK_AND_FORTH for line in sweep.base)
        self.sides = Sides(cluster_of(sweep.cluster), sweep.orders, goes_back)
        self.answers = [self.sides.answer(number, line, ruled)
                        for number, (line, ruled) in enumerate(zip(sweep.base, self.rules(sweep.base)), 1)]

    def rules(self, script: list[str]) -> list[Ruled]:
        """What the program answers to commands."""
        run, ruled = rules_of(self.sweep.program, self.sweep.cluster, script)
        if run.status != 0:
            raise Refused(self.sweep.program.ended(run))
        return ruled

    def verdicts(self, plans: Sequence[Plan]) -> list[Verdict]:
        """What becomes of plans. A plan ends behind its last event, or at the first that the rules refuse."""
        # Of any name: two plans of one name are two.
        numbered = [Plan(f"p{number}", plan.events) for number, plan in enumerate(plans)]
        outcomes = self.sweep.program.outcomes(self.sweep.cluster, self.sweep.base, numbered, "the plans")
        # The event that is refused changes nothing; the others are taken back before the next plan.
        made = [outcome.tried(plan.events) for plan, outcome in zip(plans, outcomes)]
        back = [["undo"] * outcome.accepted for outcome in outcomes]
        return [self.verdict(plan, ruled) for plan, ruled in zip(plans, self.told(made, back))]

    def told(self, made: list[list[str]], back: list[list[str]]) -> Iterator[list[Ruled]]:
        """What the program answers to the events of each plan."""
        ruled = self.rules(self.sweep.base + [line for events, undone in zip(made, back) for line in events + undone])
        place = len(self.sweep.base)
        for events, undone in zip(made, back):
            yield ruled[place:place + len(events)]
            place += len(events) + len(undone)

    def verdict(self, plan: Plan, ruled: list[Ruled]) -> Verdict:
        """What becomes of a plan."""
        sides = self.sides.branch()
        answers = [sides.answer(number, line, rules) for number, (line, rules) in enumerate(zip(plan.events, ruled), 1)]
        for word, found in (("burns", next((answer for answer in answers if answer.burns), None)),
                            ("hangs", next((answer for answer in answers if answer.hangs), None)),
                            ("differs", next((answer for answer in answers if not answer.agrees), None))):
            if found is not None:
                return of_answer(plan.name, word, found)
        return Verdict(plan.name, AGREES)


def of_answer(name: str, word: str, answer: Answer) -> Verdict:
    """The verdict on a plan, by the answer that decides it."""
    wait = next((wait.line for wait in answer.waits if wait.ends is None), None)
    return Verdict(name, word, answer.number, answer.line, answer.reason, wait if word == "hangs" else None)


# ---- Several processes

judge: Optional[Judge] = None


def begin(sweep: Sweep) -> None:
    """Begins a process: the base is made once in each. At Ctrl-C the process that hands out the work ends it."""
    global judge
    signal.signal(signal.SIGINT, signal.SIG_IGN)
    signal.pthread_sigmask(signal.SIG_UNBLOCK, {signal.SIGINT})
    judge = Judge(sweep)


def try_plans(plans: Sequence[Plan]) -> list[Verdict]:
    """A piece of work."""
    assert judge is not None
    return judge.verdicts(plans)


def all_verdicts(sweep: Sweep, plans: Sequence[Plan], jobs: Optional[int]) -> Iterator[Verdict]:
    """The verdicts on all plans, in their order, with a bar of the progress on a terminal."""
    pieces = [plans[place:place + AT_ONCE] for place in range(0, len(plans), AT_ONCE)]
    most = jobs or os.cpu_count() or 1
    with ProcessPoolExecutor(max(1, min(most, len(pieces))), initializer=begin, initargs=(sweep,)) as pool:
        bar = Bar(len(plans), "plans judged")
        try:
            # A process that has just begun isn't interrupted before it ignores that.
            signal.pthread_sigmask(signal.SIG_BLOCK, {signal.SIGINT})
            found = pool.map(try_plans, pieces)
            signal.pthread_sigmask(signal.SIG_UNBLOCK, {signal.SIGINT})
            for verdicts in found:
                yield from verdicts
                bar.go_on(len(verdicts))
        except KeyboardInterrupt:
            # At once: the pool would wait for what its processes are at.
            for child in multiprocessing.active_children():
                child.kill()
            end_by_interrupt()


def judged(sweep: Sweep, plans: Sequence[Plan], jobs: Optional[int] = None) -> tuple[list[Answer], list[Verdict]]:
    """What live nodes do at the base of a sweep, and what becomes of its plans."""
    return Judge(sweep).answers, list(all_verdicts(sweep, plans, jobs)) if plans else []


# ---- What is told


def judge_plans(program: Program, source: str, text: str, given: Namespace) -> int:
    """Judges the plans of an input, tells it, and gives the exit status."""
    parts = split_input(text)
    run = program.run(parts.cluster, [])
    if run.why:
        write_out(run.why + "\n")
        return run.status
    program.check_script(text, source)
    answers, verdicts = judged(Sweep(program, parts.cluster, parts.base, given.orders), parts.plans, given.jobs)
    words = Counter(verdict.word for verdict in verdicts)
    worst = SOMETHING_HANGS if words["hangs"] or words["burns"] else SOME_DIFFER if words["differs"] else NONE_DIFFERS
    status = max(status_of(answers), worst)
    write_out(plans_json(answers, verdicts, status) if given.json else "".join(plan_lines(answers, verdicts)))
    return status


def plan_lines(answers: list[Answer], verdicts: list[Verdict]) -> Iterator[str]:
    """The verdicts as text."""
    first = first_of(answers)
    yield f"{HEAD}\n"
    yield f"base: {sum(answer.agrees for answer in answers)} of {len(answers)} commands as by the rules"
    anchor = answers[first].reason if first is not None else None
    yield "\n" if first is None else f"; the first that differs: {answers[first].line}{f': {PAGE}#{anchor}' if anchor else ''}\n"
    yield from (f"{verdict.text}\n" for verdict in verdicts)
    words = Counter(verdict.word for verdict in verdicts)
    yield (f"{plural(len(verdicts), 'plan')}: {words['agrees']} as by the rules, {words['differs']} differ, {words['hangs']} hang, "
           f"{words['burns']} burn\n")
    anchors = Counter(verdict.anchor for verdict in verdicts if verdict.anchor)
    yield from (f"  {count} {PAGE}#{anchor}: {SENTENCES[anchor]}\n" for anchor, count in anchors.most_common())


def plans_json(answers: list[Answer], verdicts: list[Verdict], status: int) -> str:
    """The verdicts as one JSON object."""
    words = Counter(verdict.word for verdict in verdicts)
    return json.dumps({"base_agrees": all(answer.agrees for answer in answers), "plans": [asdict(verdict) for verdict in verdicts],
                       "counts": {word: words[word] for word in ("agrees", "differs", "hangs", "burns")}, "status": status},
                      indent=1) + "\n"

