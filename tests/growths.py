"""Calls of the libraries with growths of memory counted, and each refused in turn.

No signature of Rattle says that a call takes no memory, and no contract says that want of it is told only where a growth was
refused: a body that owns a list has the allocator that the list was made with, and can ask it for more than there is. So both are
tested, of every call that the libraries offer (`every_call_has_a_row`).

The programs `rh_growths` and `rh_part_growths` take the name of a call. Each makes what the call needs with all memory there,
keeps copies of what has to stay, and makes the call between two marks: growths of sizes for which nothing else asks. A library
that is loaded before the others counts the growths between the marks, and refuses the one of a number, or all. The program says
`done` (the call answered what it has to), `refused` (it was refused memory, and all is as before), or `changed` and what isn't as
it has to be.
"""
import itertools
import os
import re
import sys
import tempfile

from groups import Group
from refused_memory import RUNS
from support import TOP, fault_of, library_of, read, run

# The calls that take no memory, by the program that makes them: with all growths refused they do their work, and ask for none.
NO_GROWTH = {
    "rh_part_growths": (
        # The types round a list, and devices that are watched.
        "Str::of", "Str::as_str", "Str::same", "Term::same", "Terms::of", "Terms::as_slice", "Terms::same",
        "Terms::into_shared of shared ones", "Terms::share of shared ones",
        "Group::of", "Group::as_slice", "Groups::of", "Groups::as_slice",
        "Notices::as_slice", "Notices::same", "Notices::share", "Standings::as_slice", "Standings::same", "Standings::share",
        "Watched::new", "Watched::failed", "Watched::into_inner",
        # The readers of a cluster.
        "Cluster::profile", "Cluster::node_count", "Cluster::app_count", "Cluster::platform_count", "Cluster::node_name",
        "Cluster::app_name", "Cluster::dep_name", "Cluster::node_of", "Cluster::app_of", "Cluster::mandatory", "Cluster::optional",
        "Cluster::sync_wait", "Cluster::boot", "Cluster::permitted", "Cluster::is_platform", "Cluster::deps", "Cluster::start_arg",
        "Cluster::phases", "Cluster::spread", "Cluster::group_of", "Cluster::is_home", "Cluster::needs", "Cluster::same",
        "Cluster::permissions", "Cluster::locals", "Cluster::touched_by",
        # Linked lists and timers.
        "Lists::push_back", "Lists::remove", "Lists::revert", "Lists::reapply", "Lists::first", "Lists::next", "Lists::prev",
        "Lists::list_of", "Lists::count", "Lists::entry_count", "Lists::list_count", "Lists::same_words",
        "Wheel::arm", "Wheel::cancel", "Wheel::earliest", "Wheel::due_of", "Wheel::revert", "Wheel::reapply",
        "Wheel::timer_count", "Wheel::same_words",
        # The readers of a state, its setters, and its edits taken back and made again.
        "State::cluster", "State::now", "State::mode", "State::incarnation", "State::allowed", "State::place_of",
        "State::restart_of", "State::kind_of", "State::first_running", "State::first_waiting", "State::next_in_list",
        "State::running_count", "State::waiting_count", "State::standing", "State::standings", "State::permissions", "State::pairs_before",
        "State::first_running_pair", "State::first_waiting_pair", "State::due_of", "State::earliest",
        "State::same_words",
        "State::set_now", "State::set_mode", "State::set_incarnation", "State::set_allowed", "State::set_restart",
        "State::set_kind", "State::set_standing", "State::push_running", "State::push_waiting", "State::unlink",
        "State::arm_timer", "State::cancel_timer", "State::back", "State::forth",
        # Where an application can run, and why an event is refused.
        "operational", "candidates", "choose", "best", "start_kind", "refusal_of"),
    "rh_growths": (
        "Sim::undo", "Sim::redo", "Sim::undo_all", "Sim::redo_all", "Sim::cut_redo", "Sim::cluster", "Sim::cursor", "Sim::trail",
        "Sim::record", "Sim::state", "Sim::pick", "FiredTimer::due", "FiredTimer::notices", "Bytes::as_slice", "Bytes::share",
        "Reply::share", "Replies::of", "Replies::into_one", "Replies::into_three",
        "Room::log", "Room::sim", "Room::sessions", "Pass::session", "Pass::receipts", "close", "FreeGate::enter", "FreeGate::leave",
        # A session has room for all its receipts, and a room for all its entries, so these take none in a room either.
        "Room::serve of undo", "Room::serve of redo", "Room::serve of undo_all", "Room::serve of redo_all",
        "Room::serve of a refused step"),
}
# The calls that take memory: with each growth refused in turn they say so, and all is as before. With none refused they do their
# work.
GROWTH = {
    "rh_part_growths": (
        "read_terms", "read_terms of a long list", "read_cluster", "Str::copy", "Term::copy", "Terms::copy", "Terms::into_shared",
        "Terms::share", "Notices::of", "Standings::of", "Cluster::copy", "Lists::new", "Lists::copy", "Wheel::new", "Wheel::copy",
        "first_state", "State::copy", "State::timers"),
    "rh_growths": (
        "perform", "firings_of", "Sim::firings", "report", "Bytes::of", "Sim::open", "Sim::copy",
        "Sim::step where timers fire", "Sim::step of a boot",
        "Sim::step behind an undone one", "Sim::step of stop_all", "Sim::step of start_all", "Sim::step of a permission",
        "try_plan", "why_app_waits", "reason_text", "open_room", "Room::serve of a step", "Room::serve of a look", "Room::fork",
        "sweep"),
}
# Calls that programs make over a reader and a writer: each allocation of these rows is refused in turn (refused_memory.py), so the
# text comes whole, or a front of it with status 5. A program that makes one of them alone takes the prover several minutes.
MADE = {
    "rows/story/reasons": (
        "run_story", "reasons_of", "push_reason", "courses_of", "course_text", "Course::runs", "Course::app", "Course::changes",
        "Course::time", "Course::stay", "Course::away", "Course::pieces", "mark", "note_of", "is_told"),
    "rows/story/waits-for": ("why_node_waits", "awaited_text"),
    "rows/verify/report": ("run_verify",),
    "rows/json/report": ("run_json", "answer_call", "reply_line", "seen_line", "forbids_any", "push_string", "push_number",
                         "close_array", "push_text", "push_bytes", "before_first", "after_first", "push_command", "push_ok", "push_place",
                         "push_node", "push_app", "push_start", "push_app_at", "push_node_at"),
    "rows/json/failover": ("fired_by", "Trace::expect_boot", "push_pair"),
    "rows/json/explore": ("push_bare_report",),
    "rows/json/refused-and-bad": ("write_bad", "bad_line"),
    "rows/json/names": ("check_json", "write_cluster", "cluster_line", "push_array"),
    "rows/json/fault-value": ("write_fault", "fault_line"),
    "rows/json/sweep": ("outcome_line",),
    "rows/json/sweep-not-at-end": ("sweep_fault_line",),
    "rows/manner/echo-and-strict": ("run_in", "write_echo", "end_of"),
    "rows/manner/echo-of-a-bad-line": ("answer_bad_line",),
    "rows/manner/interactive": ("run_dialogue", "run_dialogue_by"),
    "rows/otp25/interactive": ("run_live_dialogue",),
}
# Those that are made five thousand times, of a cluster of the second profile with 128 applications: none wants memory.
MANY = ("Sim::step", "Room::serve", "try_plan")
# Blocks that a call can do without: one for each thread that isn't made then, whose work is done by another; one for a report or
# for a list of notices, which keep spare memory then; one for each list of a text that is longer than all before it, which can't be
# shared then where it is written again; and one where a list of more than a thousand elements closes, which keeps spare memory.
SPARED = {"sweep": 1, "read_terms": 1, "read_terms of a long list": 2, "read_cluster": 2, "Room::serve of a step": 1,
          "Room::serve of a look": 1}
# The most growths that a call may ask for. A copy of a state shares the cluster.
MOST = {"State::copy": 11, "Sim::copy": 14, "Room::fork": 14}
# The most growths for a plan more in a sweep: a worker copies the base's state once, and not for each plan.
MOST_FOR_A_PLAN = 5
MAKER_OF = {name: program for program, names in GROWTH.items() for name in names}

# Counts the growths between the marks in the file COUNT_FILE, and refuses the one of the number in FAIL_ALLOCATION, counted
# from 1, or all where that is `all`.
REFUSING = r"""
#define _GNU_SOURCE
#include <dlfcn.h>
#include <fcntl.h>
#include <stdlib.h>
#include <string.h>
#include <sys/mman.h>
#include <unistd.h>
static const size_t begin_mark = 1234567, end_mark = 7654321;
static long refused = -1, before_begin[2];
static long *count = before_begin;
static int is_on, is_all;
__attribute__((constructor)) static void begin(void) {
  const char *text = getenv("FAIL_ALLOCATION");
  const char *path = getenv("COUNT_FILE");
  int file = path ? open(path, O_RDWR | O_CREAT | O_TRUNC, 0600) : -1;
  if (text && strcmp(text, "all") == 0) is_all = 1;
  else if (text) refused = atol(text);
  if (file < 0 || ftruncate(file, sizeof before_begin) != 0) abort();
  count = mmap(NULL, sizeof before_begin, PROT_READ | PROT_WRITE, MAP_SHARED, file, 0);
  if (count == MAP_FAILED) abort();
  close(file);
}
/* Is this growth to be refused? The marks are counted behind the growths. */
static int refuse(size_t size) {
  if (size == begin_mark || size == end_mark) {
    is_on = size == begin_mark;
    __sync_add_and_fetch(count + 1, 1);
    return 0;
  }
  if (!is_on) return 0;
  long number = __sync_add_and_fetch(count, 1);
  return is_all || number == refused;
}
void *malloc(size_t size) {
  static void *(*inner)(size_t);
  if (!inner) inner = dlsym(RTLD_NEXT, "malloc");
  return refuse(size) ? NULL : inner(size);
}
void *realloc(void *p, size_t size) {
  static void *(*inner)(void *, size_t);
  if (!inner) inner = dlsym(RTLD_NEXT, "realloc");
  return refuse(size) ? NULL : inner(p, size);
}
"""


def program_beside(program, name):
    """The path of the program that makes the call of this name, where `rehearse` is this one."""
    crates = os.path.dirname(os.path.dirname(os.path.dirname(program)))
    return os.path.join(crates, name, "out", name)


class Calls:
    """The program that makes the calls, with growths refused."""

    def __init__(self, program, folder):
        self.program, self.library, self.counted = program, library_of(REFUSING, folder), os.path.join(folder, "count")

    def refusing(self, name, number):
        """What is said of a call of this name with this growth refused, how many growths were asked for, and what is wrong
        with the run, or None."""
        done = run(self.program, [name], env={
            **os.environ, "LD_PRELOAD": self.library, "FAIL_ALLOCATION": str(number), "COUNT_FILE": self.counted})
        kept = read(self.counted)
        count, marks = (int.from_bytes(kept[at:at + 8], sys.byteorder) for at in (0, 8))
        wrong = None if marks == 2 else f"{marks} marks, want 2"
        return done.stdout, count, fault_of(done, 0, None) or wrong


def growing_fault(calls, name):
    """Each growth of a call refused in turn: how many were, and what is wrong, or None."""
    missed = spared = 0
    for number in itertools.count(1):
        said, count, wrong = calls.refusing(name, number)
        if count < number:
            break
        missed += said == b"refused\n"
        spared += said == b"done\n"
        if wrong is not None or missed + spared < number or spared > SPARED.get(name, 0):
            return missed, f"growth {number} refused: {said!r}, {wrong}"
    if wrong is not None or said != b"done\n":
        return missed, f"no growth refused: {said!r}, {wrong}"
    return missed, None if missed else "no growth was refused"


def many_fault(calls, name):
    """What is wrong with a call that is made often, with all memory there, or None."""
    done = run(calls.program, [name, many_applications()])
    return fault_of(done, 0, b"done\n")


def many_applications():
    """A cluster file of the second profile: one node that boots 128 applications, each of which is distributed."""
    names = ["a%d" % number for number in range(128)]
    parts = {
        "distributed": ", ".join("{%s, [z]}" % name for name in names),
        "boot": ", ".join("{%s, permanent}" % name for name in names)}
    node = "{node, z, [{kernel, [{distributed, [%(distributed)s]}]}, {rehearse, [{boot, [%(boot)s]}]}]}." % parts
    return " ".join(["{profile, 2}.", node, *("{application, %s, []}." % name for name in names)])


def most_fault(calls, name):
    """What is wrong with the number of growths for which a call asks, or None."""
    _, count, wrong = calls.refusing(name, 0)
    return wrong or (None if count <= MOST[name] else f"{count} growths, at most {MOST[name]} are wanted")


def plans_fault(calls):
    """What is wrong with the number of growths for which a sweep asks for each plan, or None."""
    (_, few, wrong), (_, many, wrong_too) = (calls.refusing(f"sweep of {count} plans", 0) for count in (10, 110))
    most = few + 100 * MOST_FOR_A_PLAN
    told = None if many <= most else f"{many} growths for 110 plans, {few} for 10: at most {most} are wanted"
    return wrong or wrong_too or told


def fixed_fault(calls, name):
    """What is wrong with a call that takes no memory, or None: it does its work, asks for no growth, and would get none."""
    said, count, wrong = calls.refusing(name, "all")
    return wrong or (None if (said, count) == (b"done\n", 0) else f"{count} growths, {said!r}")


def calls_of(program, name, tests):
    """Tests of the calls that the program `name` beside `rehearse` makes: a function of `Calls`."""
    path = program_beside(program, name)
    if not os.path.exists(path):
        yield f"growths of {name}", f"{path} isn't there: rt ci builds it, and so does rt run in its crate"
        return
    with tempfile.TemporaryDirectory() as folder:
        yield from tests(Calls(path, folder))


def no_growths(program, maker):
    """Calls that take no memory, with all growths refused."""
    return calls_of(program, maker, lambda calls: (
        (f"{name}: all growths refused", fixed_fault(calls, name)) for name in NO_GROWTH[maker]))


def growths(program, name):
    """A call with each growth refused in turn: it answers that memory was refused, and leaves all as it was. Of some it is also
    counted how many there are."""

    def tests(calls):
        missed, wrong = growing_fault(calls, name)
        yield f"{name}: each of {missed} growths refused in turn", wrong
        if name in MOST:
            yield f"{name}: at most {MOST[name]} growths", most_fault(calls, name)

    return calls_of(program, MAKER_OF[name], tests)


def many_growths(program):
    """Calls that are made often, and plans that are swept, with no growth refused."""

    def tests(calls):
        for name in MANY:
            yield f"{name}: many calls", many_fault(calls, name)
        yield "sweep: growths for a plan", plans_fault(calls)

    return calls_of(program, "rh_growths", tests)


# The files of the calls, by crate: those of a type's `impl`, and the functions that the crate's lib.rt gives out.
SURFACE = {
    "rh_base": ("text", "term"), "rh_terms": ("reading",), "rh_model": ("groups", "cluster"), "rh_cluster": ("reading",),
    "rh_arena": ("lists",), "rh_wheel": ("wheel",), "rh_devices": ("watched",),
    "rh_state": ("state", "state/reading", "state/setting", "state/timers", "state/exchanging", "state/comparing",
                 "state/walking"),
    "rh_place": ("choosing", "operating"), "rh_trace": ("starting",), "rh_refusals": ("refusing",), "rh_plans": ("plan",),
    "rh_step": ("step", "firings"), "rh_calls": ("notices", "call", "replies", "text", "text/nodes"),
    "rh_trail": ("sim", "sim/moves", "sim/firings"),
    "rh_room": ("room", "opening", "closing", "pass"),
    "rh_sweep": ("trial", "workers"), "rh_script": ("notes",), "rh_why": ("apps", "nodes", "text"),
    "rh_courses": ("course", "walk", "text"), "rh_story": ("story",), "rh_verify": ("verifying",),
    "rh_json_text": ("pieces", "words"),
    "rh_json_lines": ("answers", "clusters", "notices", "outcomes", "reports", "starts"), "rh_json": ("running", "checking"),
    "rh_manner": ("running", "dialogue"), "rh_otp_dialogue": ("dialogue",),
}
# Calls that do nothing: their contracts are what they are for.
FACTS = {"Cluster::is_within", "Lists::formed", "Wheel::formed", "State::formed", "Sim::is_chained", "Sim::is_reversible",
         "firings_tell_the_tick", "firings_are_in_time"}
# Parts of calls that have rows, which crates above make by themselves too.
PARTS = {
    "text_of_bytes", "text_of_vec", "read_kept", "is_in", "Cluster::of", "first_state_sharing", "operational_among",
    "operational_nodes", "missing_dep", "deps_run", "Outcome::share_standings", "Bytes::same", "Reply::same", "Sim::answer",
    "Sim::look", "State::next_pair"}
# Readers that no program makes, and that are lent no allocator.
UNMADE = {"Course::place", "Course::ran"}


def offered_calls(crate, file):
    """The public calls of a file, each with whether it is lent an allocator."""
    given_out = " ".join(re.findall(r"pub use [^;]*;", read_text(crate, "lib")))
    beginning = r"^impl(?:<[^>]*>)? (\w+)|^( *)pub fn (\w+)([^{]*?)\n? *(?:requires|ensures|\{)"
    of_type = ""
    for found in re.finditer(beginning, read_text(crate, file), re.M):
        if found[1]:
            of_type = found[1]
        elif found[2]:
            yield f"{of_type}::{found[3]}", "alloc: Global" in found[4]
        elif re.search(rf"\b{found[3]}\b", given_out):
            yield found[3], "alloc: Global" in found[4]


def read_text(crate, file):
    """The text of a crate's source."""
    return read(os.path.join(TOP, "crates", crate, "src", file + ".rt")).decode()


def every_call_has_a_row(_program):
    """Each public call of the libraries has a row above: those that are lent no allocator among those that take no memory, or
    among those that a program makes in a run that is refused memory."""
    made = {name for row, names in MADE.items() if row in RUNS for name in names}
    tables = [{name.split(" ")[0] for names in table.values() for name in names} | made for table in (NO_GROWTH, GROWTH)]
    for crate, files in SURFACE.items():
        calls = [call for file in files for call in offered_calls(crate, file) if call[0] not in FACTS | PARTS | UNMADE]
        missing = [name for name, is_lent in calls if name not in tables[is_lent]]
        yield f"{crate}: each of {len(calls)} calls has a row", ", ".join(missing) or (None if calls else "no call was found")


TESTS = (Group(no_growths, tuple(NO_GROWTH), needs=("cc",)), Group(growths, tuple(MAKER_OF), needs=("cc",)),
         Group(many_growths, needs=("cc",)), every_call_has_a_row)
