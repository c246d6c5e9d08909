"""`explore` on clusters that were made so that the keys of their states collide in a table: its time grows with the states, and not with
their square.

A key is the bytes of what is said of a state: of each node its mode, the applications that run there, in the order of their starts, and
those that wait, each list with a 0 behind it, and then its pairs; and of each application where it stands. The usual hash of the tables
takes in 16 bytes at a time: the first 8, by xor with its state, are multiplied by the last 8. Where the first 8 are equal to the state,
that is 0, and it stays so as long as each next 16 bytes begin with 8 zeros, whatever the last 8 are. So a file is made here whose
applications start in such an order: found by a search through orders of the first 15 of 23, till the hash of the 16 bytes with these is
the 8 bytes of the last 8. The pairs in the first half of each 16 bytes behind them are all 0, and those in the last half are what may
change. This is done for keys with two bytes a pair, as they once were, and with one, as they are.

The control has the same starts but for the first two, in the other order. Both files have as many states and give the same answers, and
take as long. In the last one the keys of most states differ in one or two bytes, at all places that a pair has, so that the same words
of 8 bytes stand at many places.

What this can't show: that no other file has keys that collide. Keys are hashed by SipHash-1-3 since, and none is known.
"""
import itertools
import os
import random
import subprocess
import tempfile
from typing import Iterator, Optional

APPS = 128
FIRST, SECOND = 15, 8
MASK = (1 << 64) - 1
# What the usual hash begins with, and what it multiplies by.
STATE, MULTIPLIER = 0x243f_6a88_85a3_08d3, 0x9e37_79b9_7f4a_7c15
UP = 2
# By the bytes of a pair: the numbers at which a search from 0 on ends, which takes half a minute.
FOUND = {2: 291_536, 1: 1_160_544}
STATES = 8_000
# How many times as long one file may take as another: where keys collide it is 50 times and more, and else about as long.
TIMES, SECONDS = 4, 0.2


def free_of_zeros(width: int) -> list[int]:
    """The applications whose pairs stand in the last half of 16 bytes of a key, where a pair takes so many bytes. They begin behind a
    mode, what runs, and the ends of two lists."""
    begin = 1 + FIRST + SECOND + 2
    return [app for app in range(APPS) if (begin + width * app) % 16 >= 8]


def colliding_starts(width: int) -> list[int]:
    """Applications in an order of starts by which a hash becomes 0."""
    free = free_of_zeros(width)
    length = 1 + FIRST + SECOND + 2 + (width + 2) * APPS
    for number in itertools.count(FOUND[width]):
        first = random.Random(number).sample(free, FIRST)
        block = bytes([UP, *(app + 1 for app in first)])
        product = (int.from_bytes(block[:8], "little") ^ STATE + length) * (int.from_bytes(block[8:], "little") ^ MULTIPLIER)
        second = [byte - 1 for byte in (product & MASK ^ product >> 64).to_bytes(8, "little")]
        if len({*first, *second}) == FIRST + SECOND and set(second) <= set(free):
            return first + second
    raise AssertionError("there is no end of numbers")


def cluster_text(starts: list[int], events: list[int]) -> bytes:
    """A node that starts these applications, of which those that are not in the last half have none but zeros in their pairs. What may
    come are permissions of some."""
    lines = ["{profile, 2}.", "{node, n0@l, [{kernel, []}, {rehearse, [{boot, []}]}]}."]
    lines += [f"{{application, a{app}, [{{applications, [kernel]}}]}}." for app in range(APPS)]
    lines += ["===", "boot n0@l"]
    for app in sorted(set(range(APPS)) - set(starts) - set(events)):
        lines += [f"start n0@l a{app} permanent", f"stop n0@l a{app}", f"permit n0@l a{app} false"]
    lines += [f"start n0@l a{app} temporary" for app in starts]
    lines += [f"may permit n0@l a{app} {word}" for app in events for word in ("false", "true")]
    return "".join(line + "\n" for line in lines).encode()


def timed(program: str, text: bytes) -> tuple[int, bytes, float]:
    """How a search ends, the line of what it explored, and its seconds of a processor."""
    with tempfile.TemporaryFile() as source, tempfile.TemporaryFile() as told:
        source.write(text)
        source.seek(0)
        search = subprocess.Popen([program, "explore", "--states", str(STATES)], stdin=source, stdout=told, stderr=subprocess.DEVNULL)
        _, status, used = os.wait4(search.pid, 0)
        search.returncode = os.waitstatus_to_exitcode(status)
        told.seek(0)
        explored = [line for line in told if line.startswith(b"explored ")]
    return search.returncode, b"".join(explored), used.ru_utime


def fault(program: str, text: bytes, control: bytes) -> Optional[str]:
    """What is wrong with the search of a text beside that of a control."""
    status, explored, seconds = timed(program, text)
    other_status, other_explored, usual = timed(program, control)
    owed = b"explored %d states " % STATES
    if not explored.startswith(owed) or explored.split()[:2] != other_explored.split()[:2] or status != other_status:
        return f"status {status} and {other_status}, {explored!r} and {other_explored!r} in place of {owed!r}"
    if seconds > TIMES * usual + SECONDS:
        return f"{seconds:.2f} s, and {usual:.2f} s where keys don't collide"
    return None


def colliding_keys(program: str) -> Iterator[tuple[str, Optional[str]]]:
    """Files with keys that collide, or that differ in few bytes, beside one with the same states whose keys don't."""
    for width in (2, 1):
        starts = colliding_starts(width)
        events = [app for app in free_of_zeros(width) if app not in starts]
        exchanged = [starts[1], starts[0], *starts[2:]]
        control = cluster_text(exchanged, events)
        yield f"keys that would collide, {'two bytes' if width == 2 else 'a byte'} a pair", fault(program, cluster_text(starts, events), control)
    yield "keys that differ in few bytes", fault(program, cluster_text([], list(range(APPS))), control)


TESTS = (colliding_keys,)
