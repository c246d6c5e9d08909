#!/usr/bin/env python3
"""The tests of ./test --quick: quick.py [--times] PROGRAM

The worked rows, the examples, devices, memory and threads that fail, and the companions: all side by side on all processors,
in at most three minutes on four of them. What needs a program that isn't installed is skipped, which a line tells.
The last line is 'N passed, M failed'.
"""
import sys

# No file is left behind.
sys.dont_write_bytecode = True
import run_companions  # noqa: E402
import run_program  # noqa: E402
from groups import command_line, finish  # noqa: E402


def main():
    given = command_line(__doc__).parse_args()
    finish([*run_companions.groups(), *run_program.QUICK], given.program, skips=True, shows_times=given.times)


if __name__ == "__main__":
    main()
