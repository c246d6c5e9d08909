#!/usr/bin/env python3
"""Tests the companions with the built program: run_companions.py [--skip-nothing] [--times] PROGRAM [NAME..]

Each companion, an executable file companions/NAME, has its tests in the module tests/companions/NAME.py (with _ for -): a constant NEEDS,
the names of the programs that have to be on the PATH for them, and a constant TESTS, its groups (groups.py), which are run
side by side on all processors. Where a program is missing, these tests are skipped, which a line tells; with --skip-nothing
that is a failed test. The last line is 'N passed, M failed'. Where names of companions are given, these alone are tested.
"""
import glob
import importlib.util
import os
import sys
from dataclasses import replace

# No file is left behind.
sys.dont_write_bytecode = True
from groups import Group, command_line, finish  # noqa: E402
from support import TOP  # noqa: E402

COMPANIONS = os.path.join(TOP, "companions")
MODULES = os.path.join(TOP, "tests", "companions")


def companions():
    """The names of all companions, and of all modules of tests."""
    files = [path for path in glob.glob(os.path.join(COMPANIONS, "*")) if os.path.isfile(path) and os.access(path, os.X_OK)]
    found = {os.path.basename(path).replace("-", "_") for path in files}
    return sorted(found | {os.path.basename(path)[:-len(".py")] for path in glob.glob(os.path.join(MODULES, "*.py"))})


def path_of(name):
    """The path of the module with the tests of a companion."""
    return os.path.join(MODULES, f"{name}.py")


def module_of(name):
    """The module with the tests of a companion."""
    spec = importlib.util.spec_from_file_location(f"companion_{name}", path_of(name))
    module = importlib.util.module_from_spec(spec)
    spec.loader.exec_module(module)
    return module


def named(companion, group):
    """A group of tests of a companion, with its name before those of all tests."""
    group = group if isinstance(group, Group) else Group(group)

    def tests(program, *words):
        # By REHEARSE a companion that isn't told a program otherwise finds this one, and not that which ./rehearse runs.
        os.environ["REHEARSE"] = os.path.abspath(program)
        for test, wrong in group.tests(program, *words):
            yield f"companions/{companion}: {test}", wrong

    tests.__name__ = f"companions/{companion}: {group.name}"
    return replace(group, tests=tests)


def groups_of(name):
    """The groups of tests of a companion. Where it has none, or a program is missing, one stands for all of them."""

    def tests(program):
        if os.path.isfile(path_of(name)):
            # Tells why it can't be loaded.
            module_of(name)
        yield f"companions/{name}", f"it has no tests: there is no tests/companions/{name}.py"

    tests.__name__ = f"companions/{name}"
    try:
        module = module_of(name)
        found = [named(name, group) for group in module.TESTS]
        whole = Group(tests, needs=module.NEEDS)
    except Exception:
        return [tests]
    return [whole] if whole.missing() else found


def groups(names=()):
    """The groups of tests of these companions, or of all."""
    return [group for name in names or companions() for group in groups_of(name)]


def main():
    line = command_line(__doc__)
    line.add_argument("names", nargs="*")
    line.add_argument("--skip-nothing", action="store_true")
    given = line.parse_args()
    finish(groups(given.names), given.program, skips=not given.skip_nothing, shows_times=given.times)


if __name__ == "__main__":
    main()
