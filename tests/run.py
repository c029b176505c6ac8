#!/usr/bin/env python3
"""Runs the program on inputs whose answers were worked out by hand, and prints what differs.

usage: tests/run.py [OPTPLAN] [MODULE..]    OPTPLAN is the program's file; without it, ./optplan first unpacks or builds the program. A
                                            module is a file test_*.py without its ending; without any, all are run. Each module's
                                            line is printed as it ends. The last line is 'N passed, M failed', of test functions

The classes of all modules run side by side, as many as there are processors.
"""

import concurrent.futures
import importlib
import os
import subprocess
import sys
import unittest

FOLDER = os.path.dirname(os.path.abspath(__file__))
TOP = os.path.dirname(FOLDER)
BUILT = os.path.join(TOP, "crates", "optplan", "out", "optplan")


def modules():
    return sorted(it.removesuffix(".py") for it in os.listdir(FOLDER) if it.startswith("test_") and it.endswith(".py"))


class Result(unittest.TestResult):
    """Counts the tests that passed. One that is left out neither passed nor failed."""

    passed = 0

    def addSuccess(self, test):
        super().addSuccess(test)
        self.passed += 1


def classes_of(module):
    """Returns the names of a module's own classes of tests."""
    sys.path.insert(0, FOLDER)
    found = importlib.import_module(module)
    return [it.__name__ for it in vars(found).values() if isinstance(it, type) and issubclass(it, unittest.TestCase)
            and it.__module__ == module and unittest.defaultTestLoader.getTestCaseNames(it)]


def run_class(module, name):
    """Returns how many of a class's tests passed and failed, what to print of those that failed, and why some were left
    out."""
    sys.path.insert(0, FOLDER)
    result = Result()
    unittest.defaultTestLoader.loadTestsFromName(f"{module}.{name}").run(result)
    bad = [*result.failures, *result.errors]
    failed = len({getattr(test, "test_case", test).id() for test, _ in bad})
    return result.passed, failed, "".join(f"{test}\n{text}" for test, text in bad), {why for _, why in result.skipped}


class Module:
    """The results of the classes of a module."""

    def __init__(self, name, count):
        self.name, self.left = name, count
        self.passed = self.failed = 0
        self.said, self.skipped = "", set()

    def add(self, passed, failed, said, skipped):
        """Adds those of a class. Returns whether it was the last one."""
        self.passed, self.failed, self.said = self.passed + passed, self.failed + failed, self.said + said
        self.skipped |= skipped
        self.left -= 1
        return not self.left

    def __str__(self):
        left_out = "".join(f", left out: {why}" for why in sorted(self.skipped))
        return f"{self.said}{self.name}: {self.passed} passed, {self.failed} failed{left_out}"


def has_program(program):
    """Returns whether the program is there, after ./optplan has unpacked or built it if no file was named."""
    if program == BUILT:
        return subprocess.run([os.path.join(TOP, "optplan"), "--version"], stdout=subprocess.DEVNULL, check=False).returncode == 0
    if not os.access(program, os.X_OK):
        print(f"tests: there is no program {program}", file=sys.stderr)
        return False
    return True


def main(words):
    if words == ["--help"]:
        print(__doc__)
        return 0
    program = os.path.abspath(words[0]) if words and not words[0].startswith("test_") else BUILT
    names = [it for it in words if it.startswith("test_")] or modules()
    if not has_program(program):
        return 2
    os.environ["OPTPLAN"] = program
    classes = {it: classes_of(it) for it in names}
    modules_run = {it: Module(it, len(classes[it])) for it in names}
    with concurrent.futures.ProcessPoolExecutor(len(os.sched_getaffinity(0))) as pool:
        running = {pool.submit(run_class, module, it): module for module in names for it in classes[module]}
        for ended in concurrent.futures.as_completed(running):
            module = modules_run[running[ended]]
            if module.add(*ended.result()):
                print(module, flush=True)
    passed, failed = (sum(getattr(it, which) for it in modules_run.values()) for which in ("passed", "failed"))
    print(f"{passed} passed, {failed} failed")
    return int(failed > 0 or passed == 0)


if __name__ == "__main__":
    sys.exit(main(sys.argv[1:]))
