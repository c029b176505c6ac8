"""Runs programs and measures their time and their memory, for the benchmarks of this folder."""

import argparse
import os
import resource
import subprocess
import sys
import tempfile
import threading
import time

RUNS = 3
# Processor seconds after which the system ends a run of `run_capped`.
CAP = 60
FOLDER = os.path.dirname(os.path.abspath(__file__))
BUILT = os.path.join(FOLDER, "..", "crates", "optplan", "out", "optplan")
# Bytes in the unit in which the system reports the peak of a process's resident memory.
RESIDENT_UNIT = 1 if sys.platform == "darwin" else 1024


def program_of(name, arguments, operand="OPTPLAN", built=BUILT, how="the first call of ../optplan builds it"):
    """Returns the path of the program to measure: the one argument of benchmark `name`, or `built` without arguments.

    Returns None after a message if the arguments are wrong or if there is no such program; `how` says how to build it.
    """
    if len(arguments) > 1 or arguments[:1] == ["--help"]:
        print(f"usage: {name} [{operand}]", file=sys.stderr)
        return None
    program = os.path.abspath(arguments[0] if arguments else built)
    if not os.access(program, os.X_OK):
        print(f"{name}: there is no program {program}; {how}", file=sys.stderr)
        return None
    return program


def compared(name, operand, is_required, arguments):
    """Returns the arguments of a benchmark that compares optplan with another planner on the tasks of some files:
    `program`, which the usage names `operand`, `baseline`, which is None if it is not required and not given, and
    `files`.

    Ends the process with status 2 and the usage if the arguments are wrong or a program is missing.
    """
    option = "--baseline PROGRAM" if is_required else "[--baseline PROGRAM]"
    parser = argparse.ArgumentParser(prog=name, usage=f"{name} {operand} {option} FILE..", add_help=False)
    parser.add_argument("program", metavar=operand)
    parser.add_argument("--baseline", metavar="PROGRAM", required=is_required)
    parser.add_argument("files", metavar="FILE", nargs="+")
    given = parser.parse_intermixed_args(arguments)
    for program in filter(None, (given.program, given.baseline)):
        if not os.access(program, os.X_OK) or os.path.isdir(program):
            parser.error(f"there is no program {program}")
    return given


def value_in(arguments, option, default):
    """Takes an option and its value out of the arguments, and returns the value, or `default` if it is not given."""
    if option not in arguments[:-1]:
        return default
    at = arguments.index(option)
    return (arguments.pop(at), arguments.pop(at))[1]


def ties_in(arguments):
    """Takes `--ties ORDER` out of the arguments, and returns the order, by default that of searches with threads."""
    return value_in(arguments, "--ties", "fresh")


def workers_in(arguments, numbers):
    """Takes `--workers N,..` out of the arguments, and returns 1 and these numbers of workers, by default `numbers`. Ends
    the process with status 2 if one of them is no number from 1 to 64."""
    given = value_in(arguments, "--workers", numbers).split(",")
    if not all(it.isdecimal() and 1 <= int(it) <= 64 for it in given):
        print(f"not numbers of workers from 1 to 64: {','.join(given)}", file=sys.stderr)
        sys.exit(2)
    return (1, *(int(it) for it in given if int(it) != 1))


def generate(script, folder, size):
    """Runs a generator of this folder, and returns what it prints.

    It runs in a process of its own, since a program's peak memory is at least that of the process that starts it.
    """
    command = [sys.executable, os.path.join(FOLDER, script), folder, str(size)]
    return subprocess.run(command, check=True, stdout=subprocess.PIPE).stdout.decode("ascii").strip()


def run(program, arguments):
    """Runs the program once. Returns its standard output, its status, seconds, and the peak of resident memory in
    bytes."""
    start = time.perf_counter()
    process = subprocess.Popen([program, *arguments], stdin=subprocess.DEVNULL, stdout=subprocess.PIPE)
    with process.stdout:
        output = process.stdout.read()
    _, wait_status, usage = os.wait4(process.pid, 0)
    seconds = time.perf_counter() - start
    process.returncode = os.waitstatus_to_exitcode(wait_status)
    return output.decode("ascii", "replace"), process.returncode, seconds, usage.ru_maxrss * RESIDENT_UNIT


def run_capped(command, reports=False):
    """Runs a command once, for at most CAP processor seconds. Returns its status, None if the system ended it, its
    standard output, processor seconds, and the peak of resident memory in bytes; with `reports` its standard error too."""
    def cap():
        resource.setrlimit(resource.RLIMIT_CPU, (CAP, CAP))

    with tempfile.TemporaryFile() as errors:
        process = subprocess.Popen(command, stdin=subprocess.DEVNULL, stdout=subprocess.PIPE, stderr=errors, preexec_fn=cap)
        with process.stdout:
            output = process.stdout.read().decode("ascii", "replace")
        _, wait_status, usage = os.wait4(process.pid, 0)
        errors.seek(0)
        report = errors.read().decode("ascii", "replace")
    process.returncode = os.waitstatus_to_exitcode(wait_status)
    status = None if process.returncode < 0 else process.returncode
    found = status, output, usage.ru_utime + usage.ru_stime, usage.ru_maxrss * RESIDENT_UNIT
    return (*found, report) if reports else found


def run_within(command, seconds):
    """Runs a command once. Returns its status, what it writes to both streams, and the peak of its resident memory in
    bytes, or None if it takes more than these seconds."""
    with tempfile.TemporaryFile() as output, tempfile.TemporaryFile() as errors:
        process = subprocess.Popen(command, stdin=subprocess.DEVNULL, stdout=output, stderr=errors)
        alarm = threading.Timer(seconds, process.kill)
        alarm.start()
        _, wait_status, usage = os.wait4(process.pid, 0)
        is_past = not alarm.is_alive()
        alarm.cancel()
        process.returncode = os.waitstatus_to_exitcode(wait_status)
        if is_past:
            return None
        texts = [(it.seek(0), it.read().decode("ascii", "replace"))[1] for it in (output, errors)]
    return process.returncode, *texts, usage.ru_maxrss * RESIDENT_UNIT


def measure(name, program, command, script, files, size, answer):
    """Runs a command, or a program without commands, RUNS times on the files that a generator makes for a size.

    `answer` returns the expected line, from what the generator prints. Returns whether each answer was right, the
    text's bytes, the least seconds and the greatest peak in bytes.
    """
    with tempfile.TemporaryDirectory() as folder:
        wanted = answer(generate(script, folder, size))
        paths = [os.path.join(folder, file) for file in files]
        text = sum(os.path.getsize(path) for path in paths)
        right, times, peaks = True, [], []
        for _ in range(RUNS):
            output, status, seconds, peak = run(program, [command, *paths] if command else paths)
            if output.strip() != wanted or status != 0:
                right = False
                print(f"{name}: size {size}: expected {wanted!r} and status 0, "
                      f"got {output[:200]!r} and status {status}", file=sys.stderr)
            times.append(seconds)
            peaks.append(peak)
    return right, text, min(times), max(peaks)
