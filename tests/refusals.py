#!/usr/bin/env python3
"""Runs the program while the system refuses one call: memory, a thread, or a call on a file. A library that is loaded
before the C library (`refusing.c`, built by `cc`) selects the call, so each call of each thread can be refused.

    refusals.py OPTPLAN

Refuses each call of each kind in turn, in a run of its own, under each command on small examples, until a run makes no
further call of the kind. After a refused growth of memory the answer is that worked out by hand or `optplan: out of
memory`; after a refused thread it is that worked out by hand; a file that cannot be opened, read or written is named by
its fault, and the others are written, unless no search was begun. A text with a fault is refused all the same, with the
status of a refused text if the fault cannot be reported. Wrong runs are printed, and the last line is the number of runs
with a refused call and of those that ended wrongly. The status is 1 if one did. Takes some minutes.
"""

import atexit
import dataclasses
import functools
import os
import re
import shutil
import subprocess
import sys
import tempfile

from program import Outcome, example, run
from texts import ROAD_DOMAIN, ROAD_PROBLEM, ROAD_SAS, ROAD_TO_NOWHERE

KINDS = ("growth", "thread", "open", "read", "write")
OUT_OF_MEMORY = Outcome(err=b"optplan: out of memory\n", status=6)
CANNOT_READ = re.compile(rb"optplan: F70 CannotRead (domain|problem|plan|sas|cert)\n")
CANNOT_WRITE = re.compile(rb"optplan: F71 CannotWrite (plan|cert|output)\n")


@functools.lru_cache(maxsize=None)
def library():
    """Returns the path of the library that refuses a call."""
    folder = tempfile.mkdtemp(prefix="optplan-refusing-")
    atexit.register(shutil.rmtree, folder, ignore_errors=True)
    source, path = os.path.join(os.path.dirname(os.path.abspath(__file__)), "refusing.c"), os.path.join(folder, "refusing.so")
    subprocess.run(["cc", "-O1", "-shared", "-fPIC", "-o", path, source, "-ldl"], check=True)
    return path


def run_refusing(kind, number, words, files):
    """Returns the outcome of a run in which the call of this kind with this number is refused, and whether it made such
    a call."""
    reader, writer = os.pipe()
    try:
        environment = {"LD_PRELOAD": library(), "REFUSE_KIND": kind, "REFUSE_AT": str(number), "REFUSE_TOLD": str(writer)}
        outcome = run(*words, files=files, environment=environment, descriptors=(writer,))
    finally:
        os.close(writer)
        with os.fdopen(reader, "rb") as file:
            report = file.read()
    return outcome, bool(report)


def refused_in_turn(kind, words, files, step=1):
    """Yields, for every `step`-th call of this kind, its number and the outcome of the run in which it was refused."""
    number = (step + 1) // 2
    while True:
        outcome, was_refused = run_refusing(kind, number, words, files)
        if not was_refused:
            return
        yield number, outcome
        number += step


def files_of(task, *names):
    """Returns the files of an example by one-letter names: `d`, `p`, `l`, `s` and `c` for the domain, the problem, the
    plan, the task and the certificate."""
    return {letter: example(task, name) for letter, name in names}


PLANNING = (("d", "domain.pddl"), ("p", "problem.pddl"))


@dataclasses.dataclass(frozen=True)
class End:
    """What answers have in common that name two cheapest plans: the last line of standard output, the exit status, and
    the names of the files that are written; or, of a refused text, the line of its fault on standard error alone, with
    its explanation if that is requested."""

    line: bytes = b""
    status: int = 0
    files: list = dataclasses.field(default_factory=list)
    fault: bytes = b""

    def is_of(self, outcome):
        """Returns whether an outcome ends like this."""
        lines = [self.line] if self.line else []
        return (outcome.out.splitlines()[-1:], outcome.err, outcome.status, sorted(outcome.files)) == (lines, self.fault, self.status, self.files)

    def last_lines(self):
        """Returns the last line of each output that is not empty, by the word that names it in a fault."""
        has_plan = self.status == 0 and "plan" in self.files
        return {"output": self.line} | ({"plan": self.line} if has_plan else {}) | ({"cert": b"end"} if "cert" in self.files else {})


def commands():
    """Yields the arguments of each command, the files that they name, and the end of the answer: tasks with a plan and one
    without, solved by random steps and with threads."""
    plan_and_cert = ("--plan", "plan", "--cert", "cert")
    for files, *answer in ((files_of("road", *PLANNING), b"; cost = 2 (unit cost)", 0, ["cert", "plan"]),
                           (files_of("grip", *PLANNING), b"; cost = 7 (unit cost)", 0, ["cert", "plan"]),
                           ({"d": ROAD_DOMAIN, "p": ROAD_TO_NOWHERE}, b"unsolvable", 4, ["cert", "plan"])):
        for schedule in (("--simulate", "1"), ("--workers", "2")):
            yield ("solve", "d", "p", *schedule, *plan_and_cert), files, End(*answer)
    files = files_of("road", ("s", "task.sas"), ("c", "table.cert"))
    yield ("solve-sas", "s", "--workers", "3", *plan_and_cert), files, End(b"; cost = 2 (unit cost)", 0, ["cert", "plan"])
    yield ("check-sas", "s", "c"), files, End(b"accepted 2")
    yield ("translate", "d", "p"), files_of("grip", *PLANNING), End(b"0")
    for task, cost in (("road", 2), ("grip", 7)):
        files = files_of(task, *PLANNING)
        solved = run("solve", "d", "p", "--simulate", "1", "--plan", "l", "--cert", "c", files=files)
        yield ("validate", "d", "p", "l"), files | {"l": solved.files["l"]}, End(b"valid %d" % cost)
        yield ("check", "d", "p", "c"), files | {"c": solved.files["c"]}, End(b"accepted %d" % cost)
    yield ("migrate-cert", "c"), {"c": solved.files["c"]}, End(b"end")
    yield from commands_on_faults()


def commands_on_faults():
    """Yields the arguments of commands on a text with a fault, near its end, the files that they name, and the end of the
    answer: that fault."""
    road, cert = {"d": ROAD_DOMAIN, "p": ROAD_PROBLEM}, example("road", "planning.cert")
    for words, files, fault in (
        (("translate", "d", "p"), road | {"d": ROAD_DOMAIN.rstrip()[:-1]}, "F2 Unclosed domain 0"),
        (("solve", "d", "p", "--plan", "plan", "--cert", "cert"), road | {"p": ROAD_PROBLEM.replace("(at c)", "(at d)")},
         "F12 UnknownName problem 110"),
        (("solve-sas", "s", "--plan", "plan", "--cert", "cert"), {"s": ROAD_SAS + "x"}, "F46 Trailing sas 46"),
        (("validate", "d", "p", "l"), road | {"l": "(go a b)()"}, "F25 PlanShape plan 8"),
        (("check", "d", "p", "c"), road | {"c": cert + "end\n"}, "F54 Trailing cert 17"),
        (("check-sas", "s", "c"), {"s": ROAD_SAS, "c": cert}, "F51 Expected cert 2"),
        (("migrate-cert", "c"), {"c": cert.removesuffix("end\n")}, "F53 Truncated cert"),
        (("validate", "d", "p", "l", "--explain"), road | {"l": "(go a b)()"},
         "F25 PlanShape plan 8\nl:1:9: this list is no step: a step is a name and its arguments, without lists\n(go a b)()\n        ^"),
        (("check-sas", "s", "c", "--explain"), {"s": ROAD_SAS, "c": cert},
         "F51 Expected cert 2\nc:2: another keyword, separator or number of words is required\npddl"),
    ):
        yield words, files, End(status=1, fault=f"optplan: {fault}\n".encode())


def last_lines(outcome):
    """Returns the last line of each output that is not empty, by the word that names it in a fault."""
    texts = {"output": outcome.out, "plan": outcome.files.get("plan", b""), "cert": outcome.files.get("cert", b"")}
    return {word: text.splitlines()[-1] for word, text in texts.items() if text}


def is_kept_besides(word, end, outcome):
    """Returns whether each output but this one ends as in an answer with this end, or none was written."""
    ended, expected = last_lines(outcome), end.last_lines()
    return not ended or all(ended.get(it) == line for it, line in expected.items() if it != word)


def is_right(kind, end, outcome):
    """Returns whether the run in which a call of this kind was refused ended as it should; `end` is that of the answer
    without a refusal."""
    if end.is_of(outcome):
        return True
    if kind == "growth":
        is_bare = dataclasses.replace(outcome, files={}) == OUT_OF_MEMORY and not any(outcome.files.values())
        return is_bare and set(outcome.files) <= set(end.files)
    if kind in ("open", "read") and CANNOT_READ.fullmatch(outcome.err):
        return (outcome.out, outcome.status, outcome.files) == (b"", 7, {})
    if end.fault:
        # The line is missing, and with it its explanation, or the explanation alone.
        line = end.fault.splitlines(keepends=True)[0]
        return kind == "write" and outcome in (Outcome(status=end.status), Outcome(err=line, status=end.status))
    failed = CANNOT_WRITE.fullmatch(outcome.err)
    return kind in ("open", "write") and outcome.status == 7 and bool(failed) and is_kept_besides(failed[1].decode(), end, outcome)


def main(words):
    if len(words) != 1 or not os.access(words[0], os.X_OK):
        print("usage: refusals.py OPTPLAN", file=sys.stderr)
        return 2
    os.environ["OPTPLAN"] = os.path.abspath(words[0])
    tried = wrong = 0
    for command, files, end in commands():
        for kind in KINDS:
            count = 0
            for number, outcome in refused_in_turn(kind, command, files):
                count += 1
                if not is_right(kind, end, outcome):
                    wrong += 1
                    print(f"{' '.join(command)}: {kind} {number}: {outcome}")
            tried += count
            print(f"{' '.join(command)}: {count} calls of {kind} refused", flush=True)
    print(f"{tried} runs were refused a call, {wrong} ended wrongly")
    return int(bool(wrong))


if __name__ == "__main__":
    sys.exit(main(sys.argv[1:]))
