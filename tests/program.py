"""Runs the program for the tests: over files in a folder of its own, with what it prints, reports and writes."""

import dataclasses
import os
import resource
import subprocess
import tempfile
import unittest

# The seconds after which a run is ended and fails.
SECONDS_OF_A_RUN = 240
EXAMPLES = os.path.join(os.path.dirname(os.path.dirname(os.path.abspath(__file__))), "examples")


@dataclasses.dataclass(frozen=True)
class Outcome:
    """What a run wrote to standard output and to standard error, its exit status, and the files that it wrote."""

    out: bytes = b""
    err: bytes = b""
    status: int = 0
    files: dict = dataclasses.field(default_factory=dict)


def as_bytes(text):
    return text.encode() if isinstance(text, str) else text


def limiting(memory, processors):
    """Returns what a process does before it becomes the program: it takes at most `memory` bytes of address space, and only
    the first `processors` of the processors that it may use, if these are given."""

    def limit():
        if memory:
            resource.setrlimit(resource.RLIMIT_AS, (memory, memory))
        if processors:
            os.sched_setaffinity(0, sorted(os.sched_getaffinity(0))[:processors])

    return limit


def run(*words, files=None, memory=None, processors=None, environment=None, descriptors=(), full=()):
    """Returns the outcome of the program with these arguments, in a folder with these files: texts or bytes by their
    names. Its address space has at most `memory` bytes and it uses at most `processors` processors, if given.
    `environment` is added to the environment's variables, and these descriptors are inherited. `full` names the streams,
    of `stdout` and `stderr`, to which nothing can be written."""
    given = {name: as_bytes(text) for name, text in (files or {}).items()}
    with tempfile.TemporaryDirectory(prefix="optplan-test-") as folder, open("/dev/full", "wb") as device:
        for name, text in given.items():
            with open(os.path.join(folder, name), "wb") as file:
                file.write(text)
        streams = {name: device if name in full else subprocess.PIPE for name in ("stdout", "stderr")}
        ended = subprocess.run([os.environ["OPTPLAN"], *words], cwd=folder, stdin=subprocess.DEVNULL, timeout=SECONDS_OF_A_RUN, check=False,
                               preexec_fn=limiting(memory, processors), env=os.environ | (environment or {}), pass_fds=descriptors, **streams)
        return Outcome(ended.stdout or b"", ended.stderr or b"", ended.returncode, written(folder, given))


def written(folder, given):
    """Returns the files of a folder that are new, or whose bytes differ from those given."""
    found = {}
    for name in os.listdir(folder):
        with open(os.path.join(folder, name), "rb") as file:
            text = file.read()
        if given.get(name) != text:
            found[name] = text
    return found


def example(task, name):
    """Returns the text of a file of an example task."""
    with open(os.path.join(EXAMPLES, task, name), encoding="ascii") as file:
        return file.read()


def validated(domain, problem, plan=""):
    """Returns the outcome of a plan's validation over these texts."""
    return run("validate", "d", "p", "l", files={"d": domain, "p": problem, "l": plan})


def checked(domain, problem, cert):
    """Returns the outcome of a certificate's check for a planning task over these texts."""
    return run("check", "d", "p", "c", files={"d": domain, "p": problem, "c": cert})


def checked_sas(sas, cert):
    """Returns the outcome of a certificate's check for a finite-domain task over these texts."""
    return run("check-sas", "s", "c", files={"s": sas, "c": cert})


def translated(domain, problem):
    """Returns the outcome of a planning task's translation."""
    return run("translate", "d", "p", files={"d": domain, "p": problem})


def wanted(answer):
    """Returns the outcome that is expected for an answer: a verdict's line on standard output or, if the answer starts
    with `F`, a fault's line on standard error, after the program's name, and nothing else. The status is 0 for a valid
    plan and an accepted certificate, 3 for others, and 1 for a fault."""
    line = as_bytes(answer) + b"\n"
    if line.startswith(b"F"):
        return Outcome(err=b"optplan: " + line, status=1)
    return Outcome(out=line, status=0 if line.startswith((b"valid ", b"accepted ")) else 3)


def unread(file):
    """Returns the outcome if this file cannot be read: `domain`, `problem`, `plan`, `sas` or `cert`."""
    return Outcome(err=f"optplan: F70 CannotRead {file}\n".encode(), status=7)


def unwritten(file):
    """Returns the outcome if this file cannot be written: `plan`, `cert` or `output`."""
    return Outcome(err=f"optplan: F71 CannotWrite {file}\n".encode(), status=7)


class ProgramTest(unittest.TestCase):
    """Tests that run the program. A row with another outcome than expected fails alone; the rows after it are run
    too."""

    maxDiff = 4000

    def is_answered(self, outcome, answer, **row):
        """Fails, and names the row, unless the outcome is that of this answer."""
        with self.subTest(**row):
            self.assertEqual(outcome, wanted(answer))

    def domains_are_answered(self, rows):
        """Fails for each row (domain, answer) with another answer, for a problem without a goal and an empty plan."""
        for domain, answer in rows:
            self.is_answered(validated(domain, "(define (problem p) (:goal ()))"), answer, domain=domain)

    def problems_are_answered(self, rows):
        """Fails for each row (domain, problem, answer) with another answer, for an empty plan."""
        for domain, problem, answer in rows:
            self.is_answered(validated(domain, problem), answer, domain=domain, problem=problem)

    def plans_are_answered(self, domain, rows):
        """Fails for each row (problem, plan, answer) with another answer in one domain."""
        for problem, plan, answer in rows:
            self.is_answered(validated(domain, problem, plan), answer, problem=problem, plan=plan)
