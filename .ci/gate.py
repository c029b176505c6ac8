"""The merge gate. On the last commit it proves every crate and its tests from nothing, runs every program, runs the
tests of `tests/` on both builds of optplan, and tries must-fail edits.

A toolchain that stores proofs may reuse those of the very same files; one that stores none proves everything in each
run. The answer of an edit changes only if its crate, something below it, or the toolchain changes. So `.ci/refused.txt`
records the state of each crate for which all its edits were refused, and the gate tries those of the crates whose state
is not recorded.
"""

import contextlib
import os
import re
import shutil
import signal
import subprocess
import sys
import tempfile
import time

import release
from repository import Record, Repository
from seconds import ProverSeconds, free_bytes

TOP = os.path.dirname(os.path.dirname(os.path.abspath(__file__)))
RECORD = f"{TOP}/.ci/refused.txt"
# The folder of a tree into which the program is built.
OUTPUT = "crates/optplan/out"
USAGE = """usage: .ci/run                 the gate: proofs, tests, programs, and the edits of crates whose state is not recorded
       .ci/run --all           the gate with every edit, recorded or not
       .ci/run --without-edits the gate without any edit: what it builds is the program, but nothing may land on it alone
       .ci/run --edits [NAME..]  outside the gate: the edits that are not recorded, of these crates or of all
       .ci/run --release       writes release/ from what the gate built from the last commit's sources, and refuses if it has built nothing
Each takes the last commit, and records in .ci/refused.txt the crates whose edits were all refused. --edits first proves what these crates
use, records some crates at a time, and may be ended at any time: the toolchain stores what it has proved and tried."""
# The seconds after which the gate should have ended; and processor seconds, measured on four busy processors: of all
# proofs, of all tests and programs, and of one edit on average.
SECONDS_OF_A_RUN = 9900
SECONDS_OF_PROOFS = 15000
SECONDS_OF_TESTS = 4000
SECONDS_OF_AN_EDIT = 46
GIB = 2**30
# The greatest disk space of a run.
BYTES_OF_A_RUN = 16 * GIB
# The number of edits that --edits tries before it records what was refused.
EDITS_AT_ONCE = 60
# The builds of the program by two compilers, on which the tests of `tests/` are run.
BUILDS = ("optplan", "optplan.by-rattle")
REFUSED = re.compile(r"rt: must-fail (\w+)/(\S+): refused, as it must be(.*)")
COUNTS = re.compile(r"(\d+) passed, (\d+) failed.*")
BY_NAME_ONLY = "only because a proof file names"
LEFT_OUT = ", left out: "


def say(text):
    print(f"gate: {text}", flush=True)


def take_room():
    """Moves temporary folders, those of the toolchain too, into `.git` if only that has enough disk space for a run."""
    beside = f"{TOP}/.git"
    if free_bytes() < BYTES_OF_A_RUN and os.path.isdir(beside) and shutil.disk_usage(beside).free > 2 * free_bytes():
        os.environ["TMPDIR"] = tempfile.tempdir = beside


@contextlib.contextmanager
def last_commit():
    """Yields a copy of the last commit without `drafts/`, which has unfinished work."""
    with tempfile.TemporaryDirectory(prefix="optplan-gate-") as copy:
        archive = subprocess.Popen(["git", "-C", TOP, "archive", "HEAD"], stdout=subprocess.PIPE)
        subprocess.run(["tar", "-x", "-C", copy], stdin=archive.stdout, check=True)
        if archive.wait():
            raise SystemExit("gate: there is no commit to take")
        shutil.rmtree(f"{copy}/drafts", ignore_errors=True)
        subprocess.run(["git", "init", "-q", copy], check=True)
        yield copy


def keep_crates(repository, names):
    """Cuts the copy's `crates.txt`, and its folders of crates, to these."""
    with open(f"{repository.top}/crates.txt", "w", encoding="utf-8") as file:
        file.writelines(line for name, line in repository.lines.items() if name in names)
    for name in repository.uses:
        if name not in names:
            shutil.rmtree(repository.folder(name), ignore_errors=True)


def run_toolchain(copy, tell, on_crate=None):
    """Runs the toolchain's gate in a copy, and passes on each line that it prints. Returns its status and the seconds
    of its provers."""
    gate = subprocess.Popen([sys.executable, f"{TOP}/.ci/toolchain.py"], cwd=copy, stdin=subprocess.DEVNULL,
                            stdout=subprocess.PIPE, stderr=subprocess.STDOUT, text=True, errors="replace",
                            start_new_session=True)
    seconds = ProverSeconds(gate.pid, on_crate)
    try:
        for line in gate.stdout:
            tell(line)
        return gate.wait(), seconds
    finally:
        # The toolchain ends the processes that it has started when it is ended itself.
        gate.kill()
        gate.wait()
        seconds.end()


def missing_edits(repository, record, names, tries_all):
    """Returns those of these crates whose edits are to be tried."""
    return [it for it in names if tries_all or not record.holds(repository, it)]


def share_to_prove():
    """Returns the share of the crates, by bytes, of which the toolchain has stored no proof on this machine."""
    with last_commit() as beside:
        run = subprocess.run([sys.executable, f"{beside}/.ci/take.py"], stdout=subprocess.PIPE, text=True, check=False)
        _, found, names = run.stdout.partition("not stored: ")
        if run.returncode or not found:
            return 1.0
        repository = Repository(beside)
        return repository.size(names.split()) / repository.size(repository.uses)


def most_edits(processors, share):
    """Returns the number of edits for which a run has time, besides the tests and this share of the proofs."""
    beside = SECONDS_OF_TESTS + SECONDS_OF_PROOFS * share
    return int(max(0, SECONDS_OF_A_RUN * processors - beside) // SECONDS_OF_AN_EDIT)


def count_of_edits(repository, names):
    return sum(len(repository.edits(it)) for it in names)


def keep_edits(repository, tried):
    """Removes the edits of all crates but these from a copy."""
    for name in repository.with_edits():
        if name not in tried:
            shutil.rmtree(f"{repository.folder(name)}/must-fail")


def try_crates(repository, record, tried):
    """Runs the toolchain's gate over a repository with only the edits of `tried`, and records the crates whose edits
    were all refused. Returns the status, and the numbers of passed and failed tests."""
    keep_edits(repository, tried)
    lines, started, free = [], time.time(), free_bytes()

    def tell(line):
        lines.append(line)
        if not COUNTS.fullmatch(line.strip()):
            sys.stdout.write(line)

    status, seconds = run_toolchain(repository.top, tell)
    refused, weak = sorted_edits(repository.top, lines)
    print("\n".join(seconds.table()))
    say(f"{(time.time() - started) / 60:.1f} minutes on {len(os.sched_getaffinity(0))} processors; of {free / GIB:.1f} GiB of free disk space "
        f"at least {seconds.least_free / GIB:.1f} were left")
    tell_weak(weak)
    record.add(repository, [it for it in tried if refused.issuperset(repository.edits(it))])
    return status or int(bool(weak)), counts_of(lines)


def counts_of(lines):
    """Returns the numbers of passed and failed tests that the last of these lines reports: one failed if it reports
    none."""
    found = COUNTS.fullmatch(lines[-1].strip()) if lines else None
    return (int(found[1]), int(found[2])) if found else (0, 1)


def run_tests(copy):
    """Runs the tests of `tests/` on each build of the program, under the program's name. Returns the numbers of passed
    and failed tests."""
    passed = failed = 0
    for it in BUILDS:
        started = time.time()
        with tempfile.TemporaryDirectory(prefix="optplan-build-") as folder:
            program = shutil.copy(f"{copy}/{OUTPUT}/{it}", f"{folder}/optplan")
            run = subprocess.run([f"{copy}/tests/run.py", program], stdin=subprocess.DEVNULL, stdout=subprocess.PIPE,
                                 stderr=subprocess.STDOUT, text=True, errors="replace", check=False)
        well, bad = counts_of(run.stdout.splitlines())
        # What the toolchain's gate has built is all that the tests need, so none may be left out.
        bad += LEFT_OUT in run.stdout
        print(run.stdout, end="")
        say(f"tests on {it}: {well} passed, {bad} failed, in {time.time() - started:.0f} s")
        passed, failed = passed + well, failed + max(bad, int(run.returncode != 0))
    return passed, failed


def pages_are_right(copy):
    """Returns whether pages and comments avoid the words of `language.txt`, and ARCHITECTURE.md has the layers of
    `crates.txt`. Prints what is wrong."""
    scripts = ("language.py", "layers.py")
    return not any([subprocess.run([sys.executable, f"{copy}/.ci/{it}"], check=False).returncode for it in scripts])


def edits_to_try(repository, record, which):
    """Returns the crates whose edits a run of the gate tries, and whether there is time for these. `which` is "missing",
    "all" or "none"."""
    names = repository.with_edits()
    record.keep_current(repository)
    if which == "none":
        say("no must-fail edit is tried, so this run is not the merge gate")
        return [], True
    tried = missing_edits(repository, record, names, which == "all")
    edits, missing = count_of_edits(repository, names), count_of_edits(repository, tried)
    say(f"of {edits} must-fail edits {edits - missing} are recorded as refused, and {missing}, of {len(tried)} crates, are tried now")
    most = most_edits(len(os.sched_getaffinity(0)), share_to_prove())
    if missing > most and which != "all":
        say(f"there is time for {most} at most: first call .ci/run --edits, which records what is refused")
        return tried, False
    return tried, True


def gate(which):
    record, started = Record(RECORD), time.time()
    take_room()
    if not shutil.which("cc"):
        say("there is no C compiler (cc), so some tests would be skipped")
        print("0 passed, 1 failed")
        return 1
    with last_commit() as copy:
        repository = Repository(copy)
        if not pages_are_right(copy):
            print("0 passed, 1 failed")
            return 1
        unfit = repository.unfit_edits()
        for it in unfit:
            say(f"must-fail {it}")
        tried, has_time = edits_to_try(repository, record, which)
        if unfit or not has_time:
            print("0 passed, 1 failed")
            return 1
        status, (passed, failed) = try_crates(repository, record, tried)
        if not status:
            well, bad = run_tests(copy)
            status, passed, failed = int(bad > 0), passed + well, failed + bad
        if not status:
            is_same, what = release.difference(copy, release.contents(f"{copy}/{OUTPUT}/optplan"))
            say(what)
            passed, failed, status = passed + is_same, failed + (not is_same), int(not is_same)
        if not status and is_tree_committed():
            try:
                keep_program(copy, started, "gate")
            except OSError as error:
                say(f"the program is not stored for ./optplan: {error}")
        print(f"{passed} passed, {max(failed, int(status != 0))} failed", flush=True)
        return status


def edits_alone(names):
    """Tries the edits that are not recorded, of these crates of the last commit or of all, and records some crates at a
    time."""
    record, status = Record(RECORD), 0
    take_room()
    with last_commit() as copy:
        whole = Repository(copy)
        unknown = [it for it in names if it not in whole.uses]
        if unknown:
            raise SystemExit(f"gate: there is no crate {unknown[0]}")
        tried = missing_edits(whole, record, names or whole.with_edits(), False)
        say(f"{count_of_edits(whole, tried)} edits, of {len(tried)} crates, are not recorded")
        for group in in_groups(whole, tried):
            with last_commit() as room:
                cut = Repository(room)
                keep_crates(cut, cut.closure(group))
                status = try_crates(Repository(room), record, group)[0] or status
        missing = missing_edits(whole, record, tried, False)
    say(f"not all refused: {' '.join(missing) or 'none'}")
    return status or int(bool(missing))


def in_groups(repository, names):
    """Returns these crates in groups of about EDITS_AT_ONCE edits each; crates that others use come first."""
    groups, count = [[]], 0
    for name in sorted(names, key=lambda it: len(repository.below(it))):
        if count >= EDITS_AT_ONCE:
            groups, count = [*groups, []], 0
        groups[-1].append(name)
        count += len(repository.edits(name))
    return [it for it in groups if it]


def sorted_edits(top, lines):
    """Returns the paths of the edits that these lines of the toolchain report as refused, and of those refused only
    because of a name in a proof."""
    refused, weak = set(), []
    for line in lines:
        found = REFUSED.match(line)
        if found:
            edit = f"{top}/crates/{found[1]}/must-fail/{found[2]}"
            weak.append(edit) if BY_NAME_ONLY in found[3] else refused.add(edit)
    return refused, weak


def tell_weak(weak):
    for it in weak:
        say(f"{os.path.basename(it)} is refused only because of a name in a proof: change a value instead of a name")


def is_tree_committed():
    """Returns whether the program's crates in the work tree are those of the last commit."""
    changed = subprocess.run(["git", "-C", TOP, "status", "--porcelain", "crates", "crates.txt", "HANDLES"], stdout=subprocess.PIPE, check=True)
    return not changed.stdout


def keep_program(copy, started, maker):
    """Puts the program that was built in a copy into the work tree, all or nothing, with the file `built`, which says
    what it was built from and by whom. That file's time is the time at which the copy was made."""
    output, program = f"{TOP}/{OUTPUT}", release.contents(f"{copy}/{OUTPUT}/optplan")
    os.makedirs(output, exist_ok=True)
    shutil.copy(f"{copy}/{OUTPUT}/optplan", f"{output}/optplan.new")
    with open(f"{output}/built.new", "w", encoding="utf-8") as file:
        file.write(f"{release.description(copy, program)}by {maker}\n")
    os.utime(f"{output}/built.new", (started, started))
    for it in ("optplan", "built"):
        os.replace(f"{output}/{it}.new", f"{output}/{it}")


def write_release():
    """Writes release/ from the program in `out/`, if the gate built it from the last commit's sources with this
    toolchain."""
    try:
        program, built = release.contents(f"{TOP}/{OUTPUT}/optplan"), release.contents(f"{TOP}/{OUTPUT}/built").decode()
    except OSError:
        program = built = None
    with last_commit() as copy:
        text = program and release.description(copy, program)
    if not text or built != f"{text}by gate\n":
        say("the gate has not built the program of the last commit here: call .ci/run first")
        return 1
    release.write(TOP, program, text)
    say("release/ is written: commit it alone")
    return 0


def main(words):
    # Temporary folders are also removed if the gate is ended from outside.
    signal.signal(signal.SIGTERM, lambda *_: sys.exit(143))
    runs = {(): "missing", ("--all",): "all", ("--without-edits",): "none"}
    if tuple(words) in runs:
        return gate(runs[tuple(words)])
    if words == ["--release"]:
        return write_release()
    if words[0] == "--edits" and not any(it.startswith("-") for it in words[1:]):
        return edits_alone(words[1:])
    print(USAGE, file=sys.stdout if words == ["--help"] else sys.stderr)
    return 0 if words == ["--help"] else 2


if __name__ == "__main__":
    sys.exit(main(sys.argv[1:]))
