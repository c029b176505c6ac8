#!/usr/bin/env python3
"""Proves crates side by side over what earlier runs stored in their `out/`, each as soon as the crates that it uses are
proved: for work on crates whose lower layers are not yet built here. The verdict is that of `.ci/run`.

usage: .ci/prove.py [--jobs N] [NAME..]    these crates and all that they use, or every crate; crates that no crate uses
                                           are checked with their tests. The toolchain's report of a crate is
                                           crates/NAME/out/proved.txt
"""

import functools
import importlib.machinery
import importlib.util
import os
import shutil
import sys
import threading
import time

TOP = os.path.dirname(os.path.dirname(os.path.abspath(__file__)))


def toolchain():
    """Returns the toolchain's library, which is in the folder of the command `rt`. It has no public interface for
    this."""
    sys.dont_write_bytecode = True
    path = os.path.join(os.path.dirname(os.path.realpath(shutil.which("rt"))), "rtlib.py")
    loader = importlib.machinery.SourceFileLoader("rtlib", path)
    made = importlib.util.module_from_spec(importlib.util.spec_from_loader("rtlib", loader))
    sys.modules["rtlib"] = made
    loader.exec_module(made)
    return made


def remembered(method):
    """Returns a method of crates that computes its answer once for each folder; the answer does not change while
    nothing is edited."""
    answers = {}

    @functools.wraps(method)
    def answer(crate):
        if crate.folder not in answers:
            answers[crate.folder] = method(crate)
        return answers[crate.folder]

    return answer


class Side:
    """Crates that several threads prove; those with the longest chain of crates above them come first."""

    def __init__(self, crates, used, processors):
        self.crates, self.used, self.processors = crates, used, processors
        self.started, self.proved, self.failed = set(), set(), set()
        self.turn = threading.Condition()

    @functools.lru_cache(maxsize=None)
    def height(self, crate):
        """Returns the number of crates on the longest chain from this one upwards."""
        return 1 + max((self.height(it) for it in self.crates if crate in it.deps), default=0)

    def next(self):
        """Returns the crate to prove next, or None if all are started. Waits until one is ready."""
        with self.turn:
            while True:
                for it in self.crates:
                    if it not in self.started and self.failed.intersection(it.below()):
                        self.started.add(it)
                        self.failed.add(it)
                rest = [it for it in self.crates if it not in self.started]
                ready = [it for it in rest if self.proved.issuperset(it.deps)]
                if ready:
                    crate = max(ready, key=self.height)
                    self.started.add(crate)
                    return crate
                if not rest:
                    return None
                self.turn.wait()

    def prove(self, crate):
        """Proves a crate, and returns whether that succeeded: it is built for the crates that use it, or checked with
        its tests if there are none. If few others run, it gets their processors too."""
        with self.turn:
            beside = len(self.started) - len(self.proved) - len(self.failed)
        jobs = ["--jobs", str(max(1, self.processors // max(1, beside)))]
        os.makedirs(f"{crate.folder}/out", exist_ok=True)
        with open(f"{crate.folder}/out/proved.txt", "w", encoding="utf-8") as crate.out:
            if crate in self.used:
                return crate.is_built() or not crate.build_rlib(jobs, anew=False)
            return not crate.check(["--test"] * crate.has_tests() + jobs)

    def work(self):
        while crate := self.next():
            started = time.time()
            is_proved = False
            try:
                is_proved = self.prove(crate)
            finally:
                with self.turn:
                    (self.proved if is_proved else self.failed).add(crate)
                    self.turn.notify_all()
            print(f"{crate.name}: {'proved' if is_proved else 'NOT PROVED'}, {time.time() - started:.0f} s, "
                  f"{len(self.proved)} of {len(self.crates)}", flush=True)


def main(words):
    jobs = len(os.sched_getaffinity(0))
    if words[:1] == ["--jobs"]:
        jobs, words = int(words[1]), words[2:]
    if any(it.startswith("-") for it in words):
        print(__doc__)
        return 0 if words == ["--help"] else 2
    os.chdir(TOP)
    library = toolchain()
    library.Crate.stamp, library.Crate.below = remembered(library.Crate.stamp), remembered(library.Crate.below)
    library.guarded()
    crates = library.crates_below(TOP)
    used = {it for crate in crates for it in crate.deps}
    if words:
        wanted = {it for crate in crates if crate.name in words for it in [*crate.below(), crate]}
        crates = [it for it in crates if it in wanted]
    side = Side(crates, used, jobs)
    threads = [threading.Thread(target=side.work) for _ in range(jobs)]
    for it in threads:
        it.start()
    for it in threads:
        it.join()
    print(f"not proved: {' '.join(sorted(it.name for it in side.failed)) or 'none'}")
    return int(bool(side.failed))


if __name__ == "__main__":
    sys.exit(main(sys.argv[1:]))
