"""Resources of the prover's processes: processor seconds by crate and by what they prove, read from /proc, and disk
space."""

import collections
import os
import shutil
import tempfile
import threading

INTERVAL = 0.5
KINDS = ("proof", "tests", "edits")


def free_bytes():
    """Returns the free space of the disk of temporary folders."""
    return shutil.disk_usage(tempfile.gettempdir()).free


class ProverSeconds(threading.Thread):
    """Watches the provers of a session of processes, until `end` is called.

    `on_crate` is called with the name of each crate when its proof is first seen. Without /proc, nothing is seen.
    """

    def __init__(self, session, on_crate=None):
        super().__init__(daemon=True)
        self.session = session
        self.on_crate = on_crate
        self.seen = {}
        self.crates = set()
        self.least_free = free_bytes()
        self.ended = threading.Event()
        self.start()

    def run(self):
        while not self.ended.wait(INTERVAL):
            self.least_free = min(self.least_free, free_bytes())
            for process in filter(str.isdigit, os.listdir("/proc") if os.path.isdir("/proc") else []):
                try:
                    self.look(process)
                except (OSError, ValueError, IndexError):
                    # The process has ended.
                    pass

    def look(self, process):
        with open(f"/proc/{process}/stat", encoding="ascii", errors="replace") as file:
            stat = file.read()
        name, fields = stat[stat.index("(") + 1 : stat.rindex(")")], stat[stat.rindex(")") + 2 :].split()
        # fields 6, 14, 15 and 22 of proc(5): the session, user time, system time, start
        if not name.startswith("rattle") or int(fields[3]) != self.session:
            return
        key = process, fields[19]
        if key not in self.seen:
            self.seen[key] = [*self.task_of(process), 0.0]
        self.seen[key][2] = (int(fields[11]) + int(fields[12])) / os.sysconf("SC_CLK_TCK")

    def task_of(self, process):
        """Returns the crate on which a process works, and whether on its proof, its tests or an edit."""
        with open(f"/proc/{process}/cmdline", "rb") as file:
            words = file.read().decode(errors="replace").split("\0")
        crate = words[words.index("--crate-name") + 1]
        is_edit = "rt-edit-" in os.readlink(f"/proc/{process}/cwd")
        kind = "edits" if is_edit else "tests" if "--test" in words else "proof"
        if kind == "proof" and crate not in self.crates:
            self.crates.add(crate)
            if self.on_crate:
                self.on_crate(crate)
        return crate, kind

    def end(self):
        self.ended.set()
        self.join()

    def table(self):
        """Returns the lines of a table: the seconds of each crate's proof, tests and edits, the longest first, and
        their sums."""
        sums = collections.defaultdict(collections.Counter)
        for crate, kind, seconds in self.seen.values():
            sums[crate][kind] += seconds
        rows = sorted(sums.items(), key=lambda it: -sum(it[1].values()))
        total = sum((it[1] for it in rows), collections.Counter())
        lines = ["processor seconds      proof    tests    edits"]
        lines += [f"{name:20}" + "".join(f"{row[it]:9.0f}" for it in KINDS) for name, row in [*rows, ("all", total)]]
        return lines
