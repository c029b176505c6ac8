"""Proves the crates that the program uses, without tests and edits, and builds it. `./optplan` calls this."""

import os
import shutil
import signal
import subprocess
import sys
import tempfile
import time

from gate import TOP, keep_crates, keep_program, run_toolchain
from repository import Repository


def say(text):
    print(f"optplan: {text}", file=sys.stderr, flush=True)


def take_tree(copy):
    """Copies the crates that the program uses from the work tree, without their `out/` and their edits, and returns the
    copy."""
    for name in ("crates.txt", "HANDLES"):
        shutil.copy(f"{TOP}/{name}", copy)
    tree = Repository(TOP)
    closure = tree.closure(["optplan"])
    for name in closure:
        shutil.copytree(tree.folder(name), f"{copy}/crates/{name}", ignore=shutil.ignore_patterns("out", "must-fail"))
    subprocess.run(["git", "init", "-q", copy], check=True)
    keep_crates(Repository(copy), closure)
    return Repository(copy)


def main():
    signal.signal(signal.SIGTERM, lambda *_: sys.exit(143))
    started, lines, begun = time.time(), [], []
    with tempfile.TemporaryDirectory(prefix="optplan-build-") as copy:
        crates = take_tree(copy).uses

        def begin(crate):
            begun.append(crate)
            say(f"proving {len(begun)} of {len(crates)}: {crate}")

        status, _ = run_toolchain(copy, lines.append, begin)
        if status:
            sys.stderr.writelines(lines[-40:])
            say("the program could not be proved and built")
            return 1
        keep_program(copy, started, "build")
    return 0


if __name__ == "__main__":
    sys.exit(main())
