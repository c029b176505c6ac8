"""Runs the toolchain's own gate, `rt ci`, in the current folder, and computes for each crate once which crates lie below
it, and the sum over its sources.

The toolchain computes both from those of the crates that a crate uses, each anew for each use: some two million lists
and sums for a hundred crates in layers, more than an hour of one processor in each run. Sources do not change while the
gate runs, so neither do these. What is proved, and how it is judged, stays the toolchain's. A toolchain whose insides
are others is run as it is.
"""

import functools
import importlib.machinery
import importlib.util
import inspect
import os
import shutil
import sys

from prove import remembered


def loaded(path):
    """Returns the command `rt` as a module. It has no public interface for this."""
    sys.dont_write_bytecode = True
    loader = importlib.machinery.SourceFileLoader("rt", path)
    made = importlib.util.module_from_spec(importlib.util.spec_from_loader("rt", loader))
    loader.exec_module(made)
    return made


def with_remembered_sums():
    """Returns the toolchain's gate, or None if it has no such insides."""
    try:
        command = loaded(os.path.realpath(shutil.which("rt")))
        crate = command.rtlib.Crate
        crate.stamp, crate.below = remembered(crate.stamp), remembered(crate.below)
        # If `ci` takes arguments, `main` is called with the words of the command.
        return functools.partial(command.main, ["ci"]) if inspect.signature(command.ci).parameters else command.ci
    except (ImportError, SyntaxError, ValueError, TypeError, AttributeError):
        return None


if __name__ == "__main__":
    run = with_remembered_sums()
    if not run:
        print("gate: the sums of sources are not remembered with this toolchain", flush=True)
        os.execvp("rt", ["rt", "ci"])
    sys.exit(run())
