#!/usr/bin/env python3
"""Copies the libraries that `rt ci` has stored on this machine of the very same files into the crates of the work tree, so
that `rt check` in a crate need not prove what lies below it. No verdict of the gate rests on it.

usage: .ci/take.py    prints how many libraries were taken, and the crates of which none is stored
"""

import os
import shutil
import sys

from prove import TOP, remembered
from toolchain import loaded


def is_taken(store, library, crate):
    """Takes the stored library of a crate, those below which are taken, and returns whether there is one."""
    if any(it.name not in store.rlibs for it in crate.below()):
        return False
    key, stamp = store.key(crate), f"{crate.folder}/out/rlib/stamp"
    if not os.path.isdir(store.place(crate, False, key)):
        return False
    if library.text_of(stamp) != crate.stamp() or not os.path.isfile(f"{crate.folder}/out/rlib/taken"):
        shutil.rmtree(f"{crate.folder}/out/rlib", ignore_errors=True)
        if not store.give(crate, False, key):
            return False
        for name, text in (("stamp", crate.stamp()), ("taken", "")):
            with open(f"{crate.folder}/out/rlib/{name}", "w", encoding="utf-8") as file:
                file.write(text)
    store.is_built(crate)
    return True


def main(words):
    if words:
        print(__doc__)
        return 0 if words == ["--help"] else 2
    os.chdir(TOP)
    command = loaded(os.path.realpath(shutil.which("rt")))
    library = command.rtlib
    library.Crate.stamp, library.Crate.below = remembered(library.Crate.stamp), remembered(library.Crate.below)
    command.Crate.allowed = command.handles_of(TOP)
    crates = [it for it in command.crates_of(TOP) if it.makes_rlib()]
    store = command.Kept(crates)
    lacking = [it.name for it in crates if not is_taken(store, library, it)]
    print(f"{len(crates) - len(lacking)} libraries are taken; not stored: {' '.join(lacking) or 'none'}")
    return 0


if __name__ == "__main__":
    sys.exit(main(sys.argv[1:]))
