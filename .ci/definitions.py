#!/usr/bin/env python3
"""Lists the files of definitions on which statements depend: what you must read to trust them.

usage: .ci/definitions.py [CRATE/FILE..]    the files in the `specs/` of crates from which to start, as `pddl/Texts`;
                                            without any, those of the headline: what two texts spell, valid plans and
                                            their costs, lower bounds, and a plan's text. The last line is the number of
                                            lines and of files
"""

import os
import re
import sys

CRATES = os.path.join(os.path.dirname(os.path.dirname(os.path.abspath(__file__))), "crates")
HEADLINE = ("pddl/Texts", "pddl_task/Plans", "translate_theory/Bounds", "optplan_pddl/Plans", "validate/Written")
# A name that a file uses: a crate, a file of its definitions, and what follows.
USE = re.compile(r"(?:pub )?use Rattle\.(\w+)\.specs\.(\w+)")


def path_of(name):
    crate, file = name.split("/")
    return os.path.join(CRATES, crate, "specs", f"{file}.antt")


def used_by(name):
    """Returns the files of the repository's definitions that a file uses."""
    with open(path_of(name), encoding="utf-8") as file:
        found = (USE.match(it) for it in file)
        return {f"{it[1]}/{it[2]}" for it in found if it and os.path.isfile(path_of(f"{it[1]}/{it[2]}"))}


def all_below(names):
    """Returns these files and all that they use, directly or not."""
    found, rest = set(), list(names)
    while rest:
        name = rest.pop()
        if name not in found:
            found.add(name)
            rest.extend(used_by(name))
    return sorted(found)


def main(words):
    unknown = [it for it in words if it.count("/") != 1 or not os.path.isfile(path_of(it))]
    if unknown:
        print(__doc__ if words == ["--help"] else f"definitions: there is no file {unknown[0]}", file=sys.stderr)
        return 0 if words == ["--help"] else 2
    lines = 0
    names = all_below(words or HEADLINE)
    for name in names:
        with open(path_of(name), encoding="utf-8") as file:
            count = sum(1 for _ in file)
        lines += count
        print(f"{count:5} crates/{name.replace('/', '/specs/')}.antt")
    print(f"{lines:5} lines in {len(names)} files")
    return 0


if __name__ == "__main__":
    sys.exit(main(sys.argv[1:]))
