#!/usr/bin/env python3
"""Compares ARCHITECTURE.md with the layers of `crates.txt`: its picture, and the rows of its table.

usage: .ci/layers.py            says what differs; the status is then 1
       .ci/layers.py --write    writes the picture anew
"""

import os
import re
import sys

from repository import Repository

TOP = os.path.dirname(os.path.dirname(os.path.abspath(__file__)))
PAGE = os.path.join(TOP, "ARCHITECTURE.md")
HEAD = re.compile(r"# (\w+): (.+)\n")
PICTURE = re.compile(r"```mermaid\n(.*?)```\n", re.DOTALL)
ROW = re.compile(r"\| `?(\w+)`? \| ((?:`\w+`(?:, )?)+) \|")
# Layers that use nearly all others and would hide the rest of the picture.
LEFT_OUT = ("test", "bench")


def layers_of(path):
    """The layers of a `crates.txt` in its order: their names, with what they are and their crates."""
    layers = {}
    with open(path, encoding="utf-8") as file:
        for line in file:
            if found := HEAD.fullmatch(line):
                name = found[1]
                layers[name] = (found[2], [])
            elif line.strip() and not line.startswith("#"):
                layers[name][1].append(re.split("[ :]", line)[0])
    return layers


def uses_of(layers, repository):
    """The layers that each layer uses."""
    layer_of = {crate: name for name, (_, crates) in layers.items() for crate in crates}
    return {name: {layer_of[used] for crate in crates for used in repository.uses[crate] if used in layer_of} - {name}
            for name, (_, crates) in layers.items()}


def all_below(uses, name):
    return set(uses[name]).union(*(all_below(uses, it) for it in uses[name]))


def picture(layers, uses):
    """The layers with an arrow to each layer that they use, but for those that they use through another one."""
    lines = ["graph TD"]
    for name, (what, _) in layers.items():
        if name not in LEFT_OUT:
            lines.append(f'    {name}["{name}: {what}"]')
    for name in layers:
        if name not in LEFT_OUT:
            below = set().union(*(all_below(uses, it) for it in uses[name]))
            lines += [f"    {name} --> {it}" for it in layers if it in uses[name] - below]
    return "\n".join(lines) + "\n"


def differences(layers, uses, page):
    order = list(layers)
    for name in order:
        for used in sorted(uses[name]):
            if order.index(used) > order.index(name):
                yield f"crates.txt: the layer {name} is before {used}, which it uses"
    found = PICTURE.search(page)
    if not found or found[1] != picture(layers, uses):
        yield "ARCHITECTURE.md: the picture is not that of crates.txt: call .ci/layers.py --write"
    rows = {it[1]: re.findall(r"\w+", it[2]) for it in ROW.finditer(page)}
    for name, (_, crates) in layers.items():
        if rows.get(name) != crates:
            yield f"ARCHITECTURE.md: the row of the layer {name} does not list its crates in the order of crates.txt"
    if list(rows) != order:
        yield "ARCHITECTURE.md: the table has not the rows of crates.txt in its order"


def main(words):
    if words not in ([], ["--write"]):
        print(__doc__)
        return 0 if words == ["--help"] else 2
    layers = layers_of(os.path.join(TOP, "crates.txt"))
    uses = uses_of(layers, Repository(TOP))
    with open(PAGE, encoding="utf-8") as file:
        page = file.read()
    if words:
        with open(PAGE, "w", encoding="utf-8") as file:
            file.write(PICTURE.sub(lambda _: f"```mermaid\n{picture(layers, uses)}```\n", page))
        return 0
    found = list(differences(layers, uses, page))
    for it in found:
        print(f"layers: {it}")
    return int(bool(found))


if __name__ == "__main__":
    sys.exit(main(sys.argv[1:]))
