"""The crates of a tree: what each one uses, its must-fail edits, and the state on which the answers of these edits
depend."""

import functools
import hashlib
import os
import re
import subprocess

# The folders that the prover reads.
PARTS = ("src", "specs", "proofs")
# The proof of one function: no other function's proof and no crate above can cite it.
PROOFS_OF_ONE_FUNCTION = ("Answers.antt", "Invariants.antt", "Proof.antt")
COMMENTS = {".rt": b"//", ".antt": b"--"}
# A line of the record: a crate, a state and a toolchain.
LINE_OF_RECORD = re.compile(r"(\w+) ([0-9a-f]+) (.+)\n?")


class Repository:
    """The crates that `crates.txt` lists at the top of a tree."""

    def __init__(self, top):
        self.top = top
        # The line of each crate, and the names of what it uses.
        self.lines, self.uses = {}, {}
        with open(f"{top}/crates.txt", encoding="utf-8") as file:
            for line in file:
                head, _, uses = line.partition("#")[0].partition(":")
                if head.split():
                    name = head.split()[0]
                    self.lines[name], self.uses[name] = line, uses.split()

    def folder(self, name):
        return f"{self.top}/crates/{name}"

    @functools.lru_cache(maxsize=None)
    def below(self, name):
        """Returns the crates of the tree that a crate uses, directly or not, each after those that it uses itself."""
        found = {}
        for used in self.uses[name]:
            if used in self.uses:
                found.update(dict.fromkeys([*self.below(used), used]))
        return tuple(found)

    def closure(self, names):
        """Returns these crates and all that they use, each after those that it uses itself."""
        found = {}
        for name in names:
            found.update(dict.fromkeys([*self.below(name), name]))
        return list(found)

    def edits(self, name):
        """Returns the paths of a crate's must-fail edits, in order."""
        folder = f"{self.folder(name)}/must-fail"
        names = sorted(os.listdir(folder)) if os.path.isdir(folder) else []
        return [f"{folder}/{it}" for it in names if it.endswith(".edit")]

    def size(self, names):
        """Returns the number of bytes that the prover reads of these crates, leaving out names of no crate."""
        return sum(os.path.getsize(f"{self.folder(it)}/{path}") for it in names if it in self.uses for path in self.files(it, False))

    def with_edits(self):
        return [it for it in self.uses if self.edits(it)]

    @functools.lru_cache(maxsize=None)
    def state(self, name):
        """Returns a hash over all sources on which the answers of a crate's edits depend: the crate, and what crates
        above can cite of those below it. Comments, blank lines and the proofs of single functions below do not
        count, nor does it by which crates those below are used."""
        total = hashlib.sha256()
        for it in sorted(self.below(name)):
            total.update(self.sum_of(it, True))
        total.update(self.sum_of(name, False))
        return total.hexdigest()[:32]

    @functools.lru_cache(maxsize=None)
    def sum_of(self, name, is_below):
        total = hashlib.sha256(name.encode())
        for path in sorted(self.files(name, is_below)):
            total.update(repr((path, text_of(f"{self.folder(name)}/{path}"))).encode())
        return total.digest()

    def files(self, name, is_below):
        """Yields the paths, relative to a crate, of the files that count in its state."""
        folder = self.folder(name)
        for part in PARTS if is_below else (*PARTS, "must-fail"):
            for at, _, names in os.walk(f"{folder}/{part}"):
                inside = os.path.relpath(at, folder)
                yield from (f"{inside}/{it}" for it in names if not (is_below and it in PROOFS_OF_ONE_FUNCTION))

    def unfit_edits(self):
        """Returns what is wrong with edits that cannot be applied: an `old:` text must occur exactly once in its
        file."""
        return [f"{name}/{os.path.basename(it)}: {why}"
                for name in self.uses for it in self.edits(name) if (why := self.misfit(name, it))]

    def misfit(self, name, edit):
        """Returns why an edit cannot be applied to its crate, or None."""
        path, texts, pairs = None, {}, 0
        with open(edit, encoding="utf-8") as file:
            lines = file.read().split("\n")
        for word, _, rest in (it.partition(": ") for it in lines):
            if word == "file":
                path = f"{self.folder(name)}/{rest.strip()}"
                if not os.path.isfile(path):
                    return f"there is no file {rest.strip()}"
                if path not in texts:
                    with open(path, encoding="utf-8") as file:
                        texts[path] = file.read()
            elif word == "old" and path:
                old = rest
                if texts[path].count(old) != 1:
                    return f"an 'old:' text occurs {texts[path].count(old)} times, and not once"
            elif word.rstrip(":") == "new" and path:
                texts[path], pairs = texts[path].replace(old, rest), pairs + 1
        return None if pairs else "it has no 'old:' and 'new:' pair"


def text_of(path):
    """Returns the text of a file, of sources without blank lines and lines that are comments. Code counts as the same
    wherever its lines are broken."""
    kind = os.path.splitext(path)[1]
    mark = COMMENTS.get(kind)
    with open(path, "rb") as file:
        text = file.read()
    if mark is None:
        return text
    lines = [it for it in text.split(b"\n") if it.strip() and not it.strip().startswith(mark)]
    if kind != ".rt" or any(it.count(b'"') % 2 for it in lines):
        # Proofs stay as they are, and so does code in which a text in quotes may have an end of line.
        return b"\n".join(lines)
    return b"".join(it.strip() + (b"\n" if mark in it else b" ") for it in lines)


@functools.lru_cache(maxsize=None)
def toolchain():
    """Returns the toolchain's identity: the line that `rt version` prints."""
    return subprocess.run(["rt", "version"], check=True, stdout=subprocess.PIPE, text=True).stdout.strip()


class Record:
    """The file that names the states of crates for which the prover refused every edit. A line has a crate's name, the
    state, and the toolchain's identity."""

    HEAD = ("# The crates whose must-fail edits were all refused: the crate, a sum over the sources on which that depends, and the toolchain.\n"
            "# Written by .ci/run, which drops the lines of sources that have changed since; after a landing also for the edits that its gate tried.\n")

    def __init__(self, path):
        self.path = path
        self.states = {}
        if os.path.isfile(path):
            with open(path, encoding="utf-8") as file:
                self.states = {(it[1], it[3]): it[2] for it in map(LINE_OF_RECORD.fullmatch, file) if it}

    def holds(self, repository, name):
        return self.states.get((name, toolchain())) == repository.state(name)

    def add(self, repository, names):
        """Adds crates to what the file has by then, and writes it."""
        self.states = Record(self.path).states | {(it, toolchain()): repository.state(it) for it in names}
        self.write()

    def keep_current(self, repository):
        """Drops the lines of crates that have no edits or whose sources have changed, of any toolchain."""
        names = repository.with_edits()
        self.states = {it: state for it, state in Record(self.path).states.items() if it[0] in names and state == repository.state(it[0])}
        self.write()

    def write(self):
        with open(f"{self.path}.new", "w", encoding="utf-8") as file:
            file.write(self.HEAD + "".join(f"{name} {state} {kit}\n" for (name, kit), state in sorted(self.states.items())))
        os.replace(f"{self.path}.new", self.path)
