#!/usr/bin/env python3
"""Finds words in comments, strings and pages that planning people and Rust programmers would have to decode.

usage: .ci/language.py [PATH..]    reads these files of the tree, or all of them. `language.txt`, beside this file, lists the words
                                   with what to write in their place, and the exceptions with their reasons. The last line is
                                   the number of words found
"""

import fnmatch
import glob
import io
import os
import re
import sys
import tokenize

TOP = os.path.dirname(os.path.dirname(os.path.abspath(__file__)))
LIST = os.path.join(os.path.dirname(os.path.abspath(__file__)), "language.txt")
PATTERNS = ("*.md", "docs/*.md", "bench/*.md", ".ci/*.py", "tests/*.py", "bench/*.py", "crates/*/src/**/*.rt", "crates/*/specs/**/*.antt")
LONGEST_LINE = 120
# A comment, a string or a character of Rattle; a comment of definitions.
TEXT_OF_RATTLE = re.compile(r"""//[^\n]*|"(?:[^"\\]|\\.)*"|'(?:[^'\\\n]|\\.)'""", re.DOTALL)
TEXT_OF_DEFINITIONS = re.compile(r"^ *--.*$", re.MULTILINE)
# Code in a text: names keep their words.
CODE = re.compile(r"`[^`]*`")


class Language:
    """The words of `language.txt`: lines `not WORD: INSTEAD`, `not WORD in PATHS: INSTEAD` for a word that only some files avoid, and
    `except WORD in PATHS: REASON`. Paths are split at commas. A word is a regular expression that is matched as whole words, in any case; a path is a pattern of
    the shell. Code in backquotes is passed over."""

    def __init__(self, path=LIST):
        self.words, self.exceptions = {}, []
        with open(path, encoding="utf-8") as file:
            for line in file:
                if found := re.fullmatch(r"not (.+?)(?: in (\S+))?: (.+)\n", line):
                    self.words[found[1]] = re.compile(rf"\b(?:{found[1]})\b", re.IGNORECASE), (found[2] or "*").split(","), found[3]
                elif found := re.fullmatch(r"except (.+?) in (\S+): (.+)\n", line):
                    self.exceptions += [(found[1], it) for it in found[2].split(",")]
                elif line.strip() and not line.startswith("#"):
                    raise SystemExit(f"language: {os.path.basename(path)} has a line that is neither: {line.strip()}")
        unknown = [word for word, _ in self.exceptions if word not in self.words]
        if unknown:
            raise SystemExit(f"language: an exception names no word of the list: {unknown[0]}")
        self.used = set()

    def found_in(self, path, text):
        """The words in a text of this file that no exception admits, with what to write."""
        for word, (pattern, paths, instead) in self.words.items():
            for match in pattern.finditer(text) if any(fnmatch.fnmatch(path, it) for it in paths) else ():
                admitted = [it for it in self.exceptions if it[0] == word and fnmatch.fnmatch(path, it[1])]
                self.used.update(admitted)
                if not admitted:
                    yield match[0], instead


def texts_of(path):
    """The texts of a file, each with the number of its line: comments and strings of code, and the lines of a page."""
    with open(os.path.join(TOP, path), encoding="utf-8") as file:
        text = file.read()
    if path.endswith(".md"):
        return texts_of_page(text)
    if path.endswith(".py"):
        return texts_of_python(text)
    return texts_matching(TEXT_OF_DEFINITIONS if path.endswith(".antt") else TEXT_OF_RATTLE, text)


def texts_matching(pattern, text):
    """What the pattern matches, line by line."""
    number, at = 1, 0
    for match in pattern.finditer(text):
        number, at = number + text.count("\n", at, match.start()), match.start()
        yield from enumerate(match[0].split("\n"), number)


def texts_of_page(text):
    """The lines outside blocks of code."""
    is_code = False
    for number, line in enumerate(text.split("\n"), 1):
        is_code ^= line.startswith("```")
        if not is_code and not line.startswith("    "):
            yield number, line


def texts_of_python(text):
    for token in tokenize.generate_tokens(io.StringIO(text).readline):
        if token.type in (tokenize.COMMENT, tokenize.STRING):
            yield from enumerate(token.string.split("\n"), token.start[0])


def files():
    """The paths of all pages and of all code with comments for readers."""
    return sorted(it for pattern in PATTERNS for it in glob.glob(pattern, root_dir=TOP, recursive=True))


def complaints(language, path):
    """What is to be mended in a file, a line each."""
    for number, text in texts_of(path):
        for word, instead in language.found_in(path, CODE.sub("``", text)):
            yield f"{path}:{number}: '{word}': {instead}"
        if path.startswith("crates/") and text.lstrip().startswith(("//", "--")) and len(text) > LONGEST_LINE:
            yield f"{path}:{number}: a comment of {len(text)} characters: at most {LONGEST_LINE}"


def main(words):
    if words == ["--help"]:
        print(__doc__)
        return 0
    language = Language()
    found = [it for path in words or files() for it in complaints(language, path)]
    idle = [] if words else [it for it in language.exceptions if it not in language.used]
    found += [f".ci/language.txt: the exception for '{word}' in {path} admits nothing" for word, path in idle]
    for it in found:
        print(it)
    print(f"{len(found)} words to mend")
    return int(bool(found))


if __name__ == "__main__":
    sys.exit(main(sys.argv[1:]))
