"""The pages' examples work as written: each block of a `console` in README.md and in the tutorial, in a folder with the examples and the
program as `./optplan`, and each command of README's table.

A block marked `text FILE`, or with another language in place of `text`, is the content of that file, for the commands after it. In a
`console`, a line that begins with `$ ` is a command, and the lines up to the next one are what it prints on both streams."""

import os
import re
import shutil
import subprocess
import tempfile
import unittest

from program import EXAMPLES

TOP = os.path.dirname(EXAMPLES)
BLOCK = re.compile(r"^```(\w+)(?: (\S+))?\n(.*?)^```$", re.MULTILINE | re.DOTALL)
COMMAND_OF_TABLE = re.compile(r"^\|[^|]*\| `(\./optplan [^`]*)`", re.MULTILINE)


def blocks(page):
    """The blocks of a page: their language, the file that they are the content of, and their text."""
    with open(os.path.join(TOP, page), encoding="utf-8") as file:
        return [it.groups() for it in BLOCK.finditer(file.read())]


def commands(text):
    """The commands of a console, with what each prints."""
    for part in re.split(r"^\$ ", text, flags=re.MULTILINE)[1:]:
        command, _, output = part.partition("\n")
        yield command, output


class Pages(unittest.TestCase):
    maxDiff = None

    def setUp(self):
        folder = tempfile.TemporaryDirectory(prefix="optplan-pages-")
        self.addCleanup(folder.cleanup)
        self.folder = folder.name
        shutil.copytree(EXAMPLES, f"{self.folder}/examples")
        os.symlink(os.path.abspath(os.environ["OPTPLAN"]), f"{self.folder}/optplan")

    def run_command(self, command):
        return subprocess.run(["sh", "-c", command], cwd=self.folder, stdin=subprocess.DEVNULL, stdout=subprocess.PIPE,
                              stderr=subprocess.STDOUT, text=True, timeout=60, check=False)

    def follow(self, page):
        """Writes the files of a page and runs its commands, in order. Returns how many commands were run."""
        count = 0
        for language, name, text in blocks(page):
            if name:
                path = os.path.join(self.folder, name)
                os.makedirs(os.path.dirname(path) or ".", exist_ok=True)
                with open(path, "w", encoding="utf-8") as file:
                    file.write(text)
            elif language == "console":
                for command, output in commands(text):
                    with self.subTest(command=command):
                        self.assertEqual(self.run_command(command).stdout, output)
                    count += 1
        return count

    def test_readme(self):
        self.assertEqual(self.follow("README.md"), 3)

    def test_tutorial(self):
        self.assertGreaterEqual(self.follow("docs/TUTORIAL.md"), 12)

    def test_commands_of_readme(self):
        with open(os.path.join(TOP, "README.md"), encoding="utf-8") as file:
            found = COMMAND_OF_TABLE.findall(file.read())
        self.assertEqual(len(found), 8)
        for command in found:
            with self.subTest(command=command):
                ended = self.run_command(command)
                self.assertEqual(ended.returncode, 0)
                self.assertTrue(ended.stdout)
