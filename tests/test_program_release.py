"""`./optplan` over a release of the program under test, in a tree of its own, with a PATH of the system's small tools alone: without
the toolchain and without Python."""

import os
import shutil
import subprocess
import sys
import tempfile
import unittest

from program import EXAMPLES

TOP = os.path.dirname(EXAMPLES)
sys.path.insert(0, os.path.join(TOP, ".ci"))
import release  # noqa: E402  (it is in .ci)
from repository import Repository  # noqa: E402

TOOLS = ("sh", "cat", "chmod", "cp", "cut", "dirname", "find", "grep", "gzip", "mkdir", "mktemp", "mv", "readlink", "rm", "sed", "sha256sum",
         "sort", "touch", "tr", "uname")
KIT = "a-kit logic 0"
UNPACKING = "optplan: unpacking the program from release/\n"
ENDING = "; to prove and build the program takes rt, the command of the Rattle toolchain, and python3\n"
GRIPPER = ("examples/gripper/domain.pddl", "examples/gripper/problem.pddl")
SOURCE = "crates/cost/src/lib.rt"


def program_under_test():
    return release.contents(os.environ["OPTPLAN"])


def flipped_in_the_middle(data):
    """The bytes with one bit of the middle one changed."""
    middle = len(data) // 2
    return data[:middle] + bytes([data[middle] ^ 1]) + data[middle + 1 :]


def copy_sources(top):
    """Copies what the program is built from and what starts it."""
    os.makedirs(f"{top}/.ci")
    for it in ("optplan", "crates.txt", "HANDLES", ".ci/source_sum"):
        shutil.copy(f"{TOP}/{it}", f"{top}/{it}")
    shutil.copytree(f"{EXAMPLES}/gripper", f"{top}/examples/gripper")
    for crate in Repository(TOP).closure(["optplan"]):
        for part in ("src", "specs", "proofs"):
            if os.path.isdir(f"{TOP}/crates/{crate}/{part}"):
                shutil.copytree(f"{TOP}/crates/{crate}/{part}", f"{top}/crates/{crate}/{part}")


class Release(unittest.TestCase):
    """Each test has a copy of the sources on which the program rests, with a release of it, and no program yet."""

    @classmethod
    def setUpClass(cls):
        folder = tempfile.TemporaryDirectory(prefix="optplan-release-")
        cls.addClassCleanup(folder.cleanup)
        cls.folder = folder.name
        copy_sources(f"{cls.folder}/sources")

    def setUp(self):
        folder = tempfile.TemporaryDirectory(dir=self.folder)
        self.addCleanup(folder.cleanup)
        self.top, self.tools = f"{folder.name}/tree", f"{folder.name}/tools"
        # (files of the tree are links: whoever changes one removes it first)
        shutil.copytree(f"{self.folder}/sources", self.top, copy_function=os.link)
        self.release(program_under_test())
        os.mkdir(self.tools)
        for it in TOOLS:
            os.symlink(shutil.which(it), f"{self.tools}/{it}")

    def release(self, program):
        release.write(self.top, program, release.description(self.top, program, KIT))

    def start(self, *words, by=None, environment=()):
        return subprocess.Popen([by or f"{self.top}/optplan", *words], cwd=self.top, env={"PATH": self.tools, **dict(environment)},
                                stdin=subprocess.DEVNULL, stdout=subprocess.PIPE, stderr=subprocess.PIPE, text=True)

    def outcome(self, *words, by=None, environment=()):
        """What the program printed on its two streams, and its status."""
        started = self.start(*words, by=by, environment=environment)
        out, err = started.communicate(timeout=60)
        return out, err, started.returncode

    def is_missing(self, why):
        """Fails unless the call ends with this line and the status 127, and leaves no program."""
        out, err, status = self.outcome("--version")
        self.assertEqual((out, err.removeprefix(UNPACKING), status), ("", f"optplan: {why}{ENDING}", 127))
        output = f"{self.top}/crates/optplan/out"
        self.assertEqual(os.listdir(output) if os.path.isdir(output) else [], [])

    def edit(self, path, old, new):
        """Replaces the first occurrence of a text in a file."""
        text = release.contents(f"{self.top}/{path}").decode()
        self.assertIn(old, text)
        os.remove(f"{self.top}/{path}")
        with open(f"{self.top}/{path}", "w", encoding="utf-8") as file:
            file.write(text.replace(old, new, 1))

    def pack(self, change):
        """Changes the bytes of the packed file, which is no link."""
        path = f"{self.top}/release/optplan.gz"
        changed = change(release.contents(path))
        with open(path, "wb") as file:
            file.write(changed)

    def test_first_and_later_starts(self):
        out, err, status = self.outcome("solve", *GRIPPER, "--plan", "found.txt", "--cert", "found.cert")
        self.assertEqual((out.splitlines()[-1], err, status), ("; cost = 11 (unit cost)", UNPACKING, 0))
        self.assertEqual(self.outcome("validate", *GRIPPER, "found.txt"), ("valid 11\n", "", 0))
        self.assertEqual(self.outcome("check", *GRIPPER, "found.cert"), ("accepted 11\n", "", 0))
        self.assertEqual(sorted(os.listdir(f"{self.top}/crates/optplan/out")), ["built", "optplan"])

    def test_start_through_a_link(self):
        os.symlink(f"{self.top}/optplan", f"{self.tools}/planner")
        self.assertEqual(self.outcome("validate", *GRIPPER, "examples/gripper/plan.txt", by=f"{self.tools}/planner"), ("valid 11\n", UNPACKING, 0))

    def test_large_pages_unless_the_caller_says_otherwise(self):
        self.release(b'#!/bin/sh\necho "$GLIBC_TUNABLES"\n')
        large, small, other = "glibc.malloc.hugetlb=1", "glibc.malloc.hugetlb=0", "glibc.malloc.check=0"
        for given, wanted in ((None, large), ("", large), (other, f"{other}:{large}"), (small, small), (f"{small}:{other}", f"{small}:{other}")):
            with self.subTest(given=given):
                environment = {} if given is None else {"GLIBC_TUNABLES": given}
                self.assertEqual(self.outcome("--version", environment=environment)[::2], (f"{wanted}\n", 0))

    def test_two_starts_at_once(self):
        started = [self.start("validate", *GRIPPER, "examples/gripper/plan.txt") for _ in range(2)]
        ended = [it.communicate(timeout=60)[0] for it in started]
        self.assertEqual((ended, [it.returncode for it in started]), (["valid 11\n"] * 2, [0, 0]))

    def test_source_changed_by_a_letter(self):
        self.edit(SOURCE, "tactic", "Tactic")
        self.is_missing("release/ was built from other sources")
        self.edit(SOURCE, "Tactic", "tactic")
        self.assertEqual(self.outcome("--version")[1:], (UNPACKING, 0))

    def test_source_changed_after_the_first_start(self):
        self.assertEqual(self.outcome("--version")[1:], (UNPACKING, 0))
        self.edit(SOURCE, "tactic", "Tactic")
        out, err, status = self.outcome("--version")
        self.assertEqual((out, err, status), ("", f"optplan: release/ was built from other sources{ENDING}", 127))

    def test_changed_line_of_crates(self):
        self.edit("crates.txt", "\ncost:", "\ncost: ")
        self.is_missing("release/ was built from other sources")

    def test_flipped_byte(self):
        self.pack(flipped_in_the_middle)
        self.is_missing("release/optplan.gz is damaged")

    def test_truncated_file(self):
        self.pack(lambda data: data[:-1000])
        self.is_missing("release/optplan.gz is damaged")

    def test_another_program(self):
        text = release.contents(f"{self.top}/release/release.txt").decode()
        release.write(self.top, program_under_test() + b"\0", text)
        self.is_missing("release/optplan.gz is not the program that release/release.txt names")

    def test_no_release(self):
        shutil.rmtree(f"{self.top}/release")
        self.is_missing("release/ is missing")

    def test_another_system(self):
        self.edit("release/release.txt", "system Linux x86_64", "system Linux riscv64")
        out, err, status = self.outcome("--version")
        self.assertEqual((out, status), ("", 127))
        self.assertTrue(err.startswith("optplan: release/ has a program for Linux riscv64, and this is Linux "), err)

    def test_program_that_does_not_start(self):
        self.release(b"\x7fELF GLIBC_2.34 GLIBC_2.4 GLIBC_2.99 GLIBC_2.7")
        self.is_missing("the program in release/ does not start here: it needs glibc 2.99 or later")

    def test_folder_that_cannot_be_written(self):
        with open(f"{self.top}/crates/optplan/out", "w", encoding="utf-8"):
            pass
        output = os.path.realpath(f"{self.top}/crates/optplan/out")
        self.assertEqual(self.outcome("--version"), ("", f"optplan: the folder {output} cannot be written{ENDING}", 127))

    def test_packed_file_is_replaced_only_if_the_program_changed(self):
        path = f"{self.top}/release/optplan.gz"
        os.utime(path, (1, 1))
        self.release(program_under_test())
        self.assertEqual(os.stat(path).st_mtime, 1)
        self.release(program_under_test() + b"\0")
        self.assertGreater(os.stat(path).st_mtime, 1)

    def test_compared_with_what_was_built(self):
        program, other = program_under_test(), program_under_test() + b"\0"
        self.assertEqual(release.difference(self.top, program, KIT), (True, "release/ is the program that was built, byte for byte"))
        self.assertEqual(release.difference(self.top, other, KIT), (False, "release/ is NOT the program that was built from these sources"))
        self.assertEqual(release.difference(self.top, other, "b"), (True, "release/ was built by another toolchain, so the program is not compared"))
        self.pack(lambda data: data[:-1000])
        self.assertFalse(release.difference(self.top, program, KIT)[0])
        self.edit(SOURCE, "tactic", "Tactic")
        self.assertEqual(release.difference(self.top, program, KIT), (True, "release/ was built from other sources, so the program is not compared"))
        shutil.rmtree(f"{self.top}/release")
        self.assertEqual(release.difference(self.top, program, KIT), (True, "release/ is missing, so the program is not compared"))
