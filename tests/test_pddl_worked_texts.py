"""The laws of `crates/pddl_worked` are about the texts of examples: its definitions have the same bytes."""

import os
import re
import unittest

from program import EXAMPLES, example

SPECS = os.path.join(os.path.dirname(EXAMPLES), "crates", "pddl_worked", "specs")


def text_of(task, name):
    """Returns the text that a definition spells: its pieces, with line feeds for `\\n`. The piece `number` is the
    definition's argument."""
    with open(os.path.join(SPECS, f"{task.capitalize()}.antt"), encoding="utf-8") as file:
        specs = file.read()
    body = re.search(rf"^{name}(?: number)? =(.*?)(?:\n\n|\Z)", specs, re.M | re.S).group(1)
    given = re.match(r" problem_with_length \(codes \"(.*)\"\)$", body)
    if given:
        return text_of(task, "problem_with_length").replace("{number}", given.group(1))
    pieces = re.findall(r'codes "((?:[^"\\]|\\.)*)"|\+\+ (number)', body)
    return "".join("{number}" if number else piece.replace("\\n", "\n") for piece, number in pieces)


class WorkedTexts(unittest.TestCase):
    def test_same_texts(self):
        for task in ("noop", "road", "drive", "grip"):
            for part in ("domain", "problem"):
                with self.subTest(task=task, part=part):
                    self.assertEqual(text_of(task, f"{task}_{part}"), example(task, f"{part}.pddl"))
