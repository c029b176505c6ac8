"""Damaged texts: each is refused by a named fault with its place, or judged as what it spells then. These are a part of
all damages; `sweep.py` tries all.
"""

import unittest

from sweep import FINITE_DOMAIN, PLANNING, PLANNING_CERTIFICATES, Sweep

# One of this many damages is tried.
SHARE = 41


class DamagedTest(unittest.TestCase):
    """The program's answers for damaged texts are those of `second_reading.py`."""

    def is_clean(self, sweep):
        self.assertEqual(sweep.wrong, [])
        self.assertGreater(sweep.tried, 0)

    def test_finite_domain_tasks(self):
        for names in FINITE_DOMAIN:
            with self.subTest(names=names):
                self.is_clean(Sweep(SHARE).damage_finite_domain(*names))

    def test_planning_tasks(self):
        for name in PLANNING:
            with self.subTest(name=name):
                self.is_clean(Sweep(SHARE).damage_planning(name))

    def test_certificates_of_planning_tasks(self):
        for name, certificate in PLANNING_CERTIFICATES:
            with self.subTest(certificate=certificate):
                self.is_clean(Sweep(SHARE).damage_planning_certificate(name, certificate))
