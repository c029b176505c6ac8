"""Certificates of 1,073,741,824 bytes, the most that are read, and of one more. The files are sparse: all their bytes
are 0 and take no room."""

import os
import tempfile

from program import ProgramTest, run
from texts import ROAD_DOMAIN, ROAD_PROBLEM, ROAD_SAS

MOST_BYTES = 1_073_741_824
FILES = {"d": ROAD_DOMAIN, "p": ROAD_PROBLEM, "s": ROAD_SAS}


class LongCertificates(ProgramTest):
    def answers(self, size, answer, *words):
        """Fails unless the command with these arguments, and a certificate of this size, has this answer."""
        with tempfile.TemporaryDirectory(prefix="optplan-test-") as folder:
            path = os.path.join(folder, "cert")
            with open(path, "wb") as file:
                file.truncate(size)
            self.is_answered(run(*words, path, files=FILES), answer, words=words, size=size)

    def test_one_byte_too_long_for_a_planning_task(self):
        self.answers(MOST_BYTES + 1, "F56 TooLong cert", "check", "d", "p")

    def test_one_byte_too_long_for_a_finite_domain_task(self):
        self.answers(MOST_BYTES + 1, "F56 TooLong cert", "check-sas", "s")

    def test_one_byte_too_long_to_be_migrated(self):
        self.answers(MOST_BYTES + 1, "F56 TooLong cert", "migrate-cert")

    def test_as_long_as_possible(self):
        # The first line has no end.
        self.answers(MOST_BYTES, "F53 Truncated cert", "migrate-cert")
