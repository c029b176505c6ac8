"""Counts that announce far more lines than there are: no allocation depends on a count that was read, so each is a
fault at the end of the lines.
"""

from program import ProgramTest, example, run, wanted
from second_reading import certificate_fault, check_sas

MOST = b"4294967295"
# The address space of a run in bytes: far less than 8 bytes for each of that many lines.
MEMORY = 2**30

SAS = example("road", "task.sas").encode()
CERTIFICATE = example("road", "closed.cert").encode()
PLANNING = example("road", "planning.cert").encode()


def with_count(text, line, count):
    """Returns the text with another number at the end of a line, which is counted from 1."""
    lines = text.split(b"\n")
    lines[line - 1] = b" ".join([*lines[line - 1].split(b" ")[:-1], count])
    return b"\n".join(lines)


class CountsTest(ProgramTest):
    """Runs with little memory."""

    # Lines of the task with the counts of mutex groups, of the values of one, of goals, of operators, of prevail
    # conditions and of effects.
    SAS_LINES = (16, 18, 27, 30, 33, 34)

    def test_finite_domain_tasks(self):
        for line in self.SAS_LINES:
            with self.subTest(line=line):
                self.assertTrue(SAS.split(b"\n")[line - 1].isdigit())
                sas = with_count(SAS, line, MOST)
                outcome = run("check-sas", "s", "c", files={"s": sas, "c": CERTIFICATE}, memory=MEMORY)
                self.assertEqual(outcome, wanted(check_sas(sas, CERTIFICATE)))

    def test_certificates(self):
        closed = next(number for number, it in enumerate(CERTIFICATE.split(b"\n"), 1) if it.startswith(b"closed"))
        cert = with_count(CERTIFICATE, closed, MOST)
        outcome = run("check-sas", "s", "c", files={"s": SAS, "c": cert}, memory=MEMORY)
        self.assertEqual(outcome, wanted(check_sas(SAS, cert)))

    def test_certificates_of_planning_tasks(self):
        texts = {"d": example("road", "domain.pddl"), "p": example("road", "problem.pddl")}
        for number, line in enumerate(PLANNING.split(b"\n"), 1):
            if line.split(b" ")[0] in (b"atoms", b"vars", b"closed"):
                with self.subTest(line=line):
                    cert = with_count(PLANNING, number, MOST)
                    outcome = run("check", "d", "p", "c", files={**texts, "c": cert}, memory=MEMORY)
                    self.assertEqual(outcome, wanted(certificate_fault(cert)))
