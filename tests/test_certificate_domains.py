"""Tables of domain abstractions, and certificates of version 2, worked out by hand from the rules of the texts and the
clauses.
"""

import itertools

from damages import damaged_lines
from program import Outcome, ProgramTest, checked, checked_sas, example, run, unread
from second_reading import check_sas, certificate_fault
from test_certificate_sas import FiniteDomainTest, edited

DRIVE, DRIVE_PROBLEM = example("drive", "domain.pddl"), example("drive", "problem.pddl")
DRIVE_BY_CLASSES = example("drive", "classes.cert")

# Edits of the road's planning certificate: the table of the distances in place of the closed states.
WITH_TABLE = "12=columns 1|column 1|table 1 0|shares 2 0 1 1 1|values 3 2 1 0;13=closed 0;14=;15="


def migrated(cert):
    """Returns the outcome of a certificate's migration."""
    return run("migrate-cert", "c", files={"c": cert})


class Classes(ProgramTest):
    """A road from a to c, at 8, or over b, at 3 and 4, with a table in which a and b share a class."""

    # Edits of the certificate by lines, and the answer.
    ROWS = [
        ("", "accepted 4"),
        ("3=bound 5", "rejected C6"),
        # The goal's value has the class of a.
        ("16=0 3 0 1 0", "rejected C4 column 0 table 0 state 0"),
        # A row for a variable with four values; a variable that does not exist; three classes, and values for two.
        ("16=0 4 0 0 1 1", "rejected C4 column 0 table 0"),
        ("16=1 3 0 0 1", "rejected C4 column 0 table 0"),
        ("16=0 3 0 1 2", "rejected C4 column 0 table 0"),
        # Each value has a class of its own, and the distances are those under the full costs.
        ("3=bound 7;16=0 3 0 1 2;17=shares 3 0 3 1 7 2 4;18=values 3 7 4 0", "accepted 7"),
        # The operator from b is a transition of the class of a and b, although it does not apply at a.
        ("17=shares 1 1 4", "rejected C4 column 0 table 0 state 0 op 2"),
        ("17=shares 1 2 4", "rejected C4 column 0 table 0 state 0 op 1"),
        ("17=shares 2 1 4 2 5", "rejected C3 column 0 op 2"),
        # Faults of the text.
        ("16=0 3 1 0 0", "F57 Classes cert 16"),
        ("16=0 3 0 0 2", "F57 Classes cert 16"),
        ("1=optplan-cert 1", "F51 Expected cert 15"),
        ("1=optplan-cert 4", "F50 Header cert"),
        ("15=domain 0", "F52 Number cert 15"),
        ("15=domain 1 0", "F51 Expected cert 15"),
        ("15=domain", "F51 Expected cert 15"),
        ("15=domains 1", "F51 Expected cert 15"),
        ("16=0 0", "F52 Number cert 16"),
        ("16=0 0 0", "F51 Expected cert 16"),
        ("16=0 3 0 0", "F51 Expected cert 16"),
        ("16=0 3 0 0 4294967296", "F52 Number cert 16"),
        # One row is missing: the line of the shares is read as a row.
        ("15=domain 2", "F51 Expected cert 17"),
        ("15=domain 2;17=shares 0", "F52 Number cert 17"),
        ("15=domain 2;16=0 3 0 0 1|0 3 0 0 1", "F55 Order cert 17"),
        ("15=domain 2;16=0 3 0 0 1|0 3 1 0 0", "F55 Order cert 17"),
        ("15=domain 2;16=0 3 0 0 1|1 3 1 0 0", "F57 Classes cert 17"),
    ]

    def test_certificates(self):
        for edits, answer in self.ROWS:
            self.is_answered(checked(DRIVE, DRIVE_PROBLEM, edited(DRIVE_BY_CLASSES, edits)), answer, edits=edits)

    def test_fronts(self):
        for end in range(len(DRIVE_BY_CLASSES)):
            with self.subTest(end=end):
                front = DRIVE_BY_CLASSES[:end]
                fault = certificate_fault(front.encode())
                self.assertIsNotNone(fault)
                self.is_answered(migrated(front), fault)

    def test_solve_writes_it(self):
        outcome = run("solve", "d", "p", "--table", "2", "--workers", "1", "--limit", "0", "--cert", "c", files={"d": DRIVE, "p": DRIVE_PROBLEM})
        self.assertEqual(outcome, Outcome(out=b"limit 4\n", status=5, files={"c": DRIVE_BY_CLASSES.encode()}))


class Migration(ProgramTest):
    """Certificates that are rewritten as version 2."""

    def test_program_examples(self):
        for task, name in (("road", "planning.cert"), ("road", "closed.cert"), ("road", "table.cert"), ("lamp", "closed.cert"), ("lamp", "tables.cert")):
            with self.subTest(task=task, name=name):
                cert = example(task, name)
                self.assertTrue(cert.startswith("optplan-cert 1\n"))
                self.assertEqual(migrated(cert), Outcome(out=cert.replace("cert 1\n", "cert 2\n", 1).encode()))

    # Edits of the road's certificate and then of the edited one, and the answer.
    VERDICT_ROWS = [
        ("", "", "accepted 2"),
        ("", "3=bound 1", "accepted 1"),
        ("", "4=atoms 4;7=;11=0 2 0 1", "rejected C1 atom (at c)"),
        ("", "4=atoms 4;9=", "rejected C1 atom (road b c)"),
        ("", "11=1 2 0 1", "rejected C2 atom (at c)"),
        ("", "10=vars 2;11=0 3 0 1 2|1 1 3", "rejected C2 var 1"),
        ("", "14=0 3", "rejected C5 state 0"),
        ("", "14=1 1;15=0 0", "rejected C5 state 1"),
        ("", "14=1 0", "rejected C6"),
        ("", "3=bound 3;13=closed 3;15=1 1|2 2", "rejected C7 state 2"),
        ("", "3=bound 3", "rejected C8 state 1 op 1"),
        ("", "3=bound inf", "rejected C8 state 1 op 1"),
        (WITH_TABLE, "", "accepted 2"),
        (WITH_TABLE, "3=bound 3", "rejected C6"),
        (WITH_TABLE, "15=shares 2 0 1 1 2", "rejected C3 column 0 op 1"),
        (WITH_TABLE, "13=column 2;16=values 3 2 1 0|table 1 0|shares 2 0 1 1 1|values 3 2 1 0", "rejected C3 column 0 op 0"),
        (WITH_TABLE, "14=table 1 1", "rejected C4 column 0 table 0"),
        (WITH_TABLE, "16=values 3 2 1 1", "rejected C4 column 0 table 0 state 2"),
        (WITH_TABLE, "16=values 3 3 1 0", "rejected C4 column 0 table 0 state 0 op 0"),
    ]

    def migrates(self, cert):
        """Fails unless the certificate's migration changes its first line alone, and returns the new text."""
        later = cert.replace("cert 1\n", "cert 2\n", 1)
        self.assertEqual(migrated(cert), Outcome(out=later.encode()))
        self.assertNotEqual(cert, later)
        return later

    def test_verdicts_of_a_planning_task(self):
        domain, problem = example("road", "domain.pddl"), example("road", "problem.pddl")
        for first, second, answer in self.VERDICT_ROWS:
            cert = edited(edited(example("road", "planning.cert"), first), second)
            self.is_answered(checked(domain, problem, cert), answer, first=first, second=second)
            self.is_answered(checked(domain, problem, self.migrates(cert)), answer, first=first, second=second)

    def test_verdicts_of_a_finite_domain_task(self):
        sas, answers = example("road", "task.sas"), set()
        for name in ("closed.cert", "table.cert"):
            for text in damaged_lines(example("road", name).encode()):
                if certificate_fault(text) is None and text.startswith(b"optplan-cert 1\n"):
                    cert, answer = text.decode(), check_sas(sas.encode(), text)
                    self.is_answered(checked_sas(sas, cert), answer, cert=cert)
                    self.is_answered(checked_sas(sas, self.migrates(cert)), answer, cert=cert)
                    answers.add(" ".join(answer.split()[:2]))
        clauses = {f"rejected {it}" for it in ("C3", "C4", "C5", "C6", "C8")}
        self.assertLessEqual({"accepted 1", *clauses}, answers)

    def test_of_version_2(self):
        self.assertEqual(migrated(DRIVE_BY_CLASSES), Outcome(out=DRIVE_BY_CLASSES.encode()))

    def test_same_fault(self):
        domain, problem, cert = example("road", "domain.pddl"), example("road", "problem.pddl"), example("road", "planning.cert")
        lines = cert.count("\n")
        for line in range(2, lines + 1):
            damaged = edited(cert, f"{line}=")
            later = edited(cert, f"1=optplan-cert 2;{line}=")
            fault = certificate_fault(damaged.encode())
            self.assertIsNotNone(fault)
            self.is_answered(migrated(damaged), fault, line=line)
            self.is_answered(checked(domain, problem, damaged), fault, line=line)
            self.is_answered(checked(domain, problem, later), fault, line=line)

    def test_faults(self):
        self.is_answered(migrated("optplan-cert 0\n"), "F50 Header cert")
        self.assertEqual(run("migrate-cert", "none"), unread("cert"))
        self.assertEqual(run("migrate-cert").status, 2)


def counter(values, costs):
    """Returns the text of a task: a variable with this many values, an operator from each to the next, at these costs
    in turn, and the last value as the goal."""
    operators = "".join(f"begin_operator\nstep {it}\n0\n1\n0 0 {it} {it + 1}\n{costs[it % len(costs)]}\nend_operator\n" for it in range(values - 1))
    names = "".join(f"value {it}\n" for it in range(values))
    return (f"begin_version\n3\nend_version\nbegin_metric\n1\nend_metric\n1\nbegin_variable\ncount\n-1\n{values}\n{names}end_variable\n0\n"
            f"begin_state\n0\nend_state\nbegin_goal\n1\n0 {values - 1}\nend_goal\n{values - 1}\n{operators}0\n")


class LargeVariables(FiniteDomainTest):
    """A goal variable with more values than a table may have: its first values have classes of their own, the rest
    share one."""

    def test_counters(self):
        for values, table in itertools.product((3, 4, 5, 50), (2, 3, 4, 10)):
            with self.subTest(values=values, table=table):
                sas = counter(values, (1, 2))
                outcome = run("solve-sas", "s", "--table", str(table), "--cert", "c", files={"s": sas})
                cost = sum((1, 2)[it % 2] for it in range(values - 1))
                self.assertEqual(outcome.out.splitlines()[-1], f"; cost = {cost} (general cost)".encode())
                cert = outcome.files["c"].decode()
                self.assertEqual("domain 1" in cert.splitlines(), values > table)
                self.is_answered(run("check-sas", "s", "c", files={"s": sas, "c": cert}), f"accepted {cost}")
                self.assertEqual(check_sas(sas.encode(), cert.encode()), f"accepted {cost}")

    def test_five_thousand_values(self):
        sas = counter(5000, (1,))
        for table in (2, 100):
            outcome = run("solve-sas", "s", "--table", str(table), "--cert", "c", files={"s": sas})
            self.is_answered(run("check-sas", "s", "c", files={"s": sas, "c": outcome.files["c"]}), "accepted 4999", table=table)
