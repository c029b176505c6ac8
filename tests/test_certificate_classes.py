"""Certificates of version 3, for tasks that classes of values reduce, and what `solve` leaves out: worked out by hand
from the rules of the texts and the clauses.
"""

from damages import damaged_lines
from program import Outcome, ProgramTest, checked, checked_sas, example, run
from second_reading import Task, certificate_fault, check_sas
from test_certificate_sas import edited
from texts import ROAD_DOMAIN, ROAD_PROBLEM, ROAD_PROBLEM_AT_ITS_GOAL, ROAD_SAS

# The road with a lamp, which no goal needs.
LAMP_DOMAIN = ROAD_DOMAIN.replace("(road ?x ?y - loc))", "(road ?x ?y - loc) (on))").rstrip()[:-1] + """
 (:action switch-on :effect (on))
 (:action switch-off :precondition (on) :effect (not (on))))
"""

# The location, in three values, is needed; both values of the lamp are in one class.
LAMP_CERTIFICATE = (
    "optplan-cert 3\npddl\nbound 2\natoms 6\nat a\nat b\nat c\nroad a b\nroad b c\non\nvars 2\n0 3 0 1 2\n1 1 5\n"
    "classes 2\n3 0 1 2\n2 0 0\ncolumns 0\nclosed 2\n0 0\n1 1\nend\n"
)

# The same as a finite-domain task: the lamp is variable 1, on at value 0.
LAMP_SAS = ROAD_SAS.replace("end_metric\n1\n", "end_metric\n2\n").replace(
    "Atom at(c)\nend_variable\n", "Atom at(c)\nend_variable\nbegin_variable\nvar1\n-1\n2\nAtom on()\n<none of those>\nend_variable\n"
).replace("begin_state\n0\nend_state", "begin_state\n0\n1\nend_state").replace("end_goal\n2\n", "end_goal\n4\n").replace(
    "go b c\n0\n1\n0 0 1 2\n1\nend_operator\n",
    "go b c\n0\n1\n0 0 1 2\n1\nend_operator\n"
    "begin_operator\nswitch-on\n0\n1\n0 1 -1 0\n1\nend_operator\nbegin_operator\nswitch-off\n0\n1\n0 1 0 1\n1\nend_operator\n"
)

LAMP_SAS_CERTIFICATE = "optplan-cert 3\nsas\nbound 2\nclasses 2\n3 0 1 2\n2 0 0\ncolumns 0\nclosed 2\n0 0\n1 1\nend\n"

# A table of the location, which has a share of each step along the road.
WITH_TABLE = "7=columns 1|column 1|table 1 0|shares 2 0 1 1 1|values 3 2 1 0;8=closed 0;9=;10="


def solved(domain, problem, *words):
    """Returns the outcome of a search by one worker, with a certificate in the file `c`."""
    return run("solve", "d", "p", "--workers", "1", "--cert", "c", *words, files={"d": domain, "p": problem})


class Checks(ProgramTest):
    """Certificates with classes."""

    # Edits of the planning certificate by lines, and the answer.
    ROWS = [
        ("", "accepted 2"),
        ("16=2 0 1", "F57 Classes cert 16"),
        ("16=2 0 1;17=column 0", "F57 Classes cert 16"),
        ("16=2 1 0", "F57 Classes cert 16"),
        ("16=2 0", "F51 Expected cert 16"),
        ("16=0", "F52 Number cert 16"),
        ("14=classes 0;15=;16=", "F52 Number cert 14"),
        ("14=classes 1", "F57 Classes cert 15"),
        ("14=classes 1;15=3 0 0 1", "F51 Expected cert 16"),
        ("14=classes 3", "F52 Number cert 17"),
        ("14=;15=;16=", "F51 Expected cert 14"),
        ("1=optplan-cert 2", "F51 Expected cert 14"),
        ("1=optplan-cert 1", "F51 Expected cert 14"),
        ("1=optplan-cert 4", "F50 Header cert"),
        # a and b share a class: the goal's class is reached after one step.
        ("3=bound 1;15=3 0 0 1;18=closed 1;20=", "accepted 1"),
        ("15=3 0 0 1", "rejected C7 state 1"),
        # Lines of classes that are not those of the task's variables.
        ("14=classes 1;15=3 0 0 1;16=", "rejected C0 var 1"),
        ("14=classes 3;16=2 0 0|1 0", "rejected C0 var 2"),
        ("16=3 0 0 0", "rejected C0 var 1"),
        ("15=2 0 1;16=3 0 0 0", "rejected C0 var 0"),
        # C1 and C2 come before C0, and C0 before the clauses on the reduced task.
        ("10=at d;16=3 0 0 0", "rejected C1 atom (at d)"),
        ("3=bound 3;16=3 0 0 0", "rejected C0 var 1"),
        # Closed states have a value for the location alone.
        ("19=0 0 1;20=1 1 1", "rejected C5 state 0"),
        ("3=bound 3", "rejected C8 state 1 op 1"),
        ("18=closed 1;20=", "rejected C8 state 0 op 0"),
    ]

    def test_planning(self):
        for edits, answer in self.ROWS:
            self.is_answered(checked(LAMP_DOMAIN, ROAD_PROBLEM, edited(LAMP_CERTIFICATE, edits)), answer, edits=edits)

    # Edits of the finite-domain certificate by lines, and the answer.
    SAS_ROWS = [
        ("", "accepted 2"),
        ("6=2 0 1", "F57 Classes cert 6"),
        ("3=bound 1;5=3 0 0 1;8=closed 1;10=", "accepted 1"),
        ("5=3 0 0 1", "rejected C7 state 1"),
        ("4=classes 1;5=3 0 0 1;6=", "rejected C0 var 1"),
        ("4=classes 3;6=2 0 0|1 0", "rejected C0 var 2"),
        ("6=3 0 0 0", "rejected C0 var 1"),
        # The lamp stays, which is off at first, and the location is left out: all its states are goal states.
        ("5=3 0 0 0;6=2 0 1", "rejected C6"),
        ("3=bound 0;5=3 0 0 0;6=2 0 1;8=closed 1;9=0 1;10=", "accepted 0"),
        # Nothing is left of the task: its one state is a goal.
        ("3=bound 0;5=3 0 0 0;8=closed 1;9=0;10=", "accepted 0"),
        ("3=bound 1;5=3 0 0 0;8=closed 1;9=0;10=", "rejected C7 state 0"),
        (WITH_TABLE, "accepted 2"),
        (WITH_TABLE + ";5=3 0 0 1", "rejected C4 column 0 table 0"),
        (WITH_TABLE.replace("shares 2 0 1 1 1", "shares 2 0 1 1 2"), "rejected C3 column 0 op 1"),
        # Variables of tables are numbered over those that are left.
        (WITH_TABLE.replace("table 1 0", "table 1 1"), "rejected C4 column 0 table 0"),
        # An operator of what is left out may have a share of its cost.
        (WITH_TABLE.replace("shares 2 0 1 1 1", "shares 3 0 1 1 1 3 1"), "accepted 2"),
        (WITH_TABLE.replace("shares 2 0 1 1 1", "shares 3 0 1 1 1 3 2"), "rejected C3 column 0 op 3"),
    ]

    def test_finite_domain(self):
        for edits, answer in self.SAS_ROWS:
            cert = edited(LAMP_SAS_CERTIFICATE, edits)
            self.assertEqual(check_sas(LAMP_SAS.encode(), cert.encode()), answer, edits)
            self.is_answered(checked_sas(LAMP_SAS, cert), answer, edits=edits)

    def test_damaged(self):
        """Damaged certificates: the answers are those of the second reading, and none is accepted above 2."""
        answers = set()
        for edits in ("", WITH_TABLE, "5=3 0 0 1;3=bound 1;8=closed 1;10="):
            for text in damaged_lines(edited(LAMP_SAS_CERTIFICATE, edits).encode()):
                answer = check_sas(LAMP_SAS.encode(), text)
                self.is_answered(checked_sas(LAMP_SAS, text), answer, cert=text)
                answers.add(" ".join(answer.split()[:2]))
        self.assertLessEqual({"rejected C0", "rejected C4", "rejected C5", "rejected C7", "rejected C8", "F57 Classes", "accepted 2"}, answers)
        self.assertLessEqual({it for it in answers if it.startswith("accepted")}, {"accepted 0", "accepted 1", "accepted 2"})

    def test_fronts(self):
        for end in range(len(LAMP_CERTIFICATE)):
            front = LAMP_CERTIFICATE[:end]
            fault = certificate_fault(front.encode())
            self.assertIsNotNone(fault)
            self.is_answered(run("migrate-cert", "c", files={"c": front}), fault, end=end)

    def test_stays_version_3(self):
        self.assertEqual(run("migrate-cert", "c", files={"c": LAMP_CERTIFICATE}), Outcome(out=LAMP_CERTIFICATE.encode()))


class Solves(ProgramTest):
    """What `solve` and `solve-sas` leave out."""

    def test_lamp(self):
        plan = b"(go a b)\n(go b c)\n; cost = 2 (unit cost)\n"
        outcome = solved(LAMP_DOMAIN, ROAD_PROBLEM, "--table", "1")
        self.assertEqual(outcome, Outcome(out=plan, files={"c": LAMP_CERTIFICATE.encode()}))

    def test_lamp_without_a_reduction(self):
        outcome = solved(LAMP_DOMAIN, ROAD_PROBLEM, "--table", "1", "--reduce", "off")
        self.assertEqual(outcome.status, 0)
        self.assertTrue(outcome.files["c"].startswith(b"optplan-cert 2\n"))
        self.is_answered(checked(LAMP_DOMAIN, ROAD_PROBLEM, outcome.files["c"]), "accepted 2")

    def test_nothing_to_leave_out(self):
        outcome = solved(ROAD_DOMAIN, ROAD_PROBLEM, "--table", "1")
        self.assertEqual(outcome.files["c"].splitlines()[0], b"optplan-cert 2")
        self.is_answered(checked(ROAD_DOMAIN, ROAD_PROBLEM, outcome.files["c"]), "accepted 2")

    def test_at_the_goal(self):
        """Only the value a of the location is asked for; the others share a class."""
        outcome = solved(ROAD_DOMAIN, ROAD_PROBLEM_AT_ITS_GOAL)
        self.assertEqual(outcome.out, b"; cost = 0 (unit cost)\n")
        self.assertEqual(outcome.files["c"].splitlines()[11:13], [b"classes 1", b"3 0 1 1"])
        self.is_answered(checked(ROAD_DOMAIN, ROAD_PROBLEM_AT_ITS_GOAL, outcome.files["c"]), "accepted 0")

    def test_finite_domain(self):
        outcome = run("solve-sas", "s", "--workers", "1", "--table", "1", "--cert", "c", files={"s": LAMP_SAS})
        self.assertEqual(outcome, Outcome(out=b"(go a b)\n(go b c)\n; cost = 2 (unit cost)\n", files={"c": LAMP_SAS_CERTIFICATE.encode()}))

    def test_cheapest_of_equal_operators(self):
        """Of two operators that differ in their effects on the lamp alone, the cheaper one is in the plan, whichever is the
        first; without costs the first one."""
        detour = "begin_operator\ngo b c by night\n0\n2\n0 0 1 2\n0 1 -1 1\n{}\nend_operator\n"
        for metric, cost, place, step in (("1", "0", "last", b"go b c by night"), ("1", "3", "first", b"go b c"), ("0", "7", "first", b"go b c by night"), ("0", "0", "last", b"go b c")):
            sas = LAMP_SAS.replace("begin_metric\n0\n", f"begin_metric\n{metric}\n").replace("end_goal\n4\n", "end_goal\n5\n")
            one = detour.format(cost)
            sas = sas.replace("begin_operator\ngo b c\n", one + "begin_operator\ngo b c\n") if place == "first" else sas[:-2] + one + "0\n"
            with self.subTest(metric=metric, cost=cost, place=place):
                outcome = run("solve-sas", "s", "--workers", "1", "--cert", "c", files={"s": sas})
                self.assertEqual(outcome.out.splitlines()[1], b"(" + step + b")")
                total = sum(it[2] for it in (Task(sas.encode()).operators[number] for number in self.plan_of(sas, outcome.out)))
                self.is_answered(checked_sas(sas, outcome.files["c"]), f"accepted {total}")

    def plan_of(self, sas, plan):
        """Returns the numbers of a plan's operators."""
        lines = sas.split("\n")
        names = [lines[place + 1] for place, line in enumerate(lines) if line == "begin_operator"]
        return [names.index(line[1:-1].decode()) for line in plan.splitlines() if line.startswith(b"(")]

    def test_progress(self):
        err = run("solve", "d", "p", "--workers", "1", "--progress", files={"d": LAMP_DOMAIN, "p": ROAD_PROBLEM}).err
        self.assertIn(b"optplan: left out 1 variables, 2 operators\n", err)
        err = run("solve", "d", "p", "--workers", "1", "--progress", "--reduce", "off", files={"d": LAMP_DOMAIN, "p": ROAD_PROBLEM}).err
        self.assertNotIn(b"left out", err)

    def test_refused_values(self):
        for words, told in (
            (("--reduce", "yes"), b"invalid value 'yes' for '--reduce': neither on nor off"),
            (("--reduce", "on", "--simulate", "1"), b"invalid value 'on' for '--reduce': only off goes with --simulate"),
        ):
            outcome = run("solve", "d", "p", *words, files={"d": LAMP_DOMAIN, "p": ROAD_PROBLEM})
            self.assertEqual((outcome.status, outcome.out), (2, b""))
            self.assertIn(told, outcome.err)

    def test_with_a_seed(self):
        for words in ((), ("--reduce", "off")):
            outcome = solved(LAMP_DOMAIN, ROAD_PROBLEM, "--simulate", "1", *words)
            self.assertTrue(outcome.files["c"].startswith(b"optplan-cert 2\n"))
            self.is_answered(checked(LAMP_DOMAIN, ROAD_PROBLEM, outcome.files["c"]), "accepted 2")

    def test_examples(self):
        """Examples in which much is there that no goal needs; `test_program_examples.py` has their costs."""
        for name in ("fleet", "bench", "shop"):
            with self.subTest(name=name):
                outcome = solved(example(name, "domain.pddl"), example(name, "problem.pddl"))
                self.assertTrue(outcome.files["c"].startswith(b"optplan-cert 3\n"))
