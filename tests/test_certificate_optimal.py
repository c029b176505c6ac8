"""Verdicts on a plan and a certificate together, worked out by hand: optimal plans, gaps, plans and certificates that
are refused, and the claim that there is no plan."""

from program import Outcome, ProgramTest, example, run, unread
from texts import DOOR_DOMAIN, DRIVE_DOMAIN, DRIVE_PROBLEM, LOCKED_DOOR, OPEN_DOOR

# The cheapest plan of the drive, at 7, and the direct way, at 8.
CHEAPEST = "(go a b)\n(go b c)\n"
DIRECT = "(go a c)\n"

# The text of a plan file that claims that there is no valid plan.
CLAIM = "unsolvable\n"

# A certificate for the drive: a at cost 0 and b at cost 3 were expanded, without a heuristic. Operators 0 and 1 go from a
# to b, which is closed at 3, and to c, at 8; operator 2 goes from b to c, at 7.
CLOSED = """optplan-cert 2
pddl
bound {}
atoms 6
at a
at b
at c
road a b
road a c
road b c
vars 1
0 3 0 1 2
columns 0
closed 2
0 0
3 1
end
"""
EXACT = CLOSED.format(7)
TOO_HIGH = CLOSED.format(8)
FOR_NO_PLAN = CLOSED.format("inf")

# A certificate for the locked door: the initial state, in which no operator applies, is the only one.
LOCKED = "optplan-cert 1\npddl\nbound inf\natoms 2\nin\nlocked d\nvars 2\n1 1 0\n1 1 1\ncolumns 0\nclosed 1\n0 1 0\nend\n"

# A certificate of the other kind, which is read without a fault.
FINITE_DOMAIN = "optplan-cert 1\nsas\nbound 2\ncolumns 0\nclosed 1\n0 0\nend\n"


def judged(domain, problem, plan, cert):
    """Returns the outcome of the judgement of a plan by a certificate over these texts."""
    return run("optimal", "d", "p", "l", "c", files={"d": domain, "p": problem, "l": plan, "c": cert})


def refused(fault):
    """Returns the outcome if a text has this fault."""
    return Outcome(err=f"optplan: {fault}\n".encode(), status=1)


class Verdicts(ProgramTest):
    """The line and the exit status for a plan and a certificate."""

    # The plan and the certificate for the drive, the line, and the exit status.
    VALID_ROWS = [
        (CHEAPEST, EXACT, "optimal 7", 0),
        # A plan that is not the cheapest; certificates of lesser bounds; and both.
        (DIRECT, EXACT, "valid 8, at least 7", 3),
        (CHEAPEST, CLOSED.format(5), "valid 7, at least 5", 3),
        (CHEAPEST, CLOSED.format(0), "valid 7, at least 0", 3),
        (CHEAPEST, example("drive", "classes.cert"), "valid 7, at least 4", 3),
        (DIRECT, example("drive", "classes.cert"), "valid 8, at least 4", 3),
        # No certificate is accepted for more than a valid plan costs.
        (CHEAPEST, TOO_HIGH, "valid 7, rejected C8 state 1 op 2", 3),
        (DIRECT, TOO_HIGH, "valid 8, rejected C8 state 1 op 2", 3),
        (CHEAPEST, CLOSED.format(9), "valid 7, rejected C8 state 0 op 1", 3),
        (CHEAPEST, FOR_NO_PLAN, "valid 7, rejected C8 state 0 op 1", 3),
        (CHEAPEST, example("drive", "classes.cert").replace("bound 4", "bound 5"), "valid 7, rejected C6", 3),
        # Clauses C1 and C2, of planning tasks alone.
        (CHEAPEST, EXACT.replace("road b c", "road c b"), "valid 7, rejected C1 atom (road b c)", 3),
        (CHEAPEST, EXACT.replace("vars 1\n0 3 0 1 2", "vars 1\n0 2 0 1"), "valid 7, rejected C2 var 0", 3),
        # A plan as `solve` writes it, and one with other case and blanks.
        (example("drive", "plan.txt"), EXACT, "optimal 7", 0),
        ("( GO A B)(go\tb c) ; and no more", EXACT, "optimal 7", 0),
        # Plans as other tools write them: after the line of a limit, with the cost in a comment, with time stamps and
        # durations.
        ("limit 5\n" + CHEAPEST, EXACT, "optimal 7", 0),
        (CHEAPEST + "; cost = 7 (general cost)\n", EXACT, "optimal 7", 0),
        ("0: (go a b)\n1: (go b c)\n", EXACT, "optimal 7", 0),
        ("9.5: (go a b) [3.0]\n10.25: (go b c)  [4]\n", EXACT, "optimal 7", 0),
        ("limit 5\n0.0: (go a c) [8.000]\n", EXACT, "valid 8, at least 7", 3),
    ]

    # Plans that are not valid, with the line that `validate` prints.
    INVALID_ROWS = [
        ("(go b c)", "not applicable 1 (at b)"),
        ("(go a b)(go a c)", "not applicable 2 (at a)"),
        ("(go a b)", "goal open (at c)"),
        ("", "goal open (at c)"),
        ("(fly a c)", "no such action 1"),
        ("(go a b)(go b a)", "no such action 2"),
        # This is a step, and no claim.
        ("(unsolvable)", "no such action 1"),
    ]

    # Certificates that are accepted, that are rejected, and that cannot be read.
    CERTIFICATES = [EXACT, TOO_HIGH, FINITE_DOMAIN, "optplan-cert 1\n", "", "x\n"]

    # The domain, the problem, the certificate, the line, and the exit status, if the plan's text is the claim.
    CLAIM_ROWS = [
        (DOOR_DOMAIN, LOCKED_DOOR, LOCKED, "unsolvable", 4),
        (DOOR_DOMAIN, LOCKED_DOOR, LOCKED.replace("inf", "3"), "at least 3", 3),
        (DOOR_DOMAIN, LOCKED_DOOR, LOCKED.replace("closed 1\n0 1 0\n", "closed 0\n"), "rejected C6", 3),
        # The open door can be entered: the certificate lacks the initial state or, if it is listed, the next one.
        (DOOR_DOMAIN, OPEN_DOOR, LOCKED, "rejected C6", 3),
        (DOOR_DOMAIN, OPEN_DOOR, LOCKED.replace("0 1 0\n", "0 1 1\n"), "rejected C8 state 0 op 0", 3),
        (DRIVE_DOMAIN, DRIVE_PROBLEM, EXACT, "at least 7", 3),
        (DRIVE_DOMAIN, DRIVE_PROBLEM, CLOSED.format(0), "at least 0", 3),
        (DRIVE_DOMAIN, DRIVE_PROBLEM, FOR_NO_PLAN, "rejected C8 state 0 op 1", 3),
        (DRIVE_DOMAIN, DRIVE_PROBLEM, TOO_HIGH, "rejected C8 state 1 op 2", 3),
    ]

    # Texts that are not the line, and the fault of the plan that they are.
    NO_CLAIMS = [
        ("Unsolvable\n", "F25 PlanShape plan 0"),
        ("unsolvable\n\n", "F25 PlanShape plan 0"),
        ("unsolvable\r\n", "F25 PlanShape plan 0"),
        ("unsolvable ", "F25 PlanShape plan 0"),
        (" unsolvable", "F25 PlanShape plan 1"),
        ("; none\nunsolvable\n", "F25 PlanShape plan 7"),
        ("unsolvable ; none", "F25 PlanShape plan 0"),
        ("unsolvable\n(go a c)", "F25 PlanShape plan 0"),
    ]

    def prints(self, texts, line, status):
        """Fails, and names the row, unless the judgement of these texts prints this line and ends with this status."""
        with self.subTest(problem=texts[1], plan=texts[2], cert=texts[3]):
            self.assertEqual(judged(*texts), Outcome(out=f"{line}\n".encode(), status=status))

    def test_valid_plans(self):
        for plan, cert, line, status in self.VALID_ROWS:
            self.prints((DRIVE_DOMAIN, DRIVE_PROBLEM, plan, cert), line, status)

    def test_examples_in_files(self):
        domain, problem, plan = (example("lamp", name) for name in ("domain.pddl", "problem.pddl", "plan.txt"))
        for name in ("closed.cert", "tables.cert"):
            self.prints((domain, problem, plan, example("lamp", name)), "optimal 2", 0)
        domain, problem = example("road", "domain.pddl"), example("road", "problem.pddl")
        self.prints((domain, problem, CHEAPEST, example("road", "planning.cert")), "optimal 2", 0)

    def test_certificates_are_not_judged_if_the_plan_is_not_valid(self):
        for plan, line in self.INVALID_ROWS:
            for cert in self.CERTIFICATES:
                self.prints((DRIVE_DOMAIN, DRIVE_PROBLEM, plan, cert), line, 3)

    def test_claims(self):
        for domain, problem, cert, line, status in self.CLAIM_ROWS:
            for claim in (CLAIM, CLAIM.rstrip("\n")):
                self.prints((domain, problem, claim, cert), line, status)

    def test_texts_that_are_no_claims(self):
        for plan, fault in self.NO_CLAIMS:
            with self.subTest(plan=plan):
                self.assertEqual(judged(DOOR_DOMAIN, LOCKED_DOOR, plan, LOCKED), refused(fault))


class Faults(ProgramTest):
    """Texts that are refused, in the order domain, problem, plan, certificate, and files that cannot be read."""

    # The domain, the problem, the plan, the certificate, and the fault.
    ROWS = [
        ("", "", "x", "x\n", "F6 Empty domain"),
        (DRIVE_DOMAIN, "", "x", "x\n", "F6 Empty problem"),
        (DRIVE_DOMAIN, DRIVE_PROBLEM, "x", "x\n", "F25 PlanShape plan 0"),
        (DRIVE_DOMAIN, DRIVE_PROBLEM, CHEAPEST, "x\n", "F50 Header cert"),
        (DRIVE_DOMAIN, DRIVE_PROBLEM, CLAIM, "x\n", "F50 Header cert"),
        # A claim has no fault of its own, and comes after the faults of the task.
        ("", DRIVE_PROBLEM, CLAIM, EXACT, "F6 Empty domain"),
        (DRIVE_DOMAIN, "", CLAIM, EXACT, "F6 Empty problem"),
        (DRIVE_DOMAIN, DRIVE_PROBLEM, "(go a b", EXACT, "F2 Unclosed plan 0"),
        # A time stamp that is not greater than the one before it, and the line of a limit that is not the first.
        (DRIVE_DOMAIN, DRIVE_PROBLEM, "0: (go a b)\n0.0: (go b c)\n", EXACT, "F25 PlanShape plan 12"),
        (DRIVE_DOMAIN, DRIVE_PROBLEM, "(go a b)\nlimit 5\n(go b c)\n", EXACT, "F25 PlanShape plan 9"),
        # A certificate of the other kind, without its last line, and with a line after it.
        (DRIVE_DOMAIN, DRIVE_PROBLEM, CHEAPEST, FINITE_DOMAIN, "F51 Expected cert 2"),
        (DRIVE_DOMAIN, DRIVE_PROBLEM, CLAIM, FINITE_DOMAIN, "F51 Expected cert 2"),
        (DRIVE_DOMAIN, DRIVE_PROBLEM, CHEAPEST, EXACT.replace("end\n", ""), "F53 Truncated cert"),
        (DRIVE_DOMAIN, DRIVE_PROBLEM, CHEAPEST, EXACT + "\n", "F54 Trailing cert 18"),
        # The word of F11 is the one in the text.
        ("(define (domain x) (:derived (p) (q)))", "", "x", "x\n", "F11 Unsupported :derived domain 20"),
    ]

    # The names of the four files, and the word of the one that cannot be read.
    MISSING_ROWS = [
        (["gone", "p", "l", "c"], "domain"),
        (["d", "gone", "l", "c"], "problem"),
        (["d", "p", "gone", "c"], "plan"),
        (["d", "p", "l", "gone"], "cert"),
        (["gone", "gone", "gone", "gone"], "domain"),
        (["d", "gone", "gone", "gone"], "problem"),
        (["d", "p", "gone", "gone"], "plan"),
        # All files are read before any text is parsed, that of the certificate too if the plan is not valid.
        (["x", "x", "x", "gone"], "cert"),
        (["d", "p", "open", "gone"], "cert"),
        (["", "p", "l", "c"], "domain"),
    ]

    FILES = {"d": DRIVE_DOMAIN, "p": DRIVE_PROBLEM, "l": CHEAPEST, "c": EXACT, "x": "x", "open": "(go a b)"}

    def test_faults(self):
        for *texts, fault in self.ROWS:
            with self.subTest(texts=texts):
                self.assertEqual(judged(*texts), refused(fault))

    def test_files_that_are_not_there(self):
        for names, word in self.MISSING_ROWS:
            with self.subTest(names=names):
                self.assertEqual(run("optimal", *names, files=self.FILES), unread(word))


class Words(ProgramTest):
    """The arguments of the command."""

    FILES = {"d": DRIVE_DOMAIN, "-x": DRIVE_DOMAIN, "p": DRIVE_PROBLEM, "l": CHEAPEST, "c": EXACT, "--help": EXACT, "optimal": CHEAPEST}

    WRONG_ROWS = [
        [],
        ["d"],
        ["d", "p"],
        ["d", "p", "l"],
        ["d", "p", "l", "c", "c"],
        ["--quiet", "d", "p", "l", "c"],
        ["d", "p", "l", "c", "--quiet"],
        ["-x", "p", "l", "c"],
        ["d", "p", "l", "-x"],
    ]

    NAME_ROWS = [
        ["d", "p", "l", "c"],
        ["--", "-x", "p", "l", "c"],
        ["d", "p", "l", "--", "--help"],
        ["./-x", "p", "l", "c"],
        ["d", "p", "optimal", "c"],
    ]

    HELP = ["Usage: optplan optimal [OPTIONS] <DOMAIN> <PROBLEM> <PLAN> <CERT>", "optimal N", "valid N, at least B", "valid N, rejected CLAUSE PLACE",
            "unsolvable", "at least B"]

    def test_misuse(self):
        for words in (*(["optimal", *it] for it in self.WRONG_ROWS), ["Optimal", "d", "p", "l", "c"], ["d", "p", "l", "c"]):
            with self.subTest(words=words):
                outcome = run(*words, files=self.FILES)
                self.assertEqual((outcome.out, outcome.status), (b"", 2))
                self.assertTrue(outcome.err, "nothing is reported")

    def test_names_of_files(self):
        for words in self.NAME_ROWS:
            with self.subTest(words=words):
                self.assertEqual(run("optimal", *words, files=self.FILES), Outcome(out=b"optimal 7\n"))

    def test_help(self):
        for words in (["--help"], ["d", "--help"]):
            with self.subTest(words=words):
                outcome = run("optimal", *words)
                for text in self.HELP:
                    self.assertIn(text, outcome.out.decode())
                self.assertEqual((outcome.err, outcome.status), (b"", 0))

    def test_commands_in_the_help(self):
        self.assertIn("optimal", run("--help").out.decode())
