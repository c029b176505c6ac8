"""Tasks at the limits of grounding and translation, 262,144 atoms, 1,048,576 actions and 65,536 variables, and past
them."""

from program import ProgramTest, checked, run, translated
from texts import ROAD_DOMAIN, ROAD_PROBLEM

# An action with an atom of its own for each pair of objects; it has no precondition.
PAIRS = "(define (domain pairs) (:predicates (p ?x ?y)) (:action add :parameters (?x ?y) :effect (p ?x ?y)))"

# An action for each pair of objects, all of which add the same atom.
ONE_ATOM = "(define (domain one) (:predicates (q)) (:action add :parameters (?x ?y) :effect (q)))"

# A certificate for `ONE_ATOM` with this atom, in a variable of its own.
CERTIFICATE = "optplan-cert 1\npddl\nbound 0\natoms 1\n{atom}\nvars 1\n1 1 0\ncolumns 0\nclosed 0\nend\n"
WITHOUT_ATOMS = "optplan-cert 1\npddl\nbound 0\natoms 0\nvars 0\ncolumns 0\nclosed 0\nend\n"


def problem(count, initial=""):
    """Returns a problem of this many objects, with an empty goal."""
    objects = " ".join(f"o{number}" for number in range(count))
    return f"(define (problem p) (:objects {objects}) (:init {initial}) (:goal ()))"


class GroundingLimits(ProgramTest):
    """Tasks of `translate` and `solve`, and certificates of `check`."""

    def refuses(self, domain, text, fault):
        """Fails unless both commands that ground a task print this fault."""
        self.is_answered(translated(domain, text), fault, command="translate")
        self.is_answered(run("solve", "d", "p", files={"d": domain, "p": text}), fault, command="solve")

    def test_atoms(self):
        # 512 squared is 262,144: each atom has a variable then, since no action makes another one false
        self.refuses(PAIRS, problem(512), "F18 Limit variables")
        self.refuses(PAIRS, problem(513), "F20 GroundLimit")

    def test_actions(self):
        # 1,025 squared is 1,050,625
        self.refuses(ONE_ATOM, problem(1025), "F20 GroundLimit")

    def test_actions_of_a_certificate(self):
        # The limit is tested after the atoms were found in the task, and before they must include the initial ones.
        # 1,024 squared is 1,048,576.
        self.is_answered(checked(ONE_ATOM, problem(1025), CERTIFICATE.format(atom="r")), "rejected C1 atom (r)")
        self.is_answered(checked(ONE_ATOM, problem(1025), CERTIFICATE.format(atom="q")), "F20 GroundLimit")
        self.is_answered(checked(ONE_ATOM, problem(1025, "(q)"), WITHOUT_ATOMS), "F20 GroundLimit")
        self.is_answered(checked(ONE_ATOM, problem(1024, "(q)"), WITHOUT_ATOMS), "rejected C1 atom (q)")

    def test_atoms_of_a_certificate(self):
        # They are counted before they are compared: one atom is listed many times.
        for count, answer in ((262_144, "rejected C1 atom (at a)"), (262_145, "F20 GroundLimit")):
            head, rest = f"optplan-cert 1\npddl\nbound 0\natoms {count}\n", "vars 0\ncolumns 0\nclosed 0\nend\n"
            self.is_answered(checked(ROAD_DOMAIN, ROAD_PROBLEM, head + "at a\n" * count + rest), answer, count=count)
