"""Simulations of seeds: plans, bounds and certificates, byte for byte those of `second_machine.py`."""

import itertools

from program import Outcome, ProgramTest, checked, checked_sas, run, translated, validated, wanted
from second_machine import Machine, Table
from second_reading import Task, check_sas
from test_search_gripper import DOMAIN as TWO_HANDS, THREE_BALLS
from texts import GRIP_DOMAIN, GRIP_PROBLEM, GRIP_SAS


def operator_names(sas):
    """Returns the names of a task's operators, in order."""
    lines = sas.splitlines()
    return [name for keyword, name in zip(lines, lines[1:]) if keyword == "begin_operator"]


def text_of(lines):
    return "".join(line + "\n" for line in lines).encode()


class Square(ProgramTest):
    """Four places: from a to b and to c, and from each of these to d, the goal; each step costs 1. The search has no
    tables."""

    SAS = (
        "begin_version\n3\nend_version\nbegin_metric\n0\nend_metric\n1\n"
        "begin_variable\nvar0\n-1\n4\nAtom at(a)\nAtom at(b)\nAtom at(c)\nAtom at(d)\nend_variable\n"
        "0\nbegin_state\n0\nend_state\nbegin_goal\n1\n0 3\nend_goal\n4\n"
        "begin_operator\ngo a b\n0\n1\n0 0 0 1\n1\nend_operator\n"
        "begin_operator\ngo a c\n0\n1\n0 0 0 2\n1\nend_operator\n"
        "begin_operator\ngo b d\n0\n1\n0 0 1 3\n1\nend_operator\n"
        "begin_operator\ngo c d\n0\n1\n0 0 2 3\n1\nend_operator\n0\n"
    )
    TASK, NAMES = Task(SAS.encode()), operator_names(SAS)

    # By the number of owners: the seed, the place through which the plan goes, and the number of steps until no work is
    # left. These rows come from another model of the owners, in another language and with its own generator.
    ROWS = {
        3: [
            (0, "b", 23),
            (1, "b", 20),
            (2, "b", 23),
            (3, "b", 21),
            (4, "b", 19),
            (5, "c", 22),
            (6, "b", 22),
            (7, "c", 19),
            (8, "c", 23),
            (9223372036854775807, "c", 23),
        ],
        4: [
            (0, "b", 22),
            (1, "b", 20),
            (5, "c", 18),
            (6, "c", 17),
            (9, "b", 20),
            (9223372036854775807, "c", 20),
        ],
    }

    def simulated(self, workers, seed, *words):
        given = ["solve-sas", "s", "--table", "1", "--workers", str(workers), "--simulate", str(seed), *words]
        return run(*given, "--cert", "c", files={"s": self.SAS})

    def ends_as(self, machine, seed, *words):
        """Fails unless the program ends the simulation of a seed, with these options, as the machine has ended it."""
        text, status = machine.answer(self.NAMES)
        head = ["optplan-cert 2", "sas", f"bound {machine.lower_bound()}", "columns 0"]
        files = {"c": text_of([*head, *machine.closed(), "end"])}
        outcome = self.simulated(len(machine.workers), seed, *words)
        self.assertEqual(outcome, Outcome(out=text.encode(), status=status, files=files))

    def test_all_steps(self):
        for workers, rows in self.ROWS.items():
            for seed, place, steps in rows:
                plan = f"(go a {place})\n(go {place} d)\n; cost = 2 (unit cost)\n"
                with self.subTest(workers=workers, seed=seed):
                    machine = Machine(self.TASK, workers)
                    self.assertEqual(machine.run(seed), steps)
                    self.assertEqual(machine.answer(self.NAMES), (plan, 0))
                    self.ends_as(machine, seed)

    def test_each_number_of_steps(self):
        for workers, rows in self.ROWS.items():
            for seed, _, last in rows[-4:]:
                for steps in range(last + 2):
                    with self.subTest(workers=workers, seed=seed, steps=steps):
                        machine = Machine(self.TASK, workers)
                        self.assertEqual(machine.run(seed, steps), min(steps, last))
                        self.ends_as(machine, seed, "--steps", str(steps))

    def test_search_limits(self):
        for workers in (1, 2, 3):
            for seed in range(20):
                for limit in range(4):
                    with self.subTest(workers=workers, seed=seed, limit=limit):
                        machine = Machine(self.TASK, workers, limit=limit)
                        machine.run(seed)
                        self.ends_as(machine, seed, "--limit", str(limit))

    def test_bounds_are_certified(self):
        # The goal is two steps away: every bound from 0 to 2 occurs, and the second reader accepts its certificate.
        found = set()
        for steps in range(24):
            cert = self.simulated(3, 0, "--steps", str(steps)).files["c"]
            bound = cert.split(b"\n")[2].decode().removeprefix("bound ")
            found.add(bound)
            with self.subTest(steps=steps):
                self.assertEqual(check_sas(self.SAS.encode(), cert), f"accepted {bound}")
                self.is_answered(checked_sas(self.SAS, cert), f"accepted {bound}")
        self.assertEqual(found, {"0", "1", "2"})


class MachineTest(ProgramTest):
    """Tests of the task SAS, whose table over all variables has the exact costs. FILES has it, and the planning task that
    it translates, as `s`, `d` and `p`."""

    SEEDS = range(100)

    @classmethod
    def setUpClass(cls):
        cls.task, cls.names = Task(cls.SAS.encode()), operator_names(cls.SAS)
        cls.table = Table(cls.task)

    def machine(self, workers, seed, **options):
        """Returns the machine after the simulation of a seed, whose heuristic is the table."""
        machine = Machine(self.task, workers, self.table.values.get, **options)
        machine.run(seed)
        return machine

    def ends_as(self, machine, head, *words):
        """Fails unless the program has the machine's answer, with a certificate of this head, the table over all
        variables and the machine's closed states. Returns the answer and the certificate."""
        text, status = machine.answer(self.names)
        cert = text_of([*head, *self.table.lines(), *machine.closed(), "end"])
        outcome = run(*words, "--cert", "c", files=self.FILES)
        self.assertEqual(outcome, Outcome(out=text.encode(), status=status, files={"c": cert}))
        return text, cert

    def costs_by_seeds(self, head, cost):
        """Fails for each seed with which three workers end otherwise than the machine, with a certificate of this head
        for the planning task, or with a plan or a bound of another cost."""
        answers = set()
        for seed in self.SEEDS:
            with self.subTest(seed=seed):
                words = ("solve", "d", "p", "--workers", "3", "--simulate", str(seed))
                answers.add(self.ends_as(self.machine(3, seed), head, *words))
        for text, cert in answers:
            self.assertEqual(validated(self.FILES["d"], self.FILES["p"], text), wanted(f"valid {cost}"))
            self.assertEqual(checked(self.FILES["d"], self.FILES["p"], cert), wanted(f"accepted {cost}"))


class Gripper(MachineTest):
    """A hand brings two balls to the other room, in 36 states at most."""

    SAS = GRIP_SAS
    FILES = {"d": GRIP_DOMAIN, "p": GRIP_PROBLEM, "s": GRIP_SAS}

    # The atoms in the order of their predicates, and a variable for the hand's room, for each ball, and for the free
    # hand.
    ATOMS = ["room p", "room q", "ball x", "ball y", "here p", "here q", "in x p", "in x q", "in y p", "in y q", "free",
             "held x", "held y"]
    VARIABLES = ["0 2 4 5", "0 3 6 7 11", "0 3 8 9 12", "1 1 10"]

    def test_three_workers(self):
        # Each ball is picked up and dropped, and there are two moves there and one back.
        self.costs_by_seeds(["optplan-cert 2", "pddl", "bound 7", "atoms 13", *self.ATOMS, "vars 4", *self.VARIABLES], 7)

    def test_search_limits(self):
        for seed in range(10):
            for limit in range(10):
                with self.subTest(seed=seed, limit=limit):
                    machine = self.machine(2, seed, limit=limit)
                    head = ("optplan-cert 2", "sas", f"bound {machine.lower_bound()}")
                    words = ("solve-sas", "s", "--workers", "2", "--simulate", str(seed), "--limit", str(limit))
                    self.ends_as(machine, head, *words)


ROOMS, BALLS, HANDS = "pq", "xyz", ("left", "right")


def variable(number, values):
    return ["begin_variable", f"var{number}", "-1", f"{len(values)}", *values, "end_variable"]


def group(number, values):
    return ["begin_mutex_group", f"{len(values)}", *(f"{number} {value}" for value in range(len(values))), "end_mutex_group"]


def operator(name, conditions, effects):
    return ["begin_operator", name, f"{len(conditions)}", *conditions, f"{len(effects)}", *effects, "1", "end_operator"]


def three_balls():
    """Returns the finite-domain task of `THREE_BALLS`: the robot's room, the room or the hand of each ball, and whether
    each hand is free."""
    groups = [[f"Atom robot({room})" for room in ROOMS]]
    groups += [[f"Atom at({ball}, {room})" for room in ROOMS] + [f"Atom holds({hand}, {ball})" for hand in HANDS] for ball in BALLS]
    values = groups + [[f"Atom free({hand})", f"NegatedAtom free({hand})"] for hand in HANDS]
    carried = [*itertools.product(enumerate(BALLS, 1), enumerate(ROOMS), enumerate(HANDS))]
    operators = [
        # A move from a room to itself changes nothing.
        operator("move p p", ["0 0"], []), operator("move p q", [], ["0 0 0 1"]),
        operator("move q p", [], ["0 0 1 0"]), operator("move q q", ["0 1"], []),
        *(operator(f"pick {ball} {room} {hand}", [f"0 {at}"], [f"0 {number} {at} {2 + by}", f"0 {4 + by} 0 1"])
          for (number, ball), (at, room), (by, hand) in carried),
        *(operator(f"drop {ball} {room} {hand}", [f"0 {at}"], [f"0 {number} {2 + by} {at}", f"0 {4 + by} -1 0"])
          for (number, ball), (at, room), (by, hand) in carried),
    ]
    parts = [
        ["begin_version", "3", "end_version", "begin_metric", "0", "end_metric", f"{len(values)}"],
        *itertools.starmap(variable, enumerate(values)), [f"{len(groups)}"], *itertools.starmap(group, enumerate(groups)),
        ["begin_state", *"000000", "end_state", "begin_goal", "3", "1 1", "2 1", "3 1", "end_goal", f"{len(operators)}"],
        *operators, ["0"],
    ]
    return text_of(itertools.chain.from_iterable(parts)).decode()


class TwoHands(MachineTest):
    """Two hands bring three balls to the other room, in at most 512 states."""

    SAS = three_balls()
    FILES = {"d": TWO_HANDS, "p": THREE_BALLS, "s": SAS}

    ATOMS = ["robot p", "robot q", "at x p", "at x q", "at y p", "at y q", "at z p", "at z q", "free left", "free right",
             "holds left x", "holds left y", "holds left z", "holds right x", "holds right y", "holds right z"]
    VARIABLES = ["0 2 0 1", "0 4 2 3 10 13", "0 4 4 5 11 14", "0 4 6 7 12 15", "1 1 8", "1 1 9"]

    def test_translation(self):
        self.assertEqual(translated(TWO_HANDS, THREE_BALLS), Outcome(out=self.SAS.encode()))

    def test_three_workers(self):
        # Each ball is picked up and dropped, and there are two moves there and one back.
        self.costs_by_seeds(["optplan-cert 2", "pddl", "bound 9", "atoms 16", *self.ATOMS, "vars 6", *self.VARIABLES], 9)
