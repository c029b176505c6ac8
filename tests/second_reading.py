"""A second reader of finite-domain tasks and of certificates, and a second checker, written from docs/FORMATS.md and
docs/FAULTS.md: what `check-sas` prints for two texts. It is slow and simple, and shares nothing with the program.
"""

import itertools
import math
import re

MAX_TOTAL = 2**62
MAX_STATES = 2**24
MAX_WORD = 2**32 - 1
MAX_COST = 2**31 - 1


class Fault(Exception):
    """The line of a fault, without the program's name."""


# ---- finite-domain tasks


class TaskReader:
    """The lines of an `output.sas`, without the blanks and carriage returns at their ends."""

    def __init__(self, text):
        lines = text.split(b"\n")
        self.lines = [it.rstrip(b" \r") for it in (lines[:-1] if lines[-1] == b"" else lines)]
        self.place = 0

    def fault(self, name):
        return Fault(f"{name} sas {self.place}")

    def line(self):
        if self.place == len(self.lines):
            raise Fault("F45 Truncated sas")
        self.place += 1
        return self.lines[self.place - 1]

    def keyword(self, word):
        if self.line() != word:
            raise self.fault("F41 Expected")

    def text(self):
        line = self.line()
        if any(it != 9 and not 32 <= it <= 126 for it in line):
            raise self.fault("F41 Expected")
        return line

    def numbers(self, count):
        return self.numbers_of([it for it in self.line().split(b" ") if it], count)

    def numbers_of(self, words, count):
        if len(words) != count or not all(re.fullmatch(rb"-?[0-9]+", it) for it in words):
            raise self.fault("F41 Expected")
        return [int(it) for it in words]

    def number(self, least, most, name="F42 Range"):
        (found,) = self.numbers(1)
        if not least <= found <= most:
            raise self.fault(name)
        return found

    def count(self, most=None, table=None):
        found = self.number(0, math.inf)
        if most is not None and found > most:
            raise Fault(f"F18 Limit {table}")
        return found

    def pair(self, ranges):
        variable, value = self.numbers(2)
        self.in_range(ranges, variable, value)
        return variable, value

    def in_range(self, ranges, variable, value):
        if not (0 <= variable < len(ranges) and 0 <= value < ranges[variable]):
            raise self.fault("F42 Range")

    def facts(self, ranges, named):
        found = []
        for _ in range(self.count()):
            fact = self.pair(ranges)
            self.name(named, fact[0])
            found.append(fact)
        return found

    def name(self, named, variable):
        if variable in named:
            raise self.fault("F42 Range")
        named.add(variable)

    def effect(self, ranges):
        words = [it for it in self.line().split(b" ") if it]
        if words and re.fullmatch(rb"-?[0-9]+", words[0]) and int(words[0]) > 0:
            raise self.fault("F44 ConditionalEffect")
        conditions, variable, before, after = self.numbers_of(words, 4)
        if conditions != 0:
            raise self.fault("F42 Range")
        if before != -1:
            self.in_range(ranges, variable, before)
        self.in_range(ranges, variable, after)
        return variable, before, after

    def variable(self):
        self.keyword(b"begin_variable")
        self.text()
        self.number(-1, -1, "F43 Axioms")
        values = self.number(1, math.inf)
        if values > 65536:
            raise Fault("F18 Limit values")
        for _ in range(values):
            self.text()
        self.keyword(b"end_variable")
        return values

    def group(self, ranges):
        self.keyword(b"begin_mutex_group")
        for _ in range(self.count()):
            self.pair(ranges)
        self.keyword(b"end_mutex_group")

    def operator(self, ranges):
        self.keyword(b"begin_operator")
        self.text()
        named = set()
        conditions, changes = self.facts(ranges, named), []
        for _ in range(self.count()):
            variable, before, after = self.effect(ranges)
            self.name(named, variable)
            conditions += [(variable, before)] if before != -1 else []
            changes.append((variable, after))
        cost = self.number(0, MAX_COST)
        self.keyword(b"end_operator")
        return conditions, changes, cost


class Task:
    """A finite-domain task: the ranges of variables, the initial state, the goal, and operators (conditions, changes,
    cost)."""

    def __init__(self, text):
        it = TaskReader(text)
        it.keyword(b"begin_version")
        it.number(3, 3, "F40 Version")
        it.keyword(b"end_version")
        it.keyword(b"begin_metric")
        metric = it.number(0, 1)
        it.keyword(b"end_metric")
        self.ranges = [it.variable() for _ in range(it.count(65536, "variables"))]
        for _ in range(it.count()):
            it.group(self.ranges)
        it.keyword(b"begin_state")
        self.initial = tuple(it.number(0, values - 1) for values in self.ranges)
        it.keyword(b"end_state")
        it.keyword(b"begin_goal")
        self.goal = it.facts(self.ranges, set())
        it.keyword(b"end_goal")
        self.operators = [it.operator(self.ranges) for _ in range(it.count(MAX_WORD, "operators"))]
        if not metric:
            self.operators = [(conditions, changes, 1) for conditions, changes, _ in self.operators]
        it.number(0, 0, "F43 Axioms")
        for line in it.lines[it.place:]:
            it.place += 1
            if line:
                raise it.fault("F46 Trailing")


# ---- certificates


def number_of(word, most):
    """Returns the number that a word spells, or None if it spells none or one above `most`."""
    return int(word) if re.fullmatch(rb"0|[1-9][0-9]*", word) and int(word) <= most else None


def is_misnumbered(classes):
    """Returns whether a class neither occurs earlier nor is the least number that does not."""
    return any(it > max(classes[:place], default=-1) + 1 for place, it in enumerate(classes))


class CertificateReader:
    """The lines of a certificate. The order of faults on one line is F53, F51, F52, F55, F57."""

    def __init__(self, text):
        self.text, self.at, self.place, self.version = text, 0, 0, None

    def fault(self, name):
        return Fault(f"{name} cert {self.place}")

    def line(self):
        end = self.text.find(b"\n", self.at)
        if end < 0:
            raise Fault("F53 Truncated cert")
        line, self.at, self.place = self.text[self.at:end], end + 1, self.place + 1
        return line

    def words(self):
        words = self.line().split(b" ")
        if b"" in words:
            raise self.fault("F51 Expected")
        return words

    def number(self, word, most, least=0):
        found = number_of(word, most)
        if found is None or found < least:
            raise self.fault("F52 Number")
        return found

    def numbers(self, words, most, least=0):
        return [self.number(it, most, least) for it in words]

    def value(self, word, most):
        return math.inf if word == b"inf" else self.number(word, most)

    def keyword(self, word, most, least=0, with_infinite=False):
        """Reads a line of a keyword and a number, and returns the number."""
        words = self.words()
        if len(words) != 2 or words[0] != word:
            raise self.fault("F51 Expected")
        return self.value(words[1], most) if with_infinite else self.number(words[1], most, least)

    def counted(self, words, at, each):
        """Tests that the word at a position, if it spells a number, is the number of groups of `each` words after
        it."""
        if len(words) <= at:
            raise self.fault("F51 Expected")
        count = number_of(words[at], math.inf)
        if count is not None and len(words) != at + 1 + count * each:
            raise self.fault("F51 Expected")

    def list(self, word, each):
        """Reads a line of a keyword, a count and that many groups of `each` words. Returns the count and these
        words."""
        words = self.words()
        if words[0] != word:
            raise self.fault("F51 Expected")
        self.counted(words, 1, each)
        return words[1], words[2:]

    def increase(self, numbers):
        if any(x >= y for x, y in zip(numbers, numbers[1:])):
            raise self.fault("F55 Order")
        return numbers

    def atom(self):
        if any(not 33 <= it <= 126 for word in self.words() for it in word):
            raise self.fault("F51 Expected")

    def variable(self, atoms):
        words = self.words()
        self.counted(words, 1, 1)
        self.number(words[0], 1)
        self.number(words[1], MAX_WORD, 1)
        self.increase(self.numbers(words[2:], atoms - 1))

    def pattern(self):
        """Reads a pattern, and returns its variables, each without classes."""
        count, rest = self.list(b"table", 1)
        self.number(count, MAX_WORD, 1)
        return [(variable, None) for variable in self.increase(self.numbers(rest, MAX_WORD))]

    def rows(self):
        """Reads the rows of a domain abstraction: variables, each with the class of each of its values."""
        found = []
        for _ in range(self.keyword(b"domain", MAX_WORD, 1)):
            words = self.words()
            self.counted(words, 1, 1)
            variable, _ = self.number(words[0], MAX_WORD), self.number(words[1], MAX_WORD, 1)
            classes = self.numbers(words[2:], MAX_WORD)
            self.increase([it for it, _ in found[-1:]] + [variable])
            if is_misnumbered(classes):
                raise self.fault("F57 Classes")
            found.append((variable, classes))
        return found

    def class_rows(self):
        """Reads the classes of the values of all variables of a task: two values of some variable share a class."""
        count, found, shared = self.keyword(b"classes", MAX_WORD, 1), [], False
        for number in range(count):
            words = self.words()
            self.counted(words, 0, 1)
            self.number(words[0], MAX_WORD, 1)
            classes = self.numbers(words[1:], MAX_WORD)
            shared = shared or len(set(classes)) < len(classes)
            if is_misnumbered(classes) or number == count - 1 and not shared:
                raise self.fault("F57 Classes")
            found.append(classes)
        return found

    def table(self):
        has_rows = self.version >= 2 and self.text[self.at:self.at + 7] in (b"domain ", b"domain\n")
        mapping = self.rows() if has_rows else self.pattern()
        count, rest = self.list(b"shares", 2)
        self.number(count, MAX_WORD)
        operators, shares = self.numbers(rest[::2], MAX_WORD), self.numbers(rest[1::2], MAX_COST, 1)
        self.increase(operators)
        count, rest = self.list(b"values", 1)
        self.number(count, MAX_STATES)
        return mapping, dict(zip(operators, shares)), [self.value(it, 2**55) for it in rest]

    def closed(self):
        found, width = [], None
        for _ in range(self.keyword(b"closed", MAX_WORD)):
            words = self.words()
            width = len(words) if width is None else width
            if len(words) != width:
                raise self.fault("F51 Expected")
            found.append((self.number(words[0], MAX_TOTAL), tuple(self.numbers(words[1:], MAX_WORD))))
        return found


class Certificate:
    """A certificate's kind, bound, classes of the values of the task's variables (None before version 3), columns (lists
    of tables: variables with classes or None, shares, values) and closed states with their costs."""

    def __init__(self, text):
        it = CertificateReader(text)
        it.version = {b"optplan-cert 1": 1, b"optplan-cert 2": 2, b"optplan-cert 3": 3}.get(it.line())
        if it.version is None:
            raise Fault("F50 Header cert")
        self.kind = it.line()
        if self.kind not in (b"pddl", b"sas"):
            raise it.fault("F51 Expected")
        self.bound = it.keyword(b"bound", MAX_TOTAL, with_infinite=True)
        if self.kind == b"pddl":
            atoms = it.keyword(b"atoms", MAX_WORD)
            for _ in range(atoms):
                it.atom()
            for _ in range(it.keyword(b"vars", MAX_WORD)):
                it.variable(atoms)
        self.classes = it.class_rows() if it.version == 3 else None
        self.columns = [[it.table() for _ in range(it.keyword(b"column", 64, 1))] for _ in range(it.keyword(b"columns", 64))]
        self.closed = it.closed()
        if it.line() != b"end":
            raise it.fault("F51 Expected")
        if it.at < len(text):
            it.place += 1
            raise it.fault("F54 Trailing")


# ---- the clauses


def agrees(state, facts):
    return all(state[variable] == value for variable, value in facts)


def successor(state, changes):
    found = list(state)
    for variable, value in changes:
        found[variable] = value
    return tuple(found)


def abstract_states(ranges):
    """Returns the combinations of values; those of the first variable change fastest."""
    return [it[::-1] for it in itertools.product(*(range(values) for values in reversed(ranges)))]


class ReducedTask:
    """A task whose values are the classes of another task's values, without the variables that have one class."""

    def __init__(self, task, rows):
        stay = [variable for variable, row in enumerate(rows) if max(row) > 0]
        numbers = {variable: number for number, variable in enumerate(stay)}
        facts = lambda them: [(numbers[variable], rows[variable][value]) for variable, value in them if variable in numbers]
        self.ranges = [max(rows[it]) + 1 for it in stay]
        self.initial = tuple(rows[it][task.initial[it]] for it in stay)
        self.goal = facts(task.goal)
        self.operators = [(facts(conditions), facts(changes), cost) for conditions, changes, cost in task.operators]


class Check:
    """The first clause of a certificate that fails for a task, with its place, or None."""

    def __init__(self, task, certificate):
        self.task, self.certificate = task, certificate

    def answer(self):
        failed = next((it for it in map(next, self.clauses(), itertools.repeat(None)) if it), None)
        if failed:
            return f"rejected {failed}"
        return "accepted unsolvable" if self.certificate.bound == math.inf else f"accepted {self.certificate.bound}"

    def clauses(self):
        return [self.rows(), self.shares(), self.tables(), self.states(), self.start(), self.goals(), self.successors()]

    def rows(self):
        """Tests the classes of version 3. If they fit the task, the other clauses are about the reduced one."""
        rows, ranges = self.certificate.classes, self.task.ranges
        if rows is None:
            return
        for number in range(max(len(rows), len(ranges))):
            if number >= min(len(rows), len(ranges)) or len(rows[number]) != ranges[number]:
                yield f"C0 var {number}"
        self.task = ReducedTask(self.task, rows)

    def shares(self):
        for number, column in enumerate(self.certificate.columns):
            for operator in sorted({it for _, shares, _ in column for it in shares}):
                cost = self.task.operators[operator][2] if operator < len(self.task.operators) else 0
                if sum(shares.get(operator, 0) for _, shares, _ in column) > cost:
                    yield f"C3 column {number} op {operator}"

    def tables(self):
        for number, column in enumerate(self.certificate.columns):
            for place, table in enumerate(column):
                for it in self.falls(*table):
                    yield f"C4 column {number} table {place}{it}"

    def classes(self, mapping):
        """Returns, for each variable, the class of each of its values; without classes each value is its own."""
        return [list(range(self.task.ranges[variable])) if classes is None else classes for variable, classes in mapping]

    def falls(self, mapping, shares, values):
        if any(variable >= len(self.task.ranges) for variable, _ in mapping) or \
                any(len(it) != self.task.ranges[variable] for it, (variable, _) in zip(self.classes(mapping), mapping)) or \
                math.prod(max(it) + 1 for it in self.classes(mapping)) != len(values):
            yield ""
            return
        classes = self.classes(mapping)
        places = {variable: place for place, (variable, _) in enumerate(mapping)}
        within = lambda facts: [(places[variable], classes[places[variable]][value]) for variable, value in facts if variable in places]
        states = abstract_states([max(it) + 1 for it in classes])
        numbers = {state: number for number, state in enumerate(states)}
        for number, state in enumerate(states):
            if agrees(state, within(self.task.goal)) and values[number] != 0:
                yield f" state {number}"
        for number, state in enumerate(states):
            for operator, (conditions, changes, _) in enumerate(self.task.operators):
                if agrees(state, within(conditions)):
                    after = numbers[successor(state, within(changes))]
                    if values[number] > values[after] + shares.get(operator, 0):
                        yield f" state {number} op {operator}"

    def states(self):
        before = None
        for number, (_, state) in enumerate(self.certificate.closed):
            if len(state) != len(self.task.ranges) or any(x >= values for x, values in zip(state, self.task.ranges)) or \
                    (before is not None and state <= before):
                yield f"C5 state {number}"
            before = state

    def value(self, state):
        """Returns the heuristic value of a state."""
        def of_table(mapping, _, values):
            place, weight = 0, 1
            for (variable, _), classes in zip(mapping, self.classes(mapping)):
                place, weight = place + classes[state[variable]] * weight, weight * (max(classes) + 1)
            return values[place]

        return max((sum(of_table(*table) for table in column) for column in self.certificate.columns), default=0)

    def start(self):
        if not any(it == (0, self.task.initial) for it in self.certificate.closed) and self.value(self.task.initial) < self.certificate.bound:
            yield "C6"

    def goals(self):
        for number, (cost, state) in enumerate(self.certificate.closed):
            if agrees(state, self.task.goal) and cost < self.certificate.bound:
                yield f"C7 state {number}"

    def successors(self):
        costs = {state: cost for cost, state in self.certificate.closed}
        for number, (cost, state) in enumerate(self.certificate.closed):
            for operator, (conditions, changes, by) in enumerate(self.task.operators):
                if agrees(state, conditions):
                    after = successor(state, changes)
                    if costs.get(after, math.inf) > cost + by and cost + by + self.value(after) < self.certificate.bound:
                        yield f"C8 state {number} op {operator}"


def check_sas(sas, certificate):
    """Returns what `check-sas` is to print for two texts: the line of its verdict or of the fault."""
    try:
        task, read = Task(sas), Certificate(certificate)
        if read.kind != b"sas":
            raise Fault("F51 Expected cert 2")
        return Check(task, read).answer()
    except Fault as fault:
        return str(fault)


def certificate_fault(text):
    """Returns the line of a certificate's fault, or None if it can be read."""
    try:
        Certificate(text)
        return None
    except Fault as fault:
        return str(fault)
