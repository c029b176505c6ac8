"""A second machine of owners, written from the rules of simulations: which plan, bound and certificate a search of a
finite-domain task has for a seed. It is slow and simple, and shares nothing with the program.
"""

import dataclasses
import math

from second_reading import abstract_states, agrees, successor

WORD = 2**64 - 1


class SplitMix64:
    """The generator of Steele, Lea and Flood (2014)."""

    def __init__(self, state):
        self.state = state

    def next(self):
        self.state = self.state + 0x9E3779B97F4A7C15 & WORD
        word = self.state
        word = (word ^ word >> 30) * 0xBF58476D1CE4E5B9 & WORD
        word = (word ^ word >> 27) * 0x94D049BB133111EB & WORD
        return word ^ word >> 31


class Xoshiro256PlusPlus:
    """The generator of Blackman and Vigna (2021), whose state is the first four words of SplitMix64."""

    def __init__(self, seed):
        words = SplitMix64(seed)
        self.state = [words.next() for _ in range(4)]

    def next(self):
        a, b, c, d = self.state
        word = rotated(a + d & WORD, 23) + a & WORD
        c, d = c ^ a, d ^ b
        self.state = [a ^ d, b ^ c, c ^ (b << 17 & WORD), rotated(d, 45)]
        return word


def rotated(word, bits):
    return (word << bits | word >> 64 - bits) & WORD


class Table:
    """The table of the projection to all variables of a task, under its full costs: the least cost from each state to a
    goal, and how much of each operator's cost this takes."""

    def __init__(self, task):
        states = abstract_states(task.ranges)
        steps = [(state, number, successor(state, changes), cost)
                 for number, (conditions, changes, cost) in enumerate(task.operators)
                 for state in states if agrees(state, conditions)]
        self.values = {state: 0 if agrees(state, task.goal) else math.inf for state in states}
        for _ in states:
            for state, _, after, cost in steps:
                self.values[state] = min(self.values[state], cost + self.values[after])
        self.shares = dict.fromkeys(range(len(task.operators)), 0)
        for state, number, after, _ in steps:
            if self.values[after] < math.inf:
                self.shares[number] = max(self.shares[number], self.values[state] - self.values[after])

    def lines(self):
        """Returns the certificate's lines of one column of this table."""
        variables = range(len(next(iter(self.values))))
        shares = [(number, share) for number, share in self.shares.items() if share]
        return ["columns 1", "column 1", joined(["table", len(variables), *variables]),
                joined(["shares", len(shares), *(it for pair in shares for it in pair)]),
                joined(["values", len(self.values), *self.values.values()])]


def joined(numbers):
    return " ".join(map(str, numbers))


@dataclasses.dataclass
class Entry:
    """A state's rank (cost and number of steps), the state and the operator from which it was reached (None for the
    initial state), and whether it was expanded at this rank."""

    rank: tuple
    parent: tuple
    expanded: bool = False


class Machine:
    """Owners of states, and the messages between them. `value` is the heuristic, and each owner may expand `limit`
    states."""

    def __init__(self, task, workers, value=lambda state: 0, limit=math.inf):
        self.task, self.value, self.workers, self.limit = task, value, range(workers), limit
        words = SplitMix64(1)
        self.words = [[words.next() for _ in range(values)] for values in task.ranges]
        self.entries = [{} for _ in self.workers]
        self.outboxes = {(w, v): [] for w in self.workers for v in self.workers if w != v}
        self.underway = [[] for _ in self.workers]
        self.active, self.seen, self.goal_cost = [True] * workers, [math.inf] * workers, [math.inf] * workers
        self.expansions = [0] * workers
        self.bound = math.inf
        self.take(self.owner(task.initial), (task.initial, (0, 0), None))

    def owner(self, state):
        total = 0
        for words, value in zip(self.words, state):
            total ^= words[value]
        return total % len(self.workers)

    def take(self, owner, message):
        state, rank, parent = message
        if agrees(state, self.task.goal):
            self.goal_cost[owner] = min(self.goal_cost[owner], rank[0])
        entries = self.entries[owner]
        if state not in entries:
            entries[state] = Entry(rank, parent)
        elif rank < entries[state].rank:
            # The entry remains at its position in the dictionary, which is that of its first rank.
            entry = entries[state]
            entry.rank, entry.parent, entry.expanded = rank, parent, False

    def total(self, state, rank):
        """Returns the f-value of a state."""
        return rank[0] + self.value(state)

    def open(self, owner):
        return [(self.total(state, it.rank), it.rank, place, state)
                for place, (state, it) in enumerate(self.entries[owner].items())
                if not it.expanded and self.value(state) < math.inf]

    def is_below(self, owner):
        return any(it[0] < self.seen[owner] for it in self.open(owner))

    def is_idle(self, owner):
        return not self.is_below(owner) and not any(box for (w, _), box in self.outboxes.items() if w == owner)

    def possible(self):
        """Returns the steps that would change something, in order."""
        return ([(self.expand, w) for w in self.workers if self.is_below(w)]
                + [(self.send, *link) for link in sorted(self.outboxes) if self.outboxes[link]]
                + [(self.deliver, v, number) for v in self.workers for number in range(len(self.underway[v]))]
                + [(self.offer, w) for w in self.workers if self.goal_cost[w] < self.bound]
                + [(self.look, w) for w in self.workers if self.seen[w] != self.bound]
                + [(self.rest, w) for w in self.workers if self.active[w] and self.is_idle(w)])

    def expand(self, owner):
        self.expansions[owner] += 1
        *_, state = min(self.open(owner))
        entry = self.entries[owner][state]
        entry.expanded = True
        for number, (conditions, changes, cost) in enumerate(self.task.operators):
            if agrees(state, conditions):
                after, rank = successor(state, changes), (entry.rank[0] + cost, entry.rank[1] + 1)
                if self.total(after, rank) < self.seen[owner]:
                    to, message = self.owner(after), (after, rank, (state, number))
                    if to == owner:
                        self.take(owner, message)
                    else:
                        self.outboxes[owner, to].append(message)

    def send(self, owner, to):
        self.underway[to].append(self.outboxes[owner, to].pop(0))

    def deliver(self, owner, number):
        self.active[owner] = True
        self.take(owner, self.underway[owner].pop(number))

    def offer(self, owner):
        self.bound = min(self.bound, self.goal_cost[owner])

    def look(self, owner):
        self.seen[owner] = self.bound

    def rest(self, owner):
        self.active[owner] = False

    def count(self):
        return sum(map(len, self.outboxes.values())) + sum(map(len, self.underway)) + sum(self.active)

    def lower_bound(self):
        """Returns the least cost of a goal that was taken, or f-value that is open or in a message."""
        messages = [it for queue in (*self.outboxes.values(), *self.underway) for it in queue]
        sent = [self.total(state, rank) for state, rank, _ in messages]
        return min([*self.goal_cost, *sent, *(it[0] for owner in self.workers for it in self.open(owner))])

    def best_plan(self):
        """Returns the operators of the plan to the goal of least cost that comes first, or None."""
        goals = [(entry.rank[0], owner, place, state) for owner in self.workers
                 for place, (state, entry) in enumerate(self.entries[owner].items()) if agrees(state, self.task.goal)]
        if not goals:
            return None
        *_, state = min(goals)
        plan = []
        while parent := self.entries[self.owner(state)][state].parent:
            state, number = parent
            plan.insert(0, number)
        return plan

    def closed(self):
        """Returns the certificate's lines of the closed states, by their values."""
        found = sorted((state, it.rank[0]) for entries in self.entries for state, it in entries.items() if it.expanded)
        return [f"closed {len(found)}", *(joined((cost, *state)) for state, cost in found)]

    def run(self, seed, steps=math.inf):
        """Takes the random steps of a seed, at most `steps`, until no work is left or an expansion would exceed the
        limit, and returns their number."""
        words, taken = Xoshiro256PlusPlus(seed), 0
        while self.count() and taken < steps:
            possible = self.possible()
            step, *arguments = possible[words.next() % len(possible)]
            if step == self.expand and self.expansions[arguments[0]] == self.limit:
                break
            step(*arguments)
            taken += 1
        return taken

    def answer(self, names):
        """Returns what is printed for a task without the metric whose operators have these names, and the exit
        status."""
        bound, plan = self.lower_bound(), self.best_plan()
        if bound == math.inf:
            return "unsolvable\n", 4
        steps = [f"({names[number]})\n" for number in plan or []]
        text = "" if plan is None else "".join([*steps, f"; cost = {len(steps)} (unit cost)\n"])
        return (text, 0) if bound == min(self.goal_cost) else (f"limit {bound}\n{text}", 5)
