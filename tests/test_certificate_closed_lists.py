"""Certificates with long closed lists, which the checker tests in pieces with several threads: the first violation is
reported, whichever piece it is in.
"""

from program import ProgramTest, checked_sas

# The number of states, enough for several pieces; and a position in the first piece, in the middle and in the last.
STATES = 20_000
PLACES = (3, STATES // 2, STATES - 5)


def chain(states=STATES, goal=None):
    """Returns the text of a task over one variable with this many values. At first it is 0, each operator adds 1 to one
    of them at cost 1, and the goal is the last value, or `goal`."""
    atoms = "".join(f"Atom at({value})\n" for value in range(states))
    operators = "".join(f"begin_operator\nstep {value}\n0\n1\n0 0 {value} {value + 1}\n1\nend_operator\n" for value in range(states - 1))
    return (f"begin_version\n3\nend_version\nbegin_metric\n1\nend_metric\n1\nbegin_variable\nvar0\n-1\n{states}\n{atoms}end_variable\n0\n"
            f"begin_state\n0\nend_state\nbegin_goal\n1\n0 {states - 1 if goal is None else goal}\nend_goal\n{states - 1}\n{operators}0\n")


def certificate(closed, bound):
    """Returns a certificate without tables of this bound, with these closed states: pairs of a cost and a value."""
    lines = "".join(f"{cost} {value}\n" for cost, value in closed)
    return f"optplan-cert 1\nsas\nbound {bound}\ncolumns 0\nclosed {len(closed)}\n{lines}end\n"


# Each state but the goal, at the cost at which it is reached.
CLOSED = [(value, value) for value in range(STATES - 1)]


def with_state(place, cost, value):
    """Returns the closed states with another one at a position."""
    return CLOSED[:place] + [(cost, value)] + CLOSED[place + 1:]


class ClosedLists(ProgramTest):
    """Lists of nearly 20,000 closed states."""

    def answers(self, closed, answer, bound=STATES - 1, sas=chain()):
        self.is_answered(checked_sas(sas, certificate(closed, bound)), answer, bound=bound)

    def test_all_closed(self):
        self.answers(CLOSED, f"accepted {STATES - 1}")

    def test_bound_past_the_goal(self):
        # the last closed state reaches the goal at a cost of 19,999
        self.answers(CLOSED, f"rejected C8 state {STATES - 2} op {STATES - 2}", bound=STATES)

    def test_state_left_out(self):
        for place in PLACES:
            self.answers(CLOSED[:place] + CLOSED[place + 1:], f"rejected C8 state {place - 1} op {place - 1}")

    def test_state_at_a_greater_cost(self):
        for place in PLACES:
            self.answers(with_state(place, place + 1, place), f"rejected C8 state {place - 1} op {place - 1}")

    def test_state_twice(self):
        for place in PLACES:
            self.answers(with_state(place, place, place - 1), f"rejected C5 state {place}")

    def test_value_out_of_range(self):
        for place in PLACES:
            self.answers(with_state(place, place, STATES), f"rejected C5 state {place}")

    def test_goal_below_the_bound(self):
        for place in PLACES:
            self.answers(CLOSED, f"rejected C7 state {place}", bound=place + 1, sas=chain(goal=place))

    def test_first_of_two_in_two_pieces(self):
        first, _, last = PLACES
        closed = CLOSED[:first] + CLOSED[first + 1:last] + CLOSED[last + 1:]
        self.answers(closed, f"rejected C8 state {first - 1} op {first - 1}")

    def test_earlier_clause_first(self):
        # C8 for a state left out early, and C5 for one listed twice late
        first, _, last = PLACES
        closed = with_state(last, last, last - 1)
        self.answers(closed[:first] + closed[first + 1:], f"rejected C5 state {last - 1}")
