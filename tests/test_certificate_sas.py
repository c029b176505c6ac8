"""Checks of certificates for finite-domain tasks, worked out by hand from the rules of the texts and the clauses of
certificates.
"""

from program import ProgramTest, checked_sas
from texts import ROAD_CERTIFICATE, ROAD_SAS


def replaced_lines(edits):
    """Returns the lines that replace each edited line, by its number as a word."""
    replaced = {}
    for edit in edits.split(";") if edits else []:
        number, lines = edit.split("=")
        replaced[number] = lines.split("|") if lines else []
    return replaced


def edited(text, edits):
    """Returns the text after these edits, which are separated by `;`: each is a line's number, counted from 1, `=`, and
    the lines in its place, separated by `|`, or nothing to remove the line."""
    replaced = replaced_lines(edits)
    lines = []
    for number, line in enumerate(text.splitlines(), 1):
        lines += replaced.get(str(number), [line])
    return "".join(line + "\n" for line in lines)


class FiniteDomainTest(ProgramTest):
    """Tests over a task's text, a certificate's text, and edits of both."""

    def gives(self, sas, cert, answer, **row):
        """Fails, and shows the row, unless the certificate's check has this answer."""
        self.is_answered(checked_sas(sas, cert), answer, **row)

    def hold(self, sas, cert, rows):
        """Fails for each row with another answer. A row has edits of the task's text, edits of the certificate's text,
        and the answer."""
        for sas_edits, cert_edits, answer in rows:
            self.gives(edited(sas, sas_edits), edited(cert, cert_edits), answer, sas_edits=sas_edits, cert_edits=cert_edits)


class CertificateTexts(FiniteDomainTest):
    """Texts of certificates: which are refused, and at which line."""

    # A certificate for a planning task.
    PLANNING = (
        "optplan-cert 1\npddl\nbound 2\natoms 5\nat a\nat b\nat c\nroad a b\nroad b c\n"
        "vars 1\n0 3 0 1 2\ncolumns 0\nclosed 2\n0 0\n1 1\nend\n"
    )

    def test_texts_of_certificates(self):
        self.hold(ROAD_SAS, ROAD_CERTIFICATE, [
            ("", "1=optplan-cert 2", "accepted 2"),
            ("", "1=optplan-cert 4", "F50 Header cert"),
            ("", "1=optplan-cert  2", "F50 Header cert"),
            ("", "2=fdr", "F51 Expected cert 2"),
            ("", "3=bound 01", "F52 Number cert 3"),
            ("", "3=bound  ", "F51 Expected cert 3"),
            ("", "3=bound 4611686018427387905", "F52 Number cert 3"),
            ("", "4=columns 65", "F52 Number cert 4"),
            ("", "5=closed 3", "F51 Expected cert 8"),
            ("", "5=closed 1", "F51 Expected cert 7"),
            ("", "6=0  0", "F51 Expected cert 6"),
            ("", "6=0 00", "F52 Number cert 6"),
            ("", "8=end ", "F51 Expected cert 8"),
            ("", "8=end|", "F54 Trailing cert 9"),
            ("", "8=end|end", "F54 Trailing cert 9"),
        ])

    def test_certificates_for_planning_tasks(self):
        self.hold(ROAD_SAS, self.PLANNING, [
            # It is for the other kind of task, which is a fault only if its text has none.
            ("", "", "F51 Expected cert 2"),
            ("", "3=bound 3", "F51 Expected cert 2"),
            ("", "3=bound 01", "F52 Number cert 3"),
            ("", "3=bound  ", "F51 Expected cert 3"),
            ("", "1=optplan-cert 1\r", "F50 Header cert"),
            ("", "11=0 3 1 0 2", "F55 Order cert 11"),
            ("", "11=0 3 0 1 5", "F52 Number cert 11"),
            ("", "13=closed 4294967296", "F52 Number cert 13"),
            ("", "13=closed 4294967295", "F51 Expected cert 16"),
            ("2=4", "", "F40 Version sas 2"),
        ])

    def test_fronts(self):
        for length in range(len(ROAD_CERTIFICATE)):
            self.gives(ROAD_SAS, ROAD_CERTIFICATE[:length], "F53 Truncated cert", length=length)


class TaskTexts(FiniteDomainTest):
    """Texts of finite-domain tasks: which are refused, and at which line."""

    # The lines with a name or a value's text: every prefix of such a text is one too.
    TEXT_LINES = (9, 12, 13, 14, 32, 39)

    LAST_LINE = 45

    def test_texts_of_tasks(self):
        self.hold(ROAD_SAS, ROAD_CERTIFICATE, [
            ("2=4", "", "F40 Version sas 2"),
            ("1=begin_versions", "", "F41 Expected sas 1"),
            ("7=65537", "", "F18 Limit variables"),
            ("11=65537", "", "F18 Limit values"),
            ("11=0", "", "F42 Range sas 11"),
            ("24=3", "", "F42 Range sas 24"),
            ("28=1 2", "", "F42 Range sas 28"),
            ("28=0 3", "", "F42 Range sas 28"),
            ("28=2", "", "F41 Expected sas 28"),
            ("29=end_goals", "", "F41 Expected sas 29"),
            ("35=1 0 0 0 0 1", "", "F44 ConditionalEffect sas 35"),
            # One variable is in a prevail condition and in an effect.
            ("40=1;41=0 1|1", "", "F42 Range sas 43"),
            ("45=1", "", "F43 Axioms sas 45"),
            ("45=0|x", "", "F46 Trailing sas 46"),
            ("45=0|| ", "", "accepted 2"),
            # The task's fault is reported before the certificate's.
            ("2=4", "1=x", "F40 Version sas 2"),
            ("45=1", "1=x", "F43 Axioms sas 45"),
            ("7=65537", "3=bound 01", "F18 Limit variables"),
            # The fault of a task is reported before the certificate is judged.
            ("24=3", "3=bound 3", "F42 Range sas 24"),
        ])

    def test_line_ends(self):
        self.gives(ROAD_SAS.replace("\n", "\r\n"), ROAD_CERTIFICATE, "accepted 2", text="with returns")
        self.gives(ROAD_SAS + "x", ROAD_CERTIFICATE, "F46 Trailing sas 46", text="with a line more")

    def answer_for_front(self, number, line, part):
        """Returns the answer for the prefix of the text that ends with the first `part` letters of this line. A prefix
        that ends with a whole line, or with a part that could be one, is too short; for another prefix, the part is a
        line of another form than expected."""
        is_whole = part in (0, len(line))
        if number == self.LAST_LINE and part == len(line):
            return "accepted 2"
        if is_whole or number in self.TEXT_LINES:
            return "F45 Truncated sas"
        return f"F41 Expected sas {number}"

    def test_fronts(self):
        before = 0
        for number, line in enumerate(ROAD_SAS.splitlines(), 1):
            for part in range(len(line) + 1):
                self.gives(ROAD_SAS[:before + part], ROAD_CERTIFICATE, self.answer_for_front(number, line, part), number=number, part=part)
            before += len(line) + 1
        self.assertEqual(before, len(ROAD_SAS))


class Road(FiniteDomainTest):
    """A road from a over b to c: certificates with closed states only, and with tables."""

    # One column of one table, whose values are the distances.
    TABLE = "optplan-cert 1\nsas\nbound 2\ncolumns 1\ncolumn 1\ntable 1 0\nshares 2 0 1 1 1\nvalues 3 2 1 0\nclosed 0\nend\n"

    def test_closed_states(self):
        self.hold(ROAD_SAS, ROAD_CERTIFICATE, [
            ("", "", "accepted 2"),
            ("", "3=bound 0", "accepted 0"),
            ("", "3=bound 1", "accepted 1"),
            ("", "3=bound 3", "rejected C8 state 1 op 1"),
            ("", "3=bound inf", "rejected C8 state 1 op 1"),
            ("", "5=closed 3;7=1 1|2 2", "accepted 2"),
            ("", "3=bound 3;5=closed 3;7=1 1|2 2", "rejected C7 state 2"),
            ("", "6=1 1;7=0 0", "rejected C5 state 1"),
            ("", "5=closed 1;6=0 3;7=", "rejected C5 state 0"),
            ("", "5=closed 0;6=;7=", "rejected C6"),
            ("", "3=bound 0;5=closed 0;6=;7=", "accepted 0"),
            ("", "7=1 1 1", "F51 Expected cert 7"),
            # The second step goes from c to b, so c is not reached.
            ("42=0 0 2 1", "3=bound inf", "accepted unsolvable"),
            ("42=0 0 2 1", "3=bound 4611686018427387904", "accepted 4611686018427387904"),
        ])

    def test_tables(self):
        self.hold(ROAD_SAS, self.TABLE, [
            ("", "", "accepted 2"),
            ("", "3=bound 3", "rejected C6"),
            ("", "7=shares 2 0 1 1 2", "rejected C3 column 0 op 1"),
            ("", "8=values 3 3 1 0", "rejected C4 column 0 table 0 state 0 op 0"),
            # The heuristic is the maximum of two columns.
            ("", "4=columns 2;8=values 3 2 1 0|column 1|table 1 0|shares 0|values 3 0 0 0", "accepted 2"),
            # The same costs twice in one column.
            ("", "5=column 2;8=values 3 2 1 0|table 1 0|shares 2 0 1 1 1|values 3 2 1 0", "rejected C3 column 0 op 0"),
            ("", "6=table 1 1", "rejected C4 column 0 table 0"),
        ])


class SmallTasks(FiniteDomainTest):
    """Tasks with a detour, with operators of cost 0, and without a variable."""

    # From 0 to 3 directly at cost 3, or over 1 and 2 for more.
    DETOUR = (
        "begin_version\n3\nend_version\nbegin_metric\n1\nend_metric\n1\n"
        "begin_variable\nplace\n-1\n4\np0\np1\np2\np3\nend_variable\n0\nbegin_state\n0\nend_state\nbegin_goal\n1\n0 3\nend_goal\n5\n"
        "begin_operator\no0\n0\n1\n0 0 0 1\n9\nend_operator\nbegin_operator\no1\n0\n1\n0 0 0 2\n2\nend_operator\n"
        "begin_operator\no2\n0\n1\n0 0 2 1\n2\nend_operator\nbegin_operator\no3\n0\n1\n0 0 0 3\n3\nend_operator\n"
        "begin_operator\no4\n0\n1\n0 0 1 3\n5\nend_operator\n0\n"
    )
    DETOUR_CERTIFICATE = "optplan-cert 1\nsas\nbound 3\ncolumns 0\nclosed 2\n0 0\n2 2\nend\n"

    # From 0 over 1 to 2, at cost 0.
    FREE = (
        "begin_version\n3\nend_version\nbegin_metric\n1\nend_metric\n1\n"
        "begin_variable\nplace\n-1\n3\np0\np1\np2\nend_variable\n0\nbegin_state\n0\nend_state\nbegin_goal\n1\n0 2\nend_goal\n2\n"
        "begin_operator\no0\n0\n1\n0 0 0 1\n0\nend_operator\nbegin_operator\no1\n0\n1\n0 0 1 2\n0\nend_operator\n0\n"
    )
    FREE_CERTIFICATE = "optplan-cert 1\nsas\nbound 1\ncolumns 0\nclosed 1\n0 0\nend\n"

    # The one state has no value, and is a goal.
    EMPTY = (
        "begin_version\n3\nend_version\nbegin_metric\n0\nend_metric\n0\n0\nbegin_state\nend_state\n"
        "begin_goal\n0\nend_goal\n0\n0\n"
    )
    EMPTY_CERTIFICATE = "optplan-cert 1\nsas\nbound 0\ncolumns 0\nclosed 1\n0\nend\n"

    def test_detour(self):
        self.hold(self.DETOUR, self.DETOUR_CERTIFICATE, [
            ("", "", "accepted 3"),
            ("", "5=closed 3;6=0 0|9 1", "accepted 3"),
            ("", "3=bound 4", "rejected C8 state 0 op 3"),
            ("", "7=3 2", "rejected C8 state 0 op 1"),
            # Without the metric, each step costs 1.
            ("5=0", "", "rejected C8 state 0 op 0"),
            ("5=0", "3=bound 1;5=closed 1;7=", "accepted 1"),
        ])

    def test_steps_for_nothing(self):
        self.hold(self.FREE, self.FREE_CERTIFICATE, [
            ("", "", "rejected C8 state 0 op 0"),
            ("", "5=closed 2;6=0 0|0 1", "rejected C8 state 1 op 1"),
            ("", "5=closed 3;6=0 0|0 1|0 2", "rejected C7 state 2"),
            ("", "5=closed 2;6=0 0|1 1", "rejected C8 state 0 op 0"),
            ("", "3=bound 0", "accepted 0"),
            ("", "3=bound 0;5=closed 3;6=0 0|0 1|0 2", "accepted 0"),
        ])

    def test_a_task_without_variables(self):
        self.hold(self.EMPTY, self.EMPTY_CERTIFICATE, [
            ("", "", "accepted 0"),
            ("", "5=closed 0;6=", "accepted 0"),
            ("", "3=bound 1", "rejected C7 state 0"),
            ("", "3=bound inf", "rejected C7 state 0"),
            ("", "3=bound 1;5=closed 0;6=", "rejected C6"),
            ("", "6=0 0", "rejected C5 state 0"),
            ("", "5=closed 2;6=0|0", "rejected C5 state 1"),
            ("", "4=columns 1|column 1|table 1 0|shares 0|values 1 0", "rejected C4 column 0 table 0"),
        ])


class Clauses(FiniteDomainTest):
    """Each clause in turn. The task has two variables, x of range 3 and y of range 2, both 0 at first, and the goal x =
    2. The operators: 0 changes x from 0 to 1 at cost 2; 1 changes x from 1 to 2 at cost 3 if y is 1; 2 sets y to 1 at
    cost 1; 3 changes x from 1 to 0 at cost 0. The least cost to the goal is 6 from (x, y) = (0, 0), 5 from (0, 1), 4
    from (1, 0) and 3 from (1, 1)."""

    TASK = (
        "begin_version\n3\nend_version\nbegin_metric\n1\nend_metric\n2\n"
        "begin_variable\nx\n-1\n3\nx0\nx1\nx2\nend_variable\nbegin_variable\ny\n-1\n2\ny0\ny1\nend_variable\n0\n"
        "begin_state\n0\n0\nend_state\nbegin_goal\n1\n0 2\nend_goal\n4\n"
        "begin_operator\nfirst\n0\n1\n0 0 0 1\n2\nend_operator\nbegin_operator\nsecond\n1\n1 1\n1\n0 0 1 2\n3\nend_operator\n"
        "begin_operator\nup\n0\n1\n0 1 -1 1\n1\nend_operator\nbegin_operator\nback\n0\n1\n0 0 1 0\n0\nend_operator\n0\n"
    )

    # All states that are reached before the goal.
    CLOSED = "optplan-cert 1\nsas\nbound 6\ncolumns 0\nclosed 4\n0 0 0\n1 0 1\n2 1 0\n3 1 1\nend\n"

    # A table over both variables, with all costs as its shares; the abstract state of (x, y) is x + 3 y.
    TABLE = (
        "optplan-cert 1\nsas\nbound 6\ncolumns 1\ncolumn 1\ntable 2 0 1\nshares 3 0 2 1 3 2 1\n"
        "values 6 6 4 0 5 3 0\nclosed 0\nend\n"
    )

    # The certificate of a search with a table over x alone: the closed states are those with an f-value below the
    # bound.
    SEARCHED = (
        "optplan-cert 1\nsas\nbound 6\ncolumns 1\ncolumn 1\ntable 1 0\nshares 2 0 2 1 3\n"
        "values 3 5 3 0\nclosed 2\n0 0 0\n2 1 0\nend\n"
    )

    def test_closed_states(self):
        self.hold(self.TASK, self.CLOSED, [
            ("", "", "accepted 6"),
            ("", "6=0 0 2", "rejected C5 state 0"),
            ("", "9=3 3 1", "rejected C5 state 3"),
            # A state that is listed twice, and two that are not in order by their first value.
            ("", "8=1 0 1", "rejected C5 state 2"),
            ("", "7=2 1 0;8=1 0 1", "rejected C5 state 2"),
            # A value more, and one less, than there are variables.
            ("", "5=closed 1;6=0 0 0 0;7=;8=;9=", "rejected C5 state 0"),
            ("", "5=closed 1;6=0 0;7=;8=;9=", "rejected C5 state 0"),
        ])

    def test_starts(self):
        self.hold(self.TASK, self.CLOSED, [
            ("", "6=1 0 0", "rejected C6"),
            ("", "5=closed 3;6=", "rejected C6"),
            ("", "5=closed 0;6=;7=;8=;9=", "rejected C6"),
            # C6 is reported before C7.
            ("", "6=1 0 0;9=3 1 1|5 2 1;5=closed 5", "rejected C6"),
        ])

    def test_goals(self):
        self.hold(self.TASK, self.CLOSED, [
            ("", "5=closed 5;9=3 1 1|6 2 1", "accepted 6"),
            ("", "5=closed 5;9=3 1 1|5 2 1", "rejected C7 state 4"),
            ("", "5=closed 6;9=3 1 1|6 2 0|5 2 1", "rejected C7 state 5"),
            ("", "3=bound inf;5=closed 5;9=3 1 1|6 2 1", "rejected C7 state 4"),
            # C7 is reported before C8.
            ("", "3=bound 7;7=6 2 0;8=;9=;5=closed 2", "rejected C7 state 1"),
        ])

    def test_successors(self):
        self.hold(self.TASK, self.CLOSED, [
            ("", "3=bound 7", "rejected C8 state 3 op 1"),
            ("", "8=3 1 0", "rejected C8 state 0 op 0"),
            ("", "5=closed 3;7=", "rejected C8 state 0 op 2"),
            ("", "5=closed 3;9=", "rejected C8 state 1 op 0"),
            # (1, 1) is listed for less than it costs.
            ("", "9=2 1 1", "rejected C8 state 3 op 1"),
            # If the second step requires x = 2, the goal is out of reach.
            ("45=0 0 2 2", "3=bound inf", "accepted unsolvable"),
            ("45=0 0 2 2", "3=bound inf;5=closed 3;8=", "rejected C8 state 0 op 0"),
        ])

    def test_shares(self):
        self.hold(self.TASK, self.TABLE, [
            ("", "", "accepted 6"),
            ("", "7=shares 3 0 3 1 3 2 1", "rejected C3 column 0 op 0"),
            ("", "7=shares 4 0 2 1 3 2 1 3 1", "rejected C3 column 0 op 3"),
            ("", "7=shares 4 0 2 1 3 2 1 4 1", "rejected C3 column 0 op 4"),
            # Each column divides the full costs; in the second column the first table uses them up.
            ("", "4=columns 2;8=values 6 6 4 0 5 3 0|column 2|table 1 0|shares 2 0 2 1 3|values 3 5 3 0|"
             "table 1 0|shares 1 0 1|values 3 0 0 0", "rejected C3 column 1 op 0"),
            ("", "5=column 3;6=table 1 1;7=shares 1 2 1;8=values 2 0 0|table 1 1|shares 0|values 2 0 0|"
             "table 1 1|shares 1 2 1|values 2 0 0", "rejected C3 column 0 op 2"),
            # C3 is reported before C4.
            ("", "6=table 2 0 2;7=shares 1 2 2", "rejected C3 column 0 op 2"),
            # The costs of the second step are divided between two tables.
            ("", "5=column 2;6=table 1 0;7=shares 2 0 2 1 2;8=values 3 4 2 0|table 2 0 1|shares 2 1 1 2 1|values 6 2 2 0 1 1 0",
             "accepted 6"),
            ("", "3=bound 7", "rejected C6"),
        ])

    def test_values(self):
        self.hold(self.TASK, self.TABLE, [
            ("", "6=table 2 0 2", "rejected C4 column 0 table 0"),
            ("", "8=values 5 6 4 0 5 3", "rejected C4 column 0 table 0"),
            ("", "8=values 7 6 4 0 5 3 0 0", "rejected C4 column 0 table 0"),
            ("", "8=values 6 6 4 0 5 3 1", "rejected C4 column 0 table 0 state 5"),
            ("", "8=values 6 6 4 inf 5 3 0", "rejected C4 column 0 table 0 state 2"),
            # Abstract goals are tested before transitions.
            ("", "8=values 6 7 4 1 5 3 0", "rejected C4 column 0 table 0 state 2"),
            ("", "8=values 6 6 4 0 5 4 0", "rejected C4 column 0 table 0 state 4 op 1"),
            ("", "8=values 6 6 4 0 inf 3 0", "rejected C4 column 0 table 0 state 3 op 0"),
            # The third step has no precondition; without a share the value may not decrease along it.
            ("", "7=shares 2 0 2 1 3", "rejected C4 column 0 table 0 state 0 op 2"),
            # Every abstract state of y is a goal.
            ("", "4=columns 2;8=values 6 6 4 0 5 3 0|column 3|table 1 1|shares 0|values 2 0 0|table 1 1|shares 0|values 2 0 0|"
             "table 1 1|shares 0|values 2 0 1", "rejected C4 column 1 table 2 state 1"),
            # Infinite before the goal: refused if the second step reaches it, accepted if that requires x = 2.
            ("", "3=bound inf;6=table 1 0;7=shares 0;8=values 3 inf inf 0", "rejected C4 column 0 table 0 state 1 op 1"),
            ("45=0 0 2 2", "3=bound inf;6=table 1 0;7=shares 0;8=values 3 inf inf 0", "accepted unsolvable"),
        ])

    def test_closed_states_beside_a_table(self):
        self.hold(self.TASK, self.SEARCHED, [
            ("", "", "accepted 6"),
            ("", "3=bound 5", "accepted 5"),
            # (0, 1) is reached at cost 1 and has the value 5.
            ("", "3=bound 7", "rejected C8 state 0 op 2"),
            ("", "9=closed 1;11=", "rejected C8 state 0 op 0"),
            ("", "3=bound 5;9=closed 0;10=;11=", "accepted 5"),
            ("", "9=closed 0;10=;11=", "rejected C6"),
        ])


class Chain(FiniteDomainTest):
    """A variable of range 5000, from 0 to 4999 by steps of 1."""

    STATES = 5000

    # The goal's value, which is also the number of operators.
    LAST = 4999

    # The head of a certificate without a column.
    HEAD = "optplan-cert 1\nsas\nbound 4999\ncolumns 0\nclosed 4999\n"

    def task(self):
        """Returns the text of the task."""
        head = "begin_version\n3\nend_version\nbegin_metric\n0\nend_metric\n1\nbegin_variable\nvar0\n-1\n5000\n"
        values = "at\n" * self.STATES
        ends = "end_variable\n0\nbegin_state\n0\nend_state\nbegin_goal\n1\n0 4999\nend_goal\n4999\n"
        operators = [f"begin_operator\nstep\n0\n1\n0 0 {value} {value + 1}\n1\nend_operator\n" for value in range(self.LAST)]
        return head + values + ends + "".join(operators) + "0\n"

    def closed_certificate(self, head, left_out=None, raised=()):
        """Returns the text of a certificate with the state of each value before the goal at its cost, except for one
        state that is left out if given, and some whose cost is raised by one."""
        costs = {value: value + 1 if value in raised else value for value in range(self.LAST) if value != left_out}
        return head + "".join(f"{cost} {value}\n" for value, cost in costs.items()) + "end\n"

    def table_certificate(self, raised=()):
        """Returns the text of a certificate with one table of each value's distance; some distances are raised by
        one."""
        shares = "".join(f" {operator} 1" for operator in range(self.LAST))
        distances = [self.LAST - value + 1 if value in raised else self.LAST - value for value in range(self.STATES)]
        values = "".join(f" {distance}" for distance in distances)
        return ("optplan-cert 1\nsas\nbound 4999\ncolumns 1\ncolumn 1\ntable 1 0\n"
                f"shares 4999{shares}\nvalues 5000{values}\nclosed 0\nend\n")

    def test_closed_states(self):
        sas = self.task()
        more = "optplan-cert 1\nsas\nbound 5000\ncolumns 0\nclosed 4999\n"
        fewer = "optplan-cert 1\nsas\nbound 4999\ncolumns 0\nclosed 4998\n"
        self.gives(sas, self.closed_certificate(self.HEAD), "accepted 4999", closed="all")
        self.gives(sas, self.closed_certificate(more), "rejected C8 state 4998 op 4998", closed="all, with a greater bound")
        self.gives(sas, self.closed_certificate(fewer, left_out=2500), "rejected C8 state 2499 op 2499", closed="all but one")
        self.gives(sas, self.closed_certificate(self.HEAD, raised=(3000, 4000)), "rejected C8 state 2999 op 2999", closed="all, two raised")

    def test_tables(self):
        sas = self.task()
        self.gives(sas, self.table_certificate(), "accepted 4999", table="exact")
        self.gives(sas, self.table_certificate(raised=(100, 4500)), "rejected C4 column 0 table 0 state 100 op 100", table="raised")
