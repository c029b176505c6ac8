"""`--explain`: what follows the line of a fault on standard error, written by hand from the texts: the path as it was
given, the line and the column, the sentence, the line with a caret, and the nearest declared name."""

from program import Outcome, ProgramTest, run
from test_certificate_classes import LAMP_CERTIFICATE, LAMP_DOMAIN
from test_certificate_sas import edited
from texts import ROAD_CERTIFICATE, ROAD_DOMAIN, ROAD_PROBLEM, ROAD_SAS

FILES = {"d": ROAD_DOMAIN, "p": ROAD_PROBLEM, "l": "(go a b)(go b c)", "s": ROAD_SAS, "c": ROAD_CERTIFICATE}

# Each action costs 1, by an increase in line 4.
COST_DOMAIN = """(define (domain n)
 (:predicates (p)) (:functions (total-cost))
 (:action noop :parameters ()
  :effect (and (p) (increase (total-cost) 1))))
"""


def refused(*lines, status=1):
    """Returns the outcome of a refusal: these lines on standard error, the first after the program's name."""
    return Outcome(err="".join(["optplan: ", *(f"{line}\n" for line in lines)]).encode(), status=status)


class Explanations(ProgramTest):
    """One fault of each kind that has a place, and those that have none."""

    def are_explained(self, words, rows):
        """Fails for each row (file, text, lines of standard error) with another outcome of `words`, with that text in
        place of the file's, or whose first line is not all that is reported without the option."""
        for file, text, *lines in rows:
            with self.subTest(file=file, text=text[:200]):
                files = FILES | {file: text}
                self.assertEqual(run(*words, "--explain", files=files), refused(*lines))
                self.assertEqual(run(*words, files=files), refused(lines[0]))

    # Texts with a fault of their trees.
    TREE_ROWS = [
        ("d", ROAD_DOMAIN.replace("road)", "ro\u00e4d)", 1), "F1 NotAscii domain 18",
         "d:1:19: this byte is allowed only in a comment",
         "(define (domain ro  d)",
         "                  ^"),
        ("d", ROAD_DOMAIN.rstrip()[:-1], "F2 Unclosed domain 0",
         "d:1:1: this parenthesis is never closed",
         "(define (domain road)",
         "^"),
        ("p", ")" + ROAD_PROBLEM, "F3 StrayClose problem 0",
         "p:1:1: this parenthesis closes nothing",
         ")(define (problem r1) (:domain road)",
         "^"),
        ("d", "(" * 200 + "\n(" + ")" * 201, "F4 TooDeep domain 201",
         "d:2:1: this parenthesis opens one level more than 200",
         "(" + ")" * 59,
         "^"),
        ("d", " " * (1 << 24) + " ", "F5 TooLong domain"),
        ("d", "; no domain", "F6 Empty domain",
         "d:1:12: the text ends without an expression",
         "; no domain",
         "           ^"),
        ("p", ROAD_PROBLEM + "(more)\n", "F7 Trailing problem 115",
         "p:5:1: this follows the end of the one expression",
         "(more)",
         "^"),
        ("l", "(go a b)\n (go b", "F2 Unclosed plan 10",
         "l:2:2: this parenthesis is never closed",
         " (go b",
         " ^"),
    ]

    def test_trees(self):
        self.are_explained(("validate", "d", "p", "l"), self.TREE_ROWS)

    # Domains and problems with a fault of their content.
    CONTENT_ROWS = [
        ("d", ROAD_DOMAIN.replace("road)", "road) 180km", 1), "F10 Shape domain 22",
         "d:1:23: `180km` is not allowed here",
         "(define (domain road) 180km",
         "                      ^"),
        ("d", ROAD_DOMAIN.replace("go :parameters", "go () :parameters"), "F10 Shape domain 122",
         "d:5:14: this list is not allowed here, has another form than required, or lacks a part",
         " (:action go () :parameters (?x ?y - loc)",
         "             ^"),
        ("p", ROAD_PROBLEM.replace(":goal", ":gaol"), "F10 Shape problem 0",
         "p:1:1: this problem lacks a part: its `:goal` may be missing or misspelt",
         "(define (problem r1) (:domain road)",
         "^"),
        ("d", ROAD_DOMAIN.replace("(:types loc)", "(:types loc) (:derived)"), "F11 Unsupported :derived domain 62",
         "d:3:16: `:derived` is not supported",
         " (:types loc) (:derived)",
         "               ^"),
        ("d", ROAD_DOMAIN.replace("(road ?x ?y))\n", "(roads ?x ?y))\n"), "F12 UnknownName domain 178",
         "d:6:31: the predicate `roads` is not declared",
         "  :precondition (and (at ?x) (roads ?x ?y))",
         "                              ^",
         "nearest declared name: road"),
        ("d", ROAD_DOMAIN.replace("(?x ?y - loc)\n", "(?x ?y - lok)\n"), "F12 UnknownName domain 143",
         "d:5:35: the type `lok` is not declared",
         " (:action go :parameters (?x ?y - lok)",
         "                                  ^",
         "nearest declared name: loc"),
        ("d", ROAD_DOMAIN.replace("(not (at ?x))", "(not (at ?z))"), "F12 UnknownName domain 215",
         "d:7:25: the variable `?z` is not declared",
         "  :effect (and (not (at ?z)) (at ?y))))",
         "                        ^"),
        ("p", ROAD_PROBLEM.replace("(at c)", "(at d)"), "F12 UnknownName problem 110",
         "p:4:13: the object `d` is not declared",
         " (:goal (at d)))",
         "            ^"),
        ("d", COST_DOMAIN.replace("(total-cost))", "(total-cost) (len))", 1).replace(") 1)", ") (lan))"), "F12 UnknownName domain 143",
         "d:4:44: the function `lan` is not declared",
         "  :effect (and (p) (increase (total-cost) (lan)))))",
         "                                           ^",
         "nearest declared name: len"),
        ("d", ROAD_DOMAIN.replace("(road ?x ?y))\n", "(road ?x))\n"), "F13 Arity domain 177",
         "d:6:30: `road` has another number of arguments than it is declared with",
         "  :precondition (and (at ?x) (road ?x))",
         "                             ^"),
        ("d", ROAD_DOMAIN.replace("(:types loc)", "(:types loc) (:types)"), "F14 TwiceDeclared domain 62",
         "d:3:16: `:types` is declared twice",
         " (:types loc) (:types)",
         "               ^"),
        ("d", ROAD_DOMAIN.replace("(:types loc)", "(:types loc - loc)"), "F15 TypeCycle domain 56",
         "d:3:10: `loc` lies on a cycle of supertypes",
         " (:types loc - loc)",
         "         ^"),
        ("d", COST_DOMAIN.replace(") 1)", ") 1.5)"), "F16 NotWhole domain 136",
         "d:4:43: `1.5` is not a whole number",
         "  :effect (and (p) (increase (total-cost) 1.5))))",
         "                                          ^"),
        ("d", COST_DOMAIN.replace(") 1)", ") 2147483648)"), "F17 CostRange domain 136",
         "d:4:43: `2147483648` is not a cost from 0 to 2147483647",
         "  :effect (and (p) (increase (total-cost) 2147483648))))",
         "                                          ^"),
        ("d", COST_DOMAIN.replace("(p))", "(p ?a ?b ?c ?d ?e ?f ?g ?h ?i ?j ?k ?l ?m ?n ?o ?p ?q))", 1), "F18 Limit arguments domain 84",
         "d:2:66: `?q` is past the limit of 16 parameters or arguments",
         " (:predicates (p ?a ?b ?c ?d ?e ?f ?g ?h ?i ?j ?k ?l ?m ?n ?o ?p ?q)) (:functions (total-cost))",
         "                                                                 ^"),
        ("p", ROAD_PROBLEM.replace("(:goal (at c))", "(:goal (and (not (at c)) (at c)))"), "F19 GoalBothWays problem 124",
         "p:4:27: this list follows its negation in the goal",
         " (:goal (and (not (at c)) (at c))))",
         "                          ^"),
    ]

    def test_contents(self):
        self.are_explained(("validate", "d", "p", "l"), self.CONTENT_ROWS)

    # Plans with a fault.
    PLAN_ROWS = [
        ("l", "(go a b)\ngo b c", "F25 PlanShape plan 9",
         "l:2:1: `go` is outside of the lists that are the steps",
         "go b c",
         "^"),
        ("l", "(go a b) ()", "F25 PlanShape plan 9",
         "l:1:10: this list is no step: a step is a name and its arguments, without lists",
         "(go a b) ()",
         "         ^"),
        ("l", "(a)" * ((1 << 20) + 1), "F26 PlanLimit plan",
         "l:1:1: the plan has more than 1048576 steps",
         "(a)" * 20,
         "^"),
    ]

    def test_plans(self):
        self.are_explained(("validate", "d", "p", "l"), self.PLAN_ROWS)

    # Finite-domain tasks with a fault. The lines of `ROAD_SAS` are numbered from 1; it has 45.
    SAS_ROWS = [
        ("s", edited(ROAD_SAS, "2=4"), "F40 Version sas 2",
         "s:2: this is not version 3",
         "4"),
        ("s", edited(ROAD_SAS, "1=begin_versions"), "F41 Expected sas 1",
         "s:1: this line does not have the required form",
         "begin_versions"),
        ("s", edited(ROAD_SAS, "24=3"), "F42 Range sas 24",
         "s:24: a number is out of range, or names a variable a second time",
         "3"),
        ("s", edited(ROAD_SAS, "10=0"), "F43 Axioms sas 10",
         "s:10: axioms are not supported",
         "0"),
        ("s", edited(ROAD_SAS, "35=1 0 0 0 0 1"), "F44 ConditionalEffect sas 35",
         "s:35: conditional effects are not supported",
         "1 0 0 0 0 1"),
        ("s", ROAD_SAS[:-2], "F45 Truncated sas",
         "s:45: the text ends before its last line",
         ""),
        ("s", ROAD_SAS + "more\n", "F46 Trailing sas 46",
         "s:46: this line follows the end of the task",
         "more"),
    ]

    def test_finite_domain_tasks(self):
        self.are_explained(("check-sas", "s", "c"), self.SAS_ROWS)
        self.are_explained(("solve-sas", "s", "--simulate", "1"), self.SAS_ROWS)

    # Certificates with a fault. The lines of `ROAD_CERTIFICATE` are numbered from 1; it has 8.
    CERT_ROWS = [
        ("c", edited(ROAD_CERTIFICATE, "1=optplan-cert 4"), "F50 Header cert",
         "c:1: this is not the first line of a certificate of a known version",
         "optplan-cert 4"),
        ("c", edited(ROAD_CERTIFICATE, "3=bound"), "F51 Expected cert 3",
         "c:3: another keyword, separator or number of words is required",
         "bound"),
        ("c", edited(ROAD_CERTIFICATE, "3=bound two"), "F52 Number cert 3",
         "c:3: a word is no number, or one above its limit",
         "bound two"),
        ("c", ROAD_CERTIFICATE[:-4], "F53 Truncated cert",
         "c:8: a line is missing, or has no line feed",
         ""),
        ("c", ROAD_CERTIFICATE + "more\n", "F54 Trailing cert 9",
         "c:9: this follows the last line",
         "more"),
    ]

    def test_certificates(self):
        self.are_explained(("check-sas", "s", "c"), self.CERT_ROWS)
        self.are_explained(("migrate-cert", "c"), self.CERT_ROWS)

    # Every plan costs at least 2; the atoms of its variable are listed in another order than they have to be.
    UNORDERED_CERTIFICATE = "optplan-cert 1\npddl\nbound 2\natoms 2\nat a\nat b\nvars 1\n0 2 1 0\ncolumns 0\nclosed 0\nend\n"

    def test_order_in_a_certificate(self):
        self.assertEqual(run("check", "d", "p", "c", "--explain", files=FILES | {"c": self.UNORDERED_CERTIFICATE}),
                         refused("F55 Order cert 8", "c:8: numbers have to increase and do not", "0 2 1 0"))

    def test_classes_of_a_certificate(self):
        files = {"d": LAMP_DOMAIN, "p": ROAD_PROBLEM, "c": edited(LAMP_CERTIFICATE, "16=2 0 1")}
        self.assertEqual(run("check", "d", "p", "c", "--explain", files=files),
                         refused("F57 Classes cert 16",
                                 "c:16: the classes are not numbered in the order of their first occurrences",
                                 "2 0 1"))

    def test_certificates_of_the_other_kind(self):
        self.assertEqual(run("check", "d", "p", "c", "--explain", files=FILES),
                         refused("F51 Expected cert 2",
                                 "c:2: another keyword, separator or number of words is required",
                                 "sas"))


class Options(ProgramTest):
    """The option in each command, and what it leaves as it is."""

    # The commands that read a domain and a problem, with the option in any place.
    COMMANDS = [
        ("solve", "d", "p", "--explain"),
        ("solve", "--explain", "d", "p", "--simulate", "1"),
        ("translate", "d", "p", "--explain"),
        ("validate", "d", "--explain", "p", "l"),
        ("check", "--explain", "d", "p", "c"),
        ("optimal", "d", "p", "l", "--explain", "c"),
    ]

    def test_each_command(self):
        files = FILES | {"p": ROAD_PROBLEM.replace("(road b c)", "(roaad b c)")}
        for words in self.COMMANDS:
            with self.subTest(words=words):
                self.assertEqual(run(*words, files=files),
                                 refused("F12 UnknownName problem 87",
                                         "p:3:28: the predicate `roaad` is not declared",
                                         " (:init (at a) (road a b) (roaad b c))",
                                         "                           ^",
                                         "nearest declared name: road"))

    def test_the_path_is_the_argument(self):
        files = FILES | {"p": ""}
        self.assertEqual(run("translate", "d", "./p", "--explain", files=files),
                         refused("F6 Empty problem", "./p:1:1: the text ends without an expression", "", "^"))

    def test_a_plan_of_another_tool_is_shown_as_it_is(self):
        files = FILES | {"l": "limit 2\n0: (go a b) [1]\n1: (go b (c)) [1]\n", "c": "no certificate"}
        self.assertEqual(run("optimal", "d", "p", "l", "c", "--explain", files=files),
                         refused("F25 PlanShape plan 33",
                                 "l:3:10: this list is no step: a step is a name and its arguments, without lists",
                                 "1: (go b (c)) [1]",
                                 "         ^"))

    def test_faults_without_a_place(self):
        self.assertEqual(run("validate", "gone", "p", "l", "--explain", files=FILES), refused("F70 CannotRead domain", status=7))
        self.assertEqual(run("solve", "d", "p", "--simulate", "1", "--plan", "gone/l", "--explain", files=FILES),
                         refused("F71 CannotWrite plan", status=7))
        task = edited(ROAD_SAS, "11=65537")
        self.assertEqual(run("check-sas", "s", "c", "--explain", files=FILES | {"s": task}), refused("F18 Limit values"))

    # Every plan of the road's planning task costs at least 2.
    PLANNING_CERTIFICATE = ("optplan-cert 1\npddl\nbound 2\natoms 5\nat a\nat b\nat c\nroad a b\nroad b c\n"
                            "vars 1\n0 3 0 1 2\ncolumns 0\nclosed 2\n0 0\n1 1\nend\n")

    # Commands with an answer, which the option leaves as it is.
    ANSWERED = [
        ("validate", "d", "p", "l"),
        ("check-sas", "s", "c"),
        ("optimal", "d", "p", "l", "q"),
        ("check", "d", "p", "q"),
        ("translate", "d", "p"),
        ("solve", "d", "p", "--simulate", "1", "--cert", "new"),
        ("solve-sas", "s", "--simulate", "1", "--plan", "new"),
        ("migrate-cert", "c"),
    ]

    def test_answers_stay_as_they_are(self):
        files = FILES | {"q": self.PLANNING_CERTIFICATE}
        for words in self.ANSWERED:
            with self.subTest(words=words):
                self.assertEqual(run(*words, "--explain", files=files), run(*words, files=files))

    def test_standard_error_that_cannot_be_written(self):
        files = FILES | {"d": ")"}
        self.assertEqual(run("validate", "d", "p", "l", "--explain", files=files, full=("stderr",)), Outcome(status=1))

    def test_the_option_takes_no_value(self):
        for words in (("validate", "d", "p", "l", "--explain=yes"), ("--explain", "validate", "d", "p", "l")):
            with self.subTest(words=words):
                self.assertEqual(run(*words, files=FILES).status, 2)
