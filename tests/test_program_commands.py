"""The command line, missing files, lines of faults, and what the solver prints and writes for tasks worked out by
hand."""

import dataclasses

from program import Outcome, ProgramTest, checked, checked_sas, example, run, unread, unwritten, wanted
from texts import (DOOR_DOMAIN, DRIVE_DOMAIN, DRIVE_PROBLEM, GRIP_DOMAIN, GRIP_PROBLEM, HALF_A_ROAD, LOCKED_DOOR,
                   OPEN_DOOR, ROAD_CERTIFICATE, ROAD_DOMAIN, ROAD_PROBLEM, ROAD_PROBLEM_AT_ITS_GOAL, ROAD_SAS,
                   ROAD_TO_BE_MADE)

# A road from each of two places to the third; no road ends at the goal.
ROAD_PROBLEM_WITHOUT_WAY = """(define (problem r1) (:domain road)
 (:objects a b c - loc)
 (:init (at a) (road a b) (road c b))
 (:goal (at c)))
"""

# The steps of `ROAD_PROBLEM`, as a plan is read, and the plan as the solver writes it.
ROAD_STEPS = "(go a b)(go b c)"
ROAD_PLAN = "(go a b)\n(go b c)\n; cost = 2 (unit cost)\n"

# The files of the road's planning task, and that of its finite-domain task.
ROAD_FILES = {"d": ROAD_DOMAIN, "p": ROAD_PROBLEM}
ROAD_SAS_FILES = {"s": ROAD_SAS}


class CommandLine(ProgramTest):
    """Help, the version, unknown commands, files with unusual names, and options that are refused."""

    # The arguments, and texts that their help contains.
    HELP_ROWS = [
        (["--help"], ["Validates PDDL plans", "Usage: optplan", "validate", "check-sas"]),
        (["-h"], ["Usage: optplan", "validate", "check-sas"]),
        (["check-sas", "--help"], ["Usage: optplan check-sas [OPTIONS] <SAS> <CERT>", "accepted unsolvable"]),
        (["check-sas", "s", "--help"], ["Usage: optplan check-sas [OPTIONS] <SAS> <CERT>"]),
        (["solve", "--help"], ["Usage: optplan solve", "--ties <ORDER>", "fresh", "shallow", "deep", "f-value of a cheapest plan"]),
        (["solve-sas", "--help"], ["Usage: optplan solve-sas", "--ties <ORDER>", "fresh", "shallow", "deep", "f-value of a cheapest plan"]),
        (["validate", "--help"], ["Usage: optplan validate [OPTIONS] <DOMAIN> <PROBLEM> <PLAN>", "goal open LITERAL"]),
        (["validate", "d", "--help"], ["Usage: optplan validate [OPTIONS] <DOMAIN> <PROBLEM> <PLAN>"]),
    ]

    WRONG_ROWS = [
        [],
        [""],
        ["check"],
        ["Validate", "d", "p", "l"],
        ["validat", "d", "p", "l"],
        ["d", "p", "l"],
        ["validate"],
        ["validate", "d"],
        ["validate", "d", "p"],
        ["validate", "d", "p", "l", "l"],
        ["validate", "--quiet", "d", "p", "l"],
        ["validate", "d", "p", "l", "--quiet"],
        ["--quiet", "validate", "d", "p", "l"],
        ["validate", "validate", "d", "p", "l"],
        ["validate", "-x", "p", "l"],
        ["validate", "d", "p", "-x"],
        ["check-sas"],
        ["check-sas", "s"],
        ["check-sas", "s", "c", "c"],
        ["check-sas", "-x", "c"],
        ["check-sas", "s", "-x"],
        ["check-sas", "--quiet", "s", "c"],
        ["check-sas", "s", "c", "--quiet"],
        ["Check-sas", "s", "c"],
        ["check", "s", "c"],
        ["checksas", "s", "c"],
        ["s", "c"],
        ["validate", "s", "c"],
        ["check-sas", "d", "p", "l"],
    ]

    CHECK_NAME_ROWS = [
        ["check-sas", "s", "c"],
        ["check-sas", "--", "-x", "c"],
        ["check-sas", "s", "--", "--help"],
        ["check-sas", "s s", "c"],
        ["check-sas", "é", "c"],
        ["check-sas", "check-sas", "c"],
        ["check-sas", "./-x", "c"],
    ]

    # Arguments whose files have unusual names.
    NAME_ROWS = [
        ["validate", "--", "-x", "p", "l"],
        ["validate", "d", "p", "--", "--help"],
        ["validate", "d d", "p", "l"],
        ["validate", "é", "p", "l"],
        ["validate", "validate", "p", "l"],
        ["validate", "./-x", "p", "l"],
    ]

    # Options after `solve d p`, and a text that the error contains.
    REFUSED_ROWS = [
        (["--simulate"], "--simulate <SEED>"),
        (["--simulate", "x"], "invalid value 'x' for '--simulate'"),
        (["--simulate", ""], "--simulate"),
        (["--simulate", "+1"], "invalid value '+1' for '--simulate'"),
        (["--simulate", "9223372036854775808"], "'--simulate'"),
        (["--simulate", "1", "--simulate", "1"], "'--simulate <SEED>'"),
        (["--simulate", "1", "--workers", "0"], "invalid value '0' for '--workers': not a number from 1 to 64"),
        (["--simulate", "1", "--workers=65"], "invalid value '65' for '--workers'"),
        (["--simulate", "1", "--ring", "65537"], "invalid value '65537' for '--ring'"),
        (["--simulate", "1", "--ring", "0"], "invalid value '0' for '--ring'"),
        (["--simulate", "1", "--table", "16777217"], "invalid value '16777217' for '--table'"),
        (["--simulate", "1", "--limit", "99999999999999999999"], "'--limit'"),
        (["--ties", "wide"], "invalid value 'wide' for '--ties': not one of fresh, shallow and deep"),
        (["--ties", "Deep"], "invalid value 'Deep' for '--ties'"),
        (["--ties", "deeper"], "invalid value 'deeper' for '--ties'"),
        (["--ties", "Fresh"], "invalid value 'Fresh' for '--ties'"),
        (["--simulate", "1", "--ties", "fres"], "invalid value 'fres' for '--ties'"),
        (["--ties", ""], "--ties"),
        (["--ties"], "--ties <ORDER>"),
        (["--ties", "deep", "--ties", "deep"], "'--ties <ORDER>'"),
        (["--tables", "wide"], "invalid value 'wide' for '--tables': neither staged nor goal"),
        (["--tables", "Goal"], "invalid value 'Goal' for '--tables'"),
        (["--tables", "staged", "--table", "5"], "invalid value 'staged' for '--tables': only goal goes with --table or --simulate"),
        (["--simulate", "1", "--tables", "staged"], "invalid value 'staged' for '--tables': only goal goes with --table or --simulate"),
        (["--tables"], "--tables <CHOICE>"),
        (["--tables", "goal", "--tables", "goal"], "'--tables <CHOICE>'"),
        (["--simulate", "1", "--steps", "1e6"], "invalid value '1e6' for '--steps'"),
        (["--simulate", "1", "--time", "0.5"], "invalid value '0.5' for '--time'"),
        (["--time", "9223372036854775808"], "'--time'"),
        (["--simulate", "1", "--plan"], "--plan <FILE>"),
        (["--simulate", "1", "x"], "'x'"),
        (["--simulate", "1", "--quick"], "'--quick'"),
    ]

    def test_help(self):
        for words, texts in self.HELP_ROWS:
            with self.subTest(words=words):
                outcome = run(*words)
                for text in texts:
                    self.assertIn(text, outcome.out.decode())
                self.assertEqual((outcome.err, outcome.status), (b"", 0))

    def test_version(self):
        for word in ["--version", "-V"]:
            with self.subTest(word=word):
                self.assertEqual(run(word), Outcome(out=b"optplan 0.1.0\n"))

    def test_wrong_words(self):
        files = {"d": ROAD_DOMAIN, "-x": ROAD_DOMAIN, "p": ROAD_PROBLEM, "l": "", "s": ROAD_SAS, "c": ROAD_CERTIFICATE}
        for words in self.WRONG_ROWS:
            with self.subTest(words=words):
                outcome = run(*words, files=files)
                self.assertEqual((outcome.out, outcome.status), (b"", 2))
                self.assertTrue(outcome.err, "nothing is reported")

    def test_words_that_are_no_text(self):
        line = b"error: invalid UTF-8 was detected in one or more arguments\n"
        for words in ([b"\xff"], ["validate", b"d\xff", "p", "l"], ["solve", "d", "p", "--cert", b"\xc3"], [b"--\xe9\xe9"]):
            with self.subTest(words=words):
                self.assertEqual(run(*words, files={"d": ROAD_DOMAIN, "p": ROAD_PROBLEM, "l": ROAD_STEPS}), Outcome(err=line, status=2))

    def test_odd_names_of_a_check(self):
        files = {name: ROAD_SAS for name in ["s", "-x", "s s", "é", "check-sas"]}
        files |= {name: ROAD_CERTIFICATE for name in ["c", "--help"]}
        for words in self.CHECK_NAME_ROWS:
            self.is_answered(run(*words, files=files), "accepted 2", words=words)

    def test_odd_names(self):
        files = {name: ROAD_DOMAIN for name in ["d", "-x", "d d", "é", "validate"]}
        files |= {"p": ROAD_PROBLEM, "l": ROAD_STEPS, "--help": ROAD_STEPS}
        for words in self.NAME_ROWS:
            self.is_answered(run(*words, files=files), "valid 2", words=words)

    def test_refused_options(self):
        for options, text in self.REFUSED_ROWS:
            with self.subTest(options=options):
                outcome = run("solve", "d", "p", *options, files=ROAD_FILES)
                self.assertEqual((outcome.out, outcome.status), (b"", 2))
                self.assertIn(text, outcome.err.decode())


class Files(ProgramTest):
    """Missing files, files in a missing folder, and files that cannot be read or written."""

    # The names of the three files, and the expected outcome.
    MISSING_ROWS = [
        (["domain", "problem", "plan"], wanted("valid 2")),
        (["gone", "problem", "plan"], unread("domain")),
        (["domain", "gone", "plan"], unread("problem")),
        (["domain", "problem", "gone"], unread("plan")),
        (["gone", "gone", "gone"], unread("domain")),
        (["", "problem", "plan"], unread("domain")),
        # All files are read before any text is parsed.
        (["plan", "problem", "gone"], unread("plan")),
        # The position of an argument determines which text its file has.
        (["domain", "domain", "domain"], wanted("F10 Shape problem 0")),
        (["plan", "problem", "plan"], wanted("F7 Trailing domain 8")),
        (["domain", "problem", "problem"], wanted("F25 PlanShape plan 8")),
    ]

    # The names of the two files, and the expected outcome.
    MISSING_CHECK_ROWS = [
        (["sas", "cert"], wanted("accepted 2")),
        (["gone", "cert"], unread("sas")),
        (["sas", "gone"], unread("cert")),
        (["gone", "gone"], unread("sas")),
        (["", "cert"], unread("sas")),
        # Both files are read before any text is parsed.
        (["cert", "gone"], unread("cert")),
        # The position of an argument determines which text its file has, and the fault of the task is reported first.
        (["sas", "sas"], wanted("F50 Header cert")),
        (["cert", "cert"], wanted("F41 Expected sas 1")),
        (["cert", "sas"], wanted("F41 Expected sas 1")),
    ]

    # The arguments, and the outcome.
    FILE_WORD_ROWS = [
        (["solve", "gone", "p", "--simulate", "1"], unread("domain")),
        (["solve", "d", "gone", "--simulate", "1"], unread("problem")),
        (["validate", "d", "p", "gone"], unread("plan")),
        (["solve-sas", "gone", "--simulate", "1"], unread("sas")),
        (["check", "gone", "p", "c"], unread("domain")),
        (["check", "d", "gone", "gone"], unread("problem")),
        (["check", "d", "p", "gone"], unread("cert")),
        (["translate", "gone", "p"], unread("domain")),
        (["translate", "d", "gone"], unread("problem")),
        (["solve", "d", "p", "--simulate", "1", "--plan", "gone/l"], unwritten("plan")),
        (["solve", "d", "p", "--simulate", "1", "--cert", "gone/c"], unwritten("cert")),
    ]

    # Each command with its files, and the texts of these.
    COMMANDS = [
        ("validate", "d", "p", "l"),
        ("check", "d", "p", "c"),
        ("optimal", "d", "p", "l", "c"),
        ("translate", "d", "p"),
        ("solve", "d", "p"),
        ("check-sas", "s", "k"),
        ("solve-sas", "s"),
        ("migrate-cert", "c"),
    ]
    FILES = ROAD_FILES | ROAD_SAS_FILES | {"l": ROAD_STEPS, "c": example("road", "planning.cert"), "k": ROAD_CERTIFICATE}

    # What a fault calls each file, and the fault of a command's first file if its text is `)`.
    FILE_WORDS = {"d": "domain", "p": "problem", "l": "plan", "s": "sas", "c": "cert", "k": "cert"}
    FAULTS = {"d": "F3 StrayClose domain 0", "s": "F41 Expected sas 1", "c": "F53 Truncated cert"}

    def test_files_that_are_not_there(self):
        files = {"domain": ROAD_DOMAIN, "problem": ROAD_PROBLEM, "plan": ROAD_STEPS}
        for names, outcome in self.MISSING_ROWS:
            with self.subTest(names=names):
                self.assertEqual(run("validate", *names, files=files), outcome)

    def test_files_of_a_check_that_are_not_there(self):
        files = {"sas": ROAD_SAS, "cert": ROAD_CERTIFICATE}
        for names, outcome in self.MISSING_CHECK_ROWS:
            with self.subTest(names=names):
                self.assertEqual(run("check-sas", *names, files=files), outcome)

    def test_files_by_their_words(self):
        for words, outcome in self.FILE_WORD_ROWS:
            with self.subTest(words=words):
                self.assertEqual(run(*words, files=ROAD_FILES), outcome)

    def test_files_that_cannot_be_read(self):
        # A folder, and a file whose first bytes cannot be read.
        for command, *letters in self.COMMANDS:
            for number, letter in enumerate(letters):
                for name in (".", "/proc/self/mem"):
                    words = (command, *letters[:number], name, *letters[number + 1:])
                    with self.subTest(words=words):
                        self.assertEqual(run(*words, files=self.FILES), unread(self.FILE_WORDS[letter]))

    def test_files_that_cannot_be_written(self):
        # A file in a missing folder, and a folder.
        for task in (("solve", "d", "p"), ("solve-sas", "s")):
            for schedule in (("--simulate", "1"), ("--workers", "2")):
                for file in ("plan", "cert"):
                    for name in ("gone/f", "."):
                        words = (*task, *schedule, f"--{file}", name)
                        with self.subTest(words=words):
                            self.assertEqual(run(*words, files=self.FILES), unwritten(file))

    def test_standard_output_that_cannot_be_written(self):
        for words in self.COMMANDS:
            with self.subTest(words=words):
                self.assertEqual(run(*words, files=self.FILES).err, b"")
                self.assertEqual(run(*words, files=self.FILES, full=("stdout",)), unwritten("output"))

    def test_standard_error_that_cannot_be_written(self):
        # The status is that of the fault all the same.
        for command, letter, *others in self.COMMANDS:
            files = self.FILES | {letter: ")"}
            with self.subTest(command=command):
                self.is_answered(run(command, letter, *others, files=files), self.FAULTS[letter])
                self.assertEqual(run(command, letter, *others, files=files, full=("stderr",)), Outcome(status=1))
                self.assertEqual(run(command, "gone", *others, files=files, full=("stderr",)), Outcome(status=7))
                self.assertEqual(run(command, letter, *others, files=self.FILES, full=("stdout", "stderr")), Outcome(status=7))

    def test_what_cannot_be_written_does_not_keep_the_rest(self):
        # A device that is full, and a standard output that is.
        for words in (("solve", "d", "p", "--simulate", "1"), ("solve", "d", "p", "--workers", "2"), ("solve-sas", "s", "--workers", "2")):
            for file in ("plan", "cert"):
                with self.subTest(words=words, file=file):
                    outcome = run(*words, f"--{file}", "/dev/full", files=self.FILES)
                    self.assertEqual(outcome, dataclasses.replace(unwritten(file), out=ROAD_PLAN.encode()))
        outcome = run("solve", "d", "p", "--simulate", "1", "--plan", "l", "--cert", "c", files=ROAD_FILES, full=("stdout",))
        self.assertEqual((outcome.err, outcome.status, outcome.files["l"]), (unwritten("output").err, 7, ROAD_PLAN.encode()))
        self.assertTrue(outcome.files["c"].endswith(b"end\n"))

    def test_files_are_created_in_order_before_the_search(self):
        words = ("solve", "d", "p", "--simulate", "1")
        outcome = run(*words, "--plan", "gone/l", "--cert", "c", files=ROAD_FILES)
        self.assertEqual(outcome, dataclasses.replace(unwritten("plan"), files={"c": b""}))
        self.assertEqual(run(*words, "--plan", "l", "--cert", "gone/c", files=ROAD_FILES), unwritten("cert"))

    def test_files_are_emptied_where_there_is_no_plan(self):
        files = {"d": ROAD_DOMAIN, "p": ROAD_PROBLEM_WITHOUT_WAY, "l": "of an earlier run", "c": "of an earlier run"}
        outcome = run("solve", "d", "p", "--simulate", "1", "--plan", "l", "--cert", "c", files=files)
        self.assertEqual((outcome.out, outcome.err, outcome.status, outcome.files["l"]), (b"unsolvable\n", b"", 4, b""))
        self.assertEqual(checked(ROAD_DOMAIN, ROAD_PROBLEM_WITHOUT_WAY, outcome.files["c"]), wanted("accepted unsolvable"))

    # The arguments of a text that is refused, and the fault.
    REFUSED_TEXT_ROWS = [
        (("solve", "d", "d", "--simulate", "1"), "F10 Shape problem 0"),
        (("solve-sas", "d"), "F41 Expected sas 1"),
    ]

    def test_refused_texts_leave_files_as_they_were(self):
        files = ROAD_FILES | {"l": "of an earlier run", "c": "of an earlier run"}
        for words, fault in self.REFUSED_TEXT_ROWS:
            self.is_answered(run(*words, "--plan", "l", "--cert", "c", files=files), fault, words=words)

    # The arguments by which a file is written that is read too, or two texts to one file, and the option that is
    # refused.
    TAKEN_ROWS = [
        (("solve", "d", "p", "--plan", "d"), "plan"),
        (("solve", "d", "p", "--plan", "p"), "plan"),
        (("solve", "d", "p", "--cert", "d"), "cert"),
        (("solve", "d", "p", "--cert=p"), "cert"),
        (("solve", "d", "p", "--cert", "x", "--plan", "x"), "plan"),
        (("solve-sas", "s", "--plan", "s"), "plan"),
        (("solve-sas", "s", "--cert", "s"), "cert"),
        (("solve-sas", "s", "--plan", "x", "--cert", "x"), "plan"),
        # No file is read before.
        (("solve", "gone", "p", "--plan", "gone"), "plan"),
    ]

    def test_a_file_has_one_text(self):
        for words, option in self.TAKEN_ROWS:
            with self.subTest(words=words):
                outcome = run(*words, files=ROAD_FILES | {"s": ROAD_SAS})
                self.assertEqual((outcome.out, outcome.status, outcome.files), (b"", 2, {}))
                self.assertIn(f"'--{option}'".encode(), outcome.err)

    def test_the_null_device_takes_both(self):
        outcome = run("solve", "d", "p", "--simulate", "1", "--plan", "/dev/null", "--cert", "/dev/null", files=ROAD_FILES)
        self.assertEqual(outcome, Outcome(out=ROAD_PLAN.encode()))


def with_line(text, number, line):
    """Returns a text with another line in place of the one of this number, counted from 1."""
    lines = text.split("\n")
    lines[number - 1] = line
    return "\n".join(lines)


class FaultLines(ProgramTest):
    """The lines of the faults of finite-domain tasks and certificates."""

    # The text has no variable, and its count of goals, in line 12, is negative.
    NEGATIVE_COUNT_SAS = ("begin_version\n3\nend_version\nbegin_metric\n0\nend_metric\n0\n0\nbegin_state\nend_state\n"
                          "begin_goal\n-1\nend_goal\n0\n0\n")

    SAS_ROWS = [
        (with_line(ROAD_SAS, 7, "65537"), "F18 Limit variables"),
        (with_line(ROAD_SAS, 11, "65537"), "F18 Limit values"),
        (with_line(ROAD_SAS, 30, "4294967296"), "F18 Limit operators"),
        (with_line(ROAD_SAS, 2, "4"), "F40 Version sas 2"),
        (with_line(ROAD_SAS, 1, "begin"), "F41 Expected sas 1"),
        (NEGATIVE_COUNT_SAS, "F42 Range sas 12"),
        (with_line(ROAD_SAS, 45, "1"), "F43 Axioms sas 45"),
        (with_line(ROAD_SAS, 35, "1 0 0 0 0 1"), "F44 ConditionalEffect sas 35"),
        (ROAD_SAS.removesuffix("0\n"), "F45 Truncated sas"),
        (ROAD_SAS + "0\n", "F46 Trailing sas 46"),
    ]

    CERT_ROWS = [
        (with_line(ROAD_CERTIFICATE, 1, "optplan-cert 4"), "F50 Header cert"),
        (with_line(ROAD_CERTIFICATE, 2, "fdr"), "F51 Expected cert 2"),
        (with_line(ROAD_CERTIFICATE, 3, "bound 02"), "F52 Number cert 3"),
        (ROAD_CERTIFICATE.removesuffix("end\n"), "F53 Truncated cert"),
        (ROAD_CERTIFICATE + "end\n", "F54 Trailing cert 9"),
    ]

    # The atoms of the one variable, in line 8, do not increase.
    UNORDERED_CERTIFICATE = "optplan-cert 1\npddl\nbound 2\natoms 2\nat a\nat b\nvars 1\n0 2 1 0\ncolumns 0\nclosed 0\nend\n"

    def test_faults_of_finite_domain_tasks(self):
        for sas, answer in self.SAS_ROWS:
            self.is_answered(checked_sas(sas, ROAD_CERTIFICATE), answer, sas=sas)

    def test_faults_of_certificates(self):
        for cert, answer in self.CERT_ROWS:
            self.is_answered(checked_sas(ROAD_SAS, cert), answer, cert=cert)
        self.is_answered(checked(ROAD_DOMAIN, ROAD_PROBLEM, self.UNORDERED_CERTIFICATE), "F55 Order cert 8")


@dataclasses.dataclass(frozen=True)
class Answer:
    """What the solver prints, its exit status, and the names of the files that it writes."""

    text: str
    status: int = 0
    written: tuple = ()


# Tables of the whole road have its length as the initial value, so the bound is 2 from the beginning.
LIMIT = Answer("limit 2\n", 5)
UNSOLVABLE = Answer("unsolvable\n", 4)


class SolverTest(ProgramTest):
    """Tests of what the solver prints and writes."""

    def puts(self, words, files, answer):
        """Fails unless these arguments have this answer, and nothing on standard error."""
        with self.subTest(words=words):
            outcome = run(*words, files=files)
            self.assertEqual(outcome.err, b"")
            self.assertEqual(Answer(outcome.out.decode(), outcome.status, tuple(sorted(outcome.files))), answer)


class Answers(SolverTest):
    """Answers, and the files that are written for them."""

    # Options after `solve d p`.
    ROWS = [
        (["--simulate", "1"], Answer(ROAD_PLAN)),
        (["--simulate=7", "--workers=1"], Answer(ROAD_PLAN)),
        (["--simulate", "1", "--workers", "064", "--ring", "1"], Answer(ROAD_PLAN)),
        (["--simulate", "1", "--plan", "l", "--cert", "c"], Answer(ROAD_PLAN, written=("c", "l"))),
        (["--simulate", "1", "--plan", "l"], Answer(ROAD_PLAN, written=("l",))),
        (["--cert", "c", "--simulate", "1"], Answer(ROAD_PLAN, written=("c",))),
        (["--simulate", "1", "--workers", "1", "--limit", "1", "--cert", "c"], Answer("limit 2\n", 5, ("c",))),
        (["--simulate", "1", "--steps", "1", "--plan", "l"], Answer("limit 2\n", 5, ("l",))),
        (["--simulate", "1", "--time", "0"], Answer(ROAD_PLAN)),
        (["--simulate", "9223372036854775807", "--table", "1"], Answer(ROAD_PLAN)),
        # With threads. The number of steps limits simulations alone.
        (["--steps", "0"], Answer(ROAD_PLAN)),
        (["--workers", "1", "--limit", "1", "--cert", "c"], Answer("limit 2\n", 5, ("c",))),
    ]

    def test_answers(self):
        for options, answer in self.ROWS:
            self.puts(["solve", "d", "p", *options], ROAD_FILES, answer)

    def test_no_way(self):
        files = {"d": ROAD_DOMAIN, "p": ROAD_PROBLEM_WITHOUT_WAY}
        self.puts(["solve", "d", "p", "--simulate", "3", "--plan", "l", "--cert", "c"], files, Answer("unsolvable\n", 4, ("c", "l")))

    def test_no_way_to_go(self):
        files = {"d": ROAD_DOMAIN, "p": ROAD_PROBLEM_AT_ITS_GOAL}
        self.puts(["solve", "--simulate", "3", "d", "p"], files, Answer("; cost = 0 (unit cost)\n"))

    def test_a_finite_domain_task(self):
        words = ["solve-sas", "s", "--simulate", "3"]
        self.puts([*words, "--plan", "l", "--cert", "c"], ROAD_SAS_FILES, Answer(ROAD_PLAN, written=("c", "l")))
        self.puts([*words, "--workers", "1", "--limit", "0"], ROAD_SAS_FILES, LIMIT)

    def test_refused_texts(self):
        files = {"d": ROAD_DOMAIN, "p": "(define (problem r1) (:domain road) (:goal (at c)))"}
        self.is_answered(run("solve", "d", "p", "--simulate", "1", "--cert", "c", files=files), "F12 UnknownName problem 47")
        self.is_answered(run("solve-sas", "s", "--simulate", "1", files={"s": "begin_version\n4\n"}), "F40 Version sas 2")


class SmallTasks(SolverTest):
    """Small tasks, with what is printed for them, worked out by hand."""

    # Nothing to do, with a road from a place to itself.
    NOTHING_TO_DO = """(define (problem r1) (:domain road)
 (:objects a - loc)
 (:init (at a) (road a a))
 (:goal (at a)))
"""

    # The texts of a task, by the number of workers that solve it.
    ROWS = {
        "4": [
            (DRIVE_DOMAIN, DRIVE_PROBLEM, Answer("(go a b)\n(go b c)\n; cost = 7 (general cost)\n")),
            (ROAD_DOMAIN, HALF_A_ROAD, UNSOLVABLE),
            (ROAD_DOMAIN, ROAD_TO_BE_MADE, UNSOLVABLE),
            (ROAD_DOMAIN, NOTHING_TO_DO, Answer("; cost = 0 (unit cost)\n")),
            (DOOR_DOMAIN, OPEN_DOOR, Answer("(enter d)\n; cost = 1 (unit cost)\n")),
            (DOOR_DOMAIN, LOCKED_DOOR, UNSOLVABLE),
        ],
        "64": [(DOOR_DOMAIN, LOCKED_DOOR, UNSOLVABLE)],
    }

    SCHEDULES = [("--simulate", "1"), *(("--workers", number) for number in ("1", "2", "4", "64"))]

    # A text of the task, another in its place, and the outcome.
    CHANGED_ROADS = [
        # Without the metric each operator costs 1.
        ("1\nend_operator", "5\nend_operator", Outcome(out=b"(go a b)\n(go b c)\n; cost = 2 (unit cost)\n")),
        ("1\nend_operator\n0\n", "1\nend_operator\n1\n", wanted("F43 Axioms sas 45")),
        ("0 0 0 1\n", "1 0 0 0 0 1\n", wanted("F44 ConditionalEffect sas 35")),
    ]

    def test_small_tasks(self):
        for workers, rows in self.ROWS.items():
            for domain, problem, answer in rows:
                with self.subTest(problem=problem):
                    self.puts(["solve", "d", "p", "--simulate", "1", "--workers", workers], {"d": domain, "p": problem}, answer)

    def test_two_balls_and_one_hand(self):
        # Pick a ball, move, drop it, move back, and the same for the other ball without the move back.
        for table in ["1", "3", "100000"]:
            with self.subTest(table=table):
                outcome = run("solve", "d", "p", "--simulate", "1", "--table", table, files={"d": GRIP_DOMAIN, "p": GRIP_PROBLEM})
                self.assertTrue(outcome.out.endswith(b"; cost = 7 (unit cost)\n"), outcome)
                self.assertEqual(outcome.status, 0)

    def test_changed_texts(self):
        for old, new, outcome in self.CHANGED_ROADS:
            for schedule in self.SCHEDULES:
                with self.subTest(new=new, schedule=schedule):
                    self.assertEqual(run("solve-sas", "s", *schedule, files={"s": ROAD_SAS.replace(old, new)}), outcome)
