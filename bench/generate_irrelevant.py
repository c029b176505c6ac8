#!/usr/bin/env python3
"""Writes planning tasks in which much is there that no goal needs, for the benchmark of the reduction.

    generate_irrelevant.py FOLDER

Each task is FOLDER/NAME.domain.pddl and FOLDER/NAME.problem.pddl; `optplan translate` makes its output.sas. visit-half4
to visit-half7 are grids of which half of the cells is to be visited; satellites3 to satellites5 have goals for some of
the images; rovers2, rovers2b and rovers3 have goals for some of the samples and images.
"""

import os
import sys

VISIT = """(define (domain visit) (:requirements :strips :typing) (:types cell)
 (:predicates (at ?c - cell) (seen ?c - cell) (next ?a ?b - cell))
 (:action move :parameters (?a ?b - cell)
  :precondition (and (at ?a) (next ?a ?b))
  :effect (and (not (at ?a)) (at ?b) (seen ?b))))
"""

SATELLITE = """(define (domain satellite) (:requirements :strips :typing) (:types sat dir inst mode)
 (:predicates (on-board ?i - inst ?s - sat) (supports ?i - inst ?m - mode) (pointing ?s - sat ?d - dir) (power-avail ?s - sat)
  (power-on ?i - inst) (calibrated ?i - inst) (have-image ?d - dir ?m - mode) (target ?i - inst ?d - dir))
 (:action turn :parameters (?s - sat ?new ?old - dir)
  :precondition (pointing ?s ?old)
  :effect (and (pointing ?s ?new) (not (pointing ?s ?old))))
 (:action switch-on :parameters (?i - inst ?s - sat)
  :precondition (and (on-board ?i ?s) (power-avail ?s))
  :effect (and (power-on ?i) (not (calibrated ?i)) (not (power-avail ?s))))
 (:action switch-off :parameters (?i - inst ?s - sat)
  :precondition (and (on-board ?i ?s) (power-on ?i))
  :effect (and (not (power-on ?i)) (power-avail ?s)))
 (:action calibrate :parameters (?s - sat ?i - inst ?d - dir)
  :precondition (and (on-board ?i ?s) (target ?i ?d) (pointing ?s ?d) (power-on ?i))
  :effect (calibrated ?i))
 (:action take :parameters (?s - sat ?d - dir ?i - inst ?m - mode)
  :precondition (and (calibrated ?i) (on-board ?i ?s) (supports ?i ?m) (power-on ?i) (pointing ?s ?d))
  :effect (have-image ?d ?m)))
"""

ROVERS = """(define (domain rovers) (:requirements :strips :typing) (:types rover way)
 (:predicates (at ?r - rover ?w - way) (way ?a ?b - way) (sample ?w - way) (empty ?r - rover) (full ?r - rover) (has ?r - rover ?w - way)
  (visible ?w - way) (sent ?w - way) (camera ?r - rover) (calibrated ?r - rover) (image ?r - rover ?w - way) (sent-image ?w - way))
 (:action go :parameters (?r - rover ?a ?b - way)
  :precondition (and (at ?r ?a) (way ?a ?b))
  :effect (and (not (at ?r ?a)) (at ?r ?b)))
 (:action pick :parameters (?r - rover ?w - way)
  :precondition (and (at ?r ?w) (sample ?w) (empty ?r))
  :effect (and (not (sample ?w)) (not (empty ?r)) (full ?r) (has ?r ?w)))
 (:action drop :parameters (?r - rover)
  :precondition (full ?r)
  :effect (and (not (full ?r)) (empty ?r)))
 (:action send :parameters (?r - rover ?s ?w - way)
  :precondition (and (has ?r ?s) (at ?r ?w) (visible ?w))
  :effect (sent ?s))
 (:action calibrate :parameters (?r - rover ?w - way)
  :precondition (and (camera ?r) (at ?r ?w))
  :effect (calibrated ?r))
 (:action shoot :parameters (?r - rover ?w - way)
  :precondition (and (calibrated ?r) (at ?r ?w))
  :effect (and (image ?r ?w) (not (calibrated ?r))))
 (:action send-image :parameters (?r - rover ?s ?w - way)
  :precondition (and (image ?r ?s) (at ?r ?w) (visible ?w))
  :effect (sent-image ?s)))
"""


def problem(domain, objects, initial, goals):
    """Returns the text of a problem; `objects` are lists of names by type."""
    listed = " ".join(f"{' '.join(names)} - {kind}" for kind, names in objects.items())
    return f"(define (problem p) (:domain {domain})\n (:objects {listed})\n (:init {' '.join(initial)})\n (:goal (and {' '.join(goals)})))\n"


def grid(rows, columns):
    cells = [(row, column) for row in range(rows) for column in range(columns)]
    steps = [(a, b) for a in cells for b in cells if abs(a[0] - b[0]) + abs(a[1] - b[1]) == 1]
    name = "c{0[0]}-{0[1]}".format
    initial = ["(at c0-0)", "(seen c0-0)", *(f"(next {name(a)} {name(b)})" for a, b in steps)]
    return problem("visit", {"cell": map(name, cells)}, initial, [f"(seen {name(it)})" for it in cells if sum(it) % 2 == 0])


def satellites(count, directions, goals):
    initial = []
    for it in range(count):
        second = (it + 1) % 2 if it % 3 == 0 else it % 2
        initial.append(f"(on-board i{it} s{it}) (supports i{it} m{it % 2}) (supports i{it} m{second}) (pointing s{it} d{it % directions})"
                       f" (power-avail s{it}) (target i{it} d{(it + 1) % directions})")
    objects = {"sat": [f"s{it}" for it in range(count)], "dir": [f"d{it}" for it in range(directions)],
               "inst": [f"i{it}" for it in range(count)], "mode": ["m0", "m1"]}
    return problem("satellite", objects, initial, goals)


def rovers(count, waypoints, goals):
    ways = [f"(way w{it} w{(it + 1) % waypoints}) (way w{(it + 1) % waypoints} w{it})" for it in range(waypoints)]
    initial = [*ways, *(f"(at r{it} w{it}) (empty r{it}) (camera r{it})" for it in range(count)),
               *(f"(sample w{it})" for it in range(waypoints)), "(visible w0)", f"(visible w{waypoints // 2})"]
    return problem("rovers", {"rover": [f"r{it}" for it in range(count)], "way": [f"w{it}" for it in range(waypoints)]}, initial, goals)


TASKS = {
    "visit-half4": (VISIT, grid(4, 4)),
    "visit-half5": (VISIT, grid(5, 4)),
    "visit-half6": (VISIT, grid(6, 4)),
    "visit-half7": (VISIT, grid(6, 5)),
    "satellites3": (SATELLITE, satellites(3, 6, ["(have-image d2 m0)", "(have-image d3 m1)", "(have-image d5 m0)", "(pointing s0 d4)"])),
    "satellites4": (SATELLITE, satellites(4, 7, ["(have-image d2 m0)", "(have-image d3 m1)", "(have-image d5 m0)", "(have-image d6 m1)"])),
    "satellites5": (SATELLITE, satellites(5, 9, ["(have-image d2 m0)", "(have-image d3 m1)", "(have-image d5 m0)", "(have-image d6 m1)", "(have-image d7 m0)"])),
    "rovers2": (ROVERS, rovers(2, 6, ["(sent w2)", "(sent w4)", "(sent-image w5)"])),
    "rovers2b": (ROVERS, rovers(2, 7, ["(sent w2)", "(sent w4)", "(sent w5)", "(sent-image w6)"])),
    "rovers3": (ROVERS, rovers(3, 8, ["(sent w2)", "(sent w4)", "(sent w5)", "(sent-image w6)", "(sent-image w7)"])),
}


def main(arguments):
    if len(arguments) != 1 or arguments[0].startswith("-"):
        print(__doc__)
        return 0 if arguments == ["--help"] else 2
    for name, texts in TASKS.items():
        for kind, text in zip(("domain", "problem"), texts):
            with open(os.path.join(arguments[0], f"{name}.{kind}.pddl"), "w", encoding="ascii") as file:
                file.write(text)
    return 0


if __name__ == "__main__":
    sys.exit(main(sys.argv[1:]))
