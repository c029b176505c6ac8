#!/usr/bin/env python3
"""Writes a planning task with many ground actions, the same one at each call.

    generate_grounding.py FOLDER PACKAGES

FOLDER gets domain.pddl and problem.pddl: 20 cities of 15 places each, a truck in each city, 22 airplanes, and PACKAGES
packages, from 1 to 700, which trucks and airplanes carry from any place to any other. With 0 packages it is another
task: a schema of 8 parameters over 60 objects, of which static preconditions leave 5,000 bindings. Standard output gets
the number of relaxed reachable atoms and that of the actions over them, computed from the sizes.
"""

import os
import sys

CITIES, PLACES, AIRPLANES = 20, 15, 22
GREATEST = 700

LOGISTICS = """(define (domain logistics)
 (:predicates (package ?o) (truck ?t) (airplane ?a) (airport ?p) (location ?l) (in-city ?l ?c) (city ?c) (at ?o ?l) (in ?p ?v))
 (:action load-truck :parameters (?o ?t ?l)
  :precondition (and (package ?o) (truck ?t) (location ?l) (at ?t ?l) (at ?o ?l))
  :effect (and (not (at ?o ?l)) (in ?o ?t)))
 (:action load-airplane :parameters (?o ?a ?l)
  :precondition (and (package ?o) (airplane ?a) (location ?l) (at ?o ?l) (at ?a ?l))
  :effect (and (not (at ?o ?l)) (in ?o ?a)))
 (:action unload-truck :parameters (?o ?t ?l)
  :precondition (and (package ?o) (truck ?t) (location ?l) (at ?t ?l) (in ?o ?t))
  :effect (and (not (in ?o ?t)) (at ?o ?l)))
 (:action unload-airplane :parameters (?o ?a ?l)
  :precondition (and (package ?o) (airplane ?a) (location ?l) (in ?o ?a) (at ?a ?l))
  :effect (and (not (in ?o ?a)) (at ?o ?l)))
 (:action drive-truck :parameters (?t ?f ?l ?c)
  :precondition (and (truck ?t) (location ?f) (location ?l) (city ?c) (at ?t ?f) (in-city ?f ?c) (in-city ?l ?c))
  :effect (and (not (at ?t ?f)) (at ?t ?l)))
 (:action fly-airplane :parameters (?a ?f ?l)
  :precondition (and (airplane ?a) (airport ?f) (airport ?l) (at ?a ?f))
  :effect (and (not (at ?a ?f)) (at ?a ?l))))
"""


def logistics_items(packages):
    """Yields the items of `:init`. The number of a truck, an airplane or a package determines its first place."""
    for city in range(CITIES):
        yield f"(city c{city}) (airport l{city}x0) (truck t{city}) (at t{city} l{city}x{city % PLACES})"
        for place in range(PLACES):
            yield f"(location l{city}x{place}) (in-city l{city}x{place} c{city})"
    for airplane in range(AIRPLANES):
        yield f"(airplane a{airplane}) (at a{airplane} l{airplane % CITIES}x0)"
    for package in range(packages):
        yield f"(package p{package}) (at p{package} l{package % CITIES}x{package % PLACES})"


def logistics(packages):
    """Returns the domain, the problem, and the numbers of atoms and actions."""
    places = CITIES * PLACES
    objects = [f"c{city} t{city}" for city in range(CITIES)]
    objects += [f"l{city}x{place}" for city in range(CITIES) for place in range(PLACES)]
    objects += [f"a{airplane}" for airplane in range(AIRPLANES)] + [f"p{package}" for package in range(packages)]
    goals = (f"(at p{package} l{(package + 7) % CITIES}x{(package + 4) % PLACES})" for package in range(packages))
    problem = (f"(define (problem logistics) (:domain logistics)\n (:objects {' '.join(objects)})\n"
               f" (:init {' '.join(logistics_items(packages))})\n (:goal (and {' '.join(goals)})))\n")
    static = 3 * CITIES + 2 * places + AIRPLANES + packages
    moving = places + AIRPLANES * CITIES
    carried = packages * (places + CITIES + AIRPLANES)
    actions = (2 * packages * (places + AIRPLANES * CITIES) + CITIES * PLACES * PLACES + AIRPLANES * CITIES * CITIES)
    return LOGISTICS, problem, static + moving + carried, actions


def chains():
    """Returns the same of the task without packages: relations e0 to e6, each from 5 or 2 objects to as many. Each
    chain through all of them is a binding."""
    sizes = [5, 2, 5, 2, 5, 5, 2, 1]  # the objects at each place of a chain; their product is 5,000
    parameters = " ".join(f"?x{place}" for place in range(8))
    conditions = " ".join(f"(e{place} ?x{place} ?x{place + 1})" for place in range(7))
    domain = (f"(define (domain chains) (:predicates {' '.join(f'(e{place} ?a ?b)' for place in range(7))} (done ?a ?b))\n"
              f" (:action go :parameters ({parameters}) :precondition (and {conditions}) :effect (done ?x0 ?x7)))\n")
    items = [f"(e{place} o{7 * place + a} o{7 * (place + 1) + b})"
             for place in range(7) for a in range(sizes[place]) for b in range(sizes[place + 1])]
    objects = " ".join(f"o{number}" for number in range(60))
    problem = f"(define (problem chains) (:objects {objects})\n (:init {' '.join(items)})\n (:goal ()))\n"
    return domain, problem, len(items) + sizes[0] * sizes[7], 5000


def main(arguments):
    """Writes the task and prints the two numbers."""
    if len(arguments) != 2 or not arguments[1].isdigit() or int(arguments[1]) > GREATEST:
        print(f"usage: generate_grounding.py FOLDER PACKAGES, with 0 to {GREATEST} packages", file=sys.stderr)
        return 2
    folder, packages = arguments[0], int(arguments[1])
    domain, problem, atoms, actions = logistics(packages) if packages else chains()
    os.makedirs(folder, exist_ok=True)
    for name, text in (("domain.pddl", domain), ("problem.pddl", problem)):
        with open(os.path.join(folder, name), "w", encoding="ascii") as file:
            file.write(text)
    print(f"{atoms} atoms, {actions} actions")
    return 0


if __name__ == "__main__":
    sys.exit(main(sys.argv[1:]))
