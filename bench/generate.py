#!/usr/bin/env python3
"""Writes a PDDL task of a given size and a valid plan for it, the same ones at each call.

    generate.py FOLDER SIZE

FOLDER gets domain.pddl, problem.pddl and plan.txt. Trucks drive back and forth on a square grid of places. Roads join
the nearest pairs of places, as many as SIZE asks for; each goes both ways, and each direction has a length of its own,
from 1 to 9. `:init` has SIZE items, rounded down to a multiple of 4, and the plan has SIZE steps, 40 to 1,000,000.
Standard output gets the plan's cost, the sum of its lengths.
"""

import os
import random
import sys

DOMAIN = """\
; Trucks drive along roads, each of which has a length.
(define (domain roads)
 (:requirements :typing :action-costs)
 (:types place truck - object)
 (:predicates (at ?truck - truck ?place - place) (road ?from ?to - place))
 (:functions (total-cost) - number (length ?from ?to - place) - number)
 (:action drive
  :parameters (?truck - truck ?from ?to - place)
  :precondition (and (at ?truck ?from) (road ?from ?to))
  :effect (and (not (at ?truck ?from)) (at ?truck ?to)
               (increase (total-cost) (length ?from ?to)))))
"""

LEAST_SIZE = 40
GREATEST_SIZE = 1_000_000  # items of :init
GREATEST_TEXT = 16_777_216  # bytes of one text
GREATEST_SIDE = 30  # places along a side of the grid: all their names have two letters or digits
GREATEST_LENGTH = 9  # one digit, so that the text is short
# The three trucks and the initial cost are 4 items, and so are those of each road.
TRUCKS = ["t", "u", "v"]
DIGITS = "0123456789abcdefghijklmnopqrstuvwxyz"
FIRST_NAME = 10 * 36  # a0: the least two-digit number of base 36 that begins with a letter


def place_name(place):
    """Returns the name of a place by its number: two digits of base 36, the first one a letter."""
    first, second = divmod(FIRST_NAME + place, 36)
    return DIGITS[first] + DIGITS[second]


def nearest_roads(side, wanted):
    """Returns the `wanted` nearest pairs of places in a grid of `side` times `side` places, each pair once."""
    offsets = [(down, right) for down in range(side) for right in range(1 - side, side) if (down, right) > (0, 0)]
    offsets.sort(key=lambda offset: (offset[0] ** 2 + offset[1] ** 2, offset))
    roads = []
    for down, right in offsets:
        for row in range(side - down):
            for column in range(max(0, -right), side - max(0, right)):
                if len(roads) == wanted:
                    return roads
                roads.append((row * side + column, (row + down) * side + column + right))
    return roads


def make_task(size):
    """Returns the problem's text, the plan's text and the plan's cost, for `size` items and steps.

    Of Python's random module it uses random() alone, whose numbers are the same in every version of Python.
    """
    chance = random.Random(size).random
    side = min(GREATEST_SIDE, max(3, int((size / 8) ** 0.5)))
    names = [place_name(place) for place in range(side * side)]
    roads = nearest_roads(side, size // 4 - 1)
    roads.sort(key=lambda road: chance())
    lengths = [{} for _ in names]  # for each place, the length of the road to each neighbour
    items = []
    for one, other in roads:
        for start, end in ((one, other), (other, one)):
            length = 1 + int(chance() * GREATEST_LENGTH)
            lengths[start][end] = length
            items.append(f"(road {names[start]} {names[end]})(= (length {names[start]} {names[end]}) {length})")
    places = [roads[number][0] for number in range(len(TRUCKS))]
    items.extend(f"(at {truck} {names[place]})" for truck, place in zip(TRUCKS, places))
    items.append("(= (total-cost) 0)")

    ways = [list(following) for following in lengths]
    steps = []
    cost = 0
    for step in range(size):
        number = step % len(TRUCKS)
        start = places[number]
        end = ways[start][int(chance() * len(ways[start]))]
        steps.append(f"(drive {TRUCKS[number]} {names[start]} {names[end]})\n")
        cost += lengths[start][end]
        places[number] = end

    goal = " ".join(f"(at {truck} {names[place]})" for truck, place in zip(TRUCKS, places))
    problem = "\n".join([
        f"(define (problem roads-{size}) (:domain roads)",
        " (:objects " + " ".join(TRUCKS) + " - truck",
        *(" ".join(names[row * side:(row + 1) * side]) for row in range(side)),
        " - place)",
        " (:init", *items, " )",
        f" (:goal (and {goal}))",
        " (:metric minimize (total-cost)))",
        "",
    ])
    return problem, "".join(steps), cost


def main(arguments):
    """Writes the three files and prints the cost. The status is 2 if the arguments are wrong."""
    if len(arguments) != 2 or not arguments[1].isdecimal():
        print("usage: generate.py FOLDER SIZE", file=sys.stderr)
        return 2
    folder, size = arguments[0], int(arguments[1])
    if not LEAST_SIZE <= size <= GREATEST_SIZE:
        print(f"generate.py: SIZE is {LEAST_SIZE} to {GREATEST_SIZE}", file=sys.stderr)
        return 2
    problem, plan, cost = make_task(size)
    os.makedirs(folder, exist_ok=True)
    for name, text in (("domain.pddl", DOMAIN), ("problem.pddl", problem), ("plan.txt", plan)):
        assert len(text) <= GREATEST_TEXT, f"{name} is too long"
        with open(os.path.join(folder, name), "w", encoding="ascii", newline="\n") as file:
            file.write(text)
    print(cost)
    return 0


if __name__ == "__main__":
    sys.exit(main(sys.argv[1:]))
