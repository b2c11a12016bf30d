#!/usr/bin/env python3
"""Writes a domain and a problem of some size: make_texts.py OBJECTS ATOMS SUBTASKS PAIRS DOMAIN PROBLEM.

There are a thousand types in chains of ten, objects of each in turn, atoms of three terms in `:init`, and a
method whose network has so many subtasks and pairs, each from an earlier to a later one.
"""
import random
import sys

TYPES = 1000


def write_domain(out, subtasks, pairs):
    chance = random.Random(1)
    out.write("(define (domain haul)\n(:types")
    for number in range(TYPES):
        parent = "object" if number % 10 == 0 else f"type-{number - 1}"
        out.write(f"\n  type-{number} - {parent}")
    out.write(")\n(:predicates (road-between ?a ?b - type-0 ?k))\n(:task all)\n(:action go :parameters (?a))\n")
    out.write("(:method all-of-it :task (all) :parameters (?a)\n:subtasks (and")
    for number in range(subtasks):
        out.write(f"\n  (label-{number} (go ?a))")
    out.write(")\n:ordering (and")
    for _ in range(pairs):
        earlier, later = sorted(chance.sample(range(subtasks), 2))
        out.write(f"\n  (< label-{earlier} label-{later})")
    out.write(")))\n")


def write_problem(out, objects, atoms):
    out.write("(define (problem q) (:domain haul)\n(:objects")
    for number in range(objects):
        out.write(f"\n  object-{number} - type-{number % TYPES}")
    out.write(")\n(:htn :subtasks (all))\n(:init")
    for number in range(atoms):
        out.write(f"\n  (road-between object-{number % objects} object-{number * 7 % objects} object-{number * 31 % objects})")
    out.write("))\n")


def main():
    objects, atoms, subtasks, pairs = (int(word) for word in sys.argv[1:5])
    with open(sys.argv[5], "w") as domain:
        write_domain(domain, subtasks, pairs)
    with open(sys.argv[6], "w") as problem:
        write_problem(problem, objects, atoms)


main()
