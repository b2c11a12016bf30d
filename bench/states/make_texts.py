#!/usr/bin/env python3
"""Writes a domain and a problem: make_texts.py KIND SIZE ATOMS DOMAIN PROBLEM.

`formula`: the goal has SIZE nodes, and all of them are asked. `exists`: a quantifier over SIZE objects, of which
none serves. `trace`: no goal, and an action that touches three atoms. The state has ATOMS atoms.
"""
import math
import sys

DOMAIN = """(define (domain yard)
(:predicates (at ?x) (road-between ?x ?y))
(:action go :parameters (?x ?y) :precondition (at ?x)
:effect (and (not (at ?x)) (at ?y) (not (road-between ?x ?y)))))
"""


def goal_of(kind, size):
    if kind == "formula":
        parts = [f"(or (not (at object-0)) (road-between object-{n % 100} object-0) (= object-1 object-1))" for n in range(size // 5)]
        return "(:goal (and " + "\n".join(parts) + "))"
    if kind == "exists":
        return "(:goal (exists (?x) (road-between ?x object-0)))"
    return ""


def main():
    kind, size, atoms = sys.argv[1], int(sys.argv[2]), int(sys.argv[3])
    objects = {"exists": size, "trace": math.isqrt(atoms)}.get(kind, 200)
    with open(sys.argv[4], "w") as domain:
        domain.write(DOMAIN)
    with open(sys.argv[5], "w") as problem:
        problem.write("(define (problem q) (:domain yard)\n(:objects")
        for number in range(objects):
            problem.write(f"\n  object-{number}")
        problem.write(")\n(:htn)\n(:init (at object-0)")
        for number in range(atoms - 1):
            problem.write(f"\n  (road-between object-{number % objects} object-{(number // objects + 1) % objects})")
        problem.write(")\n" + goal_of(kind, size) + ")\n")


main()
