#!/usr/bin/env python3
"""Writes a domain, a problem and a plan of so many lines: make_texts.py KIND LINES DOMAIN PROBLEM PLAN.

`flat`: all lines are actions below the root line. `wide`: half of the lines are decomposition lines below the root
line, with one action each. `chain`: each decomposition line has an action and the next such line as its children.
"""
import sys

DOMAIN = """(define (domain walk)
(:task rest :parameters ())
(:action step :parameters (?x))
(:method m-one :parameters (?x) :task (rest) :subtasks (step ?x))
(:method m-more :parameters (?x) :task (rest) :ordered-subtasks (and (step ?x) (rest)))
(:method m-end :parameters () :task (rest) :ordered-subtasks ()))
"""


def flat(lines):
    return "(step o)", lines, [f"{k} step o" for k in range(lines)], range(lines)


def wide(lines):
    half = lines // 2
    plan = [f"{k} step o" for k in range(half)] + [f"{half + k} rest -> m-one {k}" for k in range(half)]
    return "(rest)", half, plan, range(half, 2 * half)


def chain(lines):
    half = lines // 2
    plan = [f"{k} step o" for k in range(half - 1)]
    plan += [f"{half + k} rest -> m-more {k} {half + k + 1}" for k in range(half - 1)]
    return "(rest)", 1, plan + [f"{2 * half - 1} rest -> m-end"], [half]


def main():
    kind, lines = sys.argv[1], int(sys.argv[2])
    subtask, subtasks, plan, root = {"flat": flat, "wide": wide, "chain": chain}[kind](lines)
    with open(sys.argv[3], "w") as domain:
        domain.write(DOMAIN)
    with open(sys.argv[4], "w") as problem:
        problem.write("(define (problem q) (:domain walk) (:objects o)\n(:htn :parameters () :subtasks (and")
        problem.writelines(f"\n  {subtask}" for _ in range(subtasks))
        problem.write("))\n(:init))\n")
    with open(sys.argv[5], "w") as text:
        text.write("==>\n" + "\n".join(plan) + "\nroot " + " ".join(map(str, root)) + "\n<==\n")


main()
