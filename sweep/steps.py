#!/usr/bin/env python3
"""Counts the steps that the search for candidates takes, where few of many ways are right.

sweep/steps.py PROGRAM

A node has N alike subtasks, each for one of N objects, so that there are N! ways to match its children with them, of which one is
right; what tells it is another thing in each kind. Valgrind counts the instructions of PROGRAM for 1, 8 and 16 subtasks, those
of 1 are taken off, and the count for 16 may be at most ten times that for 8. A search that tries the ways one by one has 40,320 of them
for 8, and for 16 no end. The status is 0 where all answers and all counts are as they should be."""

import os
import re
import subprocess
import sys
import tempfile

MOST_TIMES = 10
SECONDS = 60
LIMIT = str(2**64 - 1)


def many(form, count, joint=" "):
    return joint.join(form.format(number, number + 1) for number in range(count))


def texts(count, declared="", typed="", precondition="", constraints="", first="", objects="", init="", missing=False):
    """A node whose children come in the reverse of the order of its subtasks, with what tells them apart."""
    subtasks = first + many("(visit ?x{0}) ", count) + ("(leave)" if missing else "")
    parameters = typed or many("?x{0} ", count)
    domain = f"""(define (domain steps) {declared} (:predicates (next ?a ?b) (seen ?a)) (:task all)
(:method m :parameters ({parameters}) :task (all) {precondition} :subtasks (and {subtasks}) {constraints})
(:action visit :parameters (?a)) (:action leave) (:action stay)
(:action list :parameters ({many("?x{0} ", count)})))
"""
    problem = f"(define (problem steps) (:domain steps) {objects} (:htn :subtasks (all)) (:init {init}))\n"
    lines = [f"{number} visit o{number}" for number in reversed(range(count))]
    children = [str(number) for number in reversed(range(count))]
    if first:
        lines.append(f"{count} list " + many("o{0}", count))
        children.append(str(count))
    if missing:
        lines.append(f"{count} stay")
        children.append(str(count))
    plan = "\n".join(["==>", *lines, f"root {count + 1}", f"{count + 1} all -> m " + " ".join(children), "<==", ""])
    return domain, problem, plan


def by_types(count):
    """Each parameter has a type of its own, and each object."""
    return texts(
        count,
        declared=f"(:types {many('t{0}', count)}) (:constants {many('o{0} - t{0}', count)})",
        typed=many("?x{0} - t{0}", count),
    )


def by_constraints(count):
    """For each parameter all objects but one are ruled out."""
    apart = " ".join(f"(not (= ?x{number} o{other}))" for number in range(count) for other in range(count) if other != number)
    return texts(count, declared=f"(:constants {many('o{0}', count)})", constraints=f":constraints (and {apart})")


def by_a_last_subtask(count):
    """A subtask behind the others says all their objects."""
    domain, problem, plan = texts(count, first=f"(list {many('?x{0}', count)}) ", objects=f"(:objects {many('o{0}', count)})")
    first = f"(list {many('?x{0}', count)}) "
    subtasks = many("(visit ?x{0}) ", count)
    return domain.replace(first + subtasks, subtasks + first), problem, plan


def by_a_precondition(count):
    """A path through all objects that the precondition asks for."""
    path = many("(next ?x{0} ?x{1})", count - 1) or "(seen ?x0)"
    true = many("(next o{0} o{1})", count - 1) or "(seen o0)"
    return texts(count, precondition=f":precondition (and {path})", objects=f"(:objects {many('o{0}', count)})", init=true)


def by_a_child_that_is_not_there(count):
    """One more subtask, which no child does: no way is right."""
    return texts(count, objects=f"(:objects {many('o{0}', count)})", missing=True)


KINDS = {
    by_types: "solves",
    by_constraints: "solves",
    by_a_last_subtask: "solves",
    by_a_precondition: "solves",
    by_a_child_that_is_not_there: "fails",
}


def steps(program, folder, kind, count):
    """The instructions that a judgement takes, or None where the verdict is not as it should be, or does not come."""
    names = []
    for name, text in zip(("domain", "problem", "plan"), kind(count)):
        names.append(os.path.join(folder, name))
        with open(names[-1], "w") as file:
            file.write(text)
    command = ["valgrind", "--tool=callgrind", "--callgrind-out-file=/dev/null", program, "judge", "--limit", LIMIT, *names]
    try:
        done = subprocess.run(command, capture_output=True, text=True, timeout=SECONDS)
    except subprocess.TimeoutExpired:
        print(f"{kind.__name__} of {count}: no answer in {SECONDS} seconds")
        return None
    counted = re.search(r"Collected : (\d+)", done.stderr)
    if not counted or not done.stdout.startswith(KINDS[kind]):
        print(done.stdout, done.stderr[-300:])
        return None
    return int(counted.group(1))


def check(program, folder, kind):
    """Whether the count for 16 subtasks is no more than it may be."""
    least, few, some = (steps(program, folder, kind, count) for count in (1, 8, 16))
    if None in (least, few, some):
        return False
    is_right = some - least <= MOST_TIMES * (few - least)
    print(f"{kind.__name__:30} {few - least:10,} {some - least:10,} {'' if is_right else 'TOO MANY'}", flush=True)
    return is_right


def main():
    if len(sys.argv) != 2:
        raise SystemExit(__doc__)
    with tempfile.TemporaryDirectory() as folder:
        right = [check(sys.argv[1], folder, kind) for kind in KINDS]
    raise SystemExit(0 if all(right) else 1)


if __name__ == "__main__":
    main()
