#!/usr/bin/env python3
"""Makes random plans of a task with alike subtasks, in each kind of order, and has two programs judge each of them.

sweep/alike.py PROGRAM OTHER [--seed N] [--first N] [--count N] [--keep FOLDER]

The task has two to five subtasks of one name, in a chain, with some pairs of an order or with none, and its children are written in
another order. Each is done by one of four methods: without an action, with one, with one that fits anywhere, and with two. Their
preconditions bind variables that nothing else binds, by atoms that come and go on the way of the plan. One plan in five has actions
of two children exchanged. Both programs have the same command line. A plan is kept where their verdicts differ, where OTHER does not
certify what PROGRAM writes as a certificate, and where PROGRAM takes more than a second and twenty times as long as OTHER. The last
lines count the verdicts. The same seed makes the same plans."""

import argparse
import collections
import os
import random
import tempfile

from deep import is_alike

PLACES = [f"p{number}" for number in range(4)]
DOMAIN = """(define (domain alike) (:types place) (:predicates (at ?x - place) (ok ?x - place) (link ?x ?y - place))
(:task all) (:task one)
(:method all :task (all) {})
(:method stay :parameters (?z - place) :task (one) :precondition (and (at ?z) (ok ?z)) :subtasks ())
(:method move :parameters (?x ?y - place) :task (one) :precondition (link ?x ?y) :subtasks (go ?x ?y))
(:method rest :parameters (?z ?w - place) :task (one) :precondition (and (at ?z) (link ?z ?w) (not (ok ?w))) :subtasks (wait))
(:method both :parameters (?x ?y ?z - place) :task (one) :precondition (and (at ?x) (at ?z)) :ordered-subtasks (and (go ?x ?y) (wait)))
(:action go :parameters (?x ?y - place) :precondition (at ?x) :effect (and (not (at ?x)) (at ?y)))
(:action wait))
"""
PROBLEM = "(define (problem alike) (:domain alike) (:objects {} - place) (:htn :subtasks (all)) (:init {}))\n"


def network(chance, count):
    """The subtasks, in a chain, with some pairs or with none."""
    kind = chance.choice(("chain", "chain", "pairs", "none"))
    if kind != "pairs":
        return f":{'ordered-' * (kind == 'chain')}subtasks (and {'(one) ' * count})"
    subtasks = " ".join(f"(t{number} (one))" for number in range(count))
    pairs = [f"(< t{i} t{j})" for j in range(count) for i in range(j) if chance.random() < 0.4]
    return f":subtasks (and {subtasks})" + (f" :ordering (and {' '.join(pairs)})" if pairs else "")


def exchange(chance, actions, children):
    """Has two children do each a waiting of the other."""
    waits = [(child, place) for child in children for place, action in enumerate(child[1]) if actions[action] == "wait"]
    if len(waits) > 1:
        (one, at), (other, there) = chance.sample(waits, 2)
        one[1][at], other[1][there] = other[1][there], one[1][at]


def make_texts(chance):
    count = chance.randrange(2, 6)
    places = {chance.choice(PLACES) for _ in range(chance.randrange(1, 3))}
    init = [f"(at {place})" for place in sorted(places)] + [f"(ok {place})" for place in PLACES if chance.random() < 0.5]
    init += [f"(link {one} {other})" for one in PLACES for other in PLACES if chance.random() < 0.4]
    actions, children = [], []
    for _ in range(count):
        method = chance.choice(("stay", "move", "move", "rest", "both"))
        own = []
        if method in ("move", "both"):
            start = chance.choice(sorted(places) if chance.random() < 0.97 else PLACES)
            end = chance.choice(PLACES)
            places = places - {start} | {end}
            own.append(f"go {start} {end}")
        if method in ("rest", "both"):
            own.append("wait")
        children.append((method, list(range(len(actions), len(actions) + len(own)))))
        actions += own
    if chance.random() < 0.2:
        exchange(chance, actions, children)
    first, root = len(actions), len(actions) + count
    lines = [f"{number} {action}" for number, action in enumerate(actions)] + [f"root {root}"]
    lines += [" ".join(map(str, (first + number, "one ->", method, *own))) for number, (method, own) in enumerate(children)]
    lines.append(" ".join(map(str, (root, "all -> all", *chance.sample(range(first, root), count)))))
    domain = DOMAIN.format(network(chance, count))
    return domain, PROBLEM.format(" ".join(PLACES), " ".join(init)), "\n".join(["==>", *lines, "<==", ""])


def write(folder, texts):
    os.makedirs(folder, exist_ok=True)
    for name, text in zip(("domain", "problem", "plan"), texts):
        with open(f"{folder}/{name}", "w") as it:
            it.write(text)


def compare(doc, make_texts, keep):
    """Has two programs judge the texts that are made, and says how often their answers are the same."""
    words = argparse.ArgumentParser(description=doc, formatter_class=argparse.RawDescriptionHelpFormatter)
    words.add_argument("program")
    words.add_argument("other")
    words.add_argument("--seed", type=int, default=1)
    words.add_argument("--first", type=int, default=0)
    words.add_argument("--count", type=int, default=1000)
    words.add_argument("--keep", default=keep)
    given = words.parse_args()
    verdicts, kept = collections.Counter(), 0
    with tempfile.TemporaryDirectory() as folder:
        for number in range(given.first, given.first + given.count):
            texts = make_texts(random.Random(f"{given.seed} {number}"))
            write(folder, texts)
            verdict, is_same = is_alike(given.program, given.other, folder)
            verdicts[b" ".join(verdict.split()[:3]).decode()] += 1
            if not is_same:
                kept += 1
                write(f"{given.keep}/{given.seed}-{number}", texts)
    for verdict, count in verdicts.most_common():
        print(f"{count} {verdict}")
    print(f"{given.count} plans, {kept} kept")
    return kept > 0


if __name__ == "__main__":
    raise SystemExit(compare(__doc__, make_texts, "alike-kept"))
