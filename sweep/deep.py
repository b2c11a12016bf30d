#!/usr/bin/env python3
"""Makes random plans whose trees are deeper than the solver keeps what waits, and has two programs judge each of them.

sweep/deep.py PROGRAM OTHER [--seed N] [--first N] [--count N] [--keep FOLDER]

Each plan has one recursive task, and at each level of one to two and a half thousand a method of those below: with and without a
precondition, in an order and without one, with subtasks of two names and of one, with and without a parameter. One plan in five is
spoilt: a precondition, an order or an action does not fit somewhere. Both programs have the same command line. A plan is kept where
their verdicts differ, where OTHER does not certify what PROGRAM writes as a certificate, and where PROGRAM takes more than a second
and twenty times as long as OTHER. The last lines count the verdicts. The same seed makes the same plans."""

import argparse
import collections
import os
import random
import subprocess
import tempfile
import time

DOMAIN = """(define (domain deep) (:predicates (lit) (seen ?x)) (:constants k0 k1 k2)
(:task go) (:task look) (:task visit :parameters (?x))
(:method end :task (go) :subtasks ())
(:method end-lit :task (go) :precondition (lit) :subtasks ())
(:method on :task (go) :subtasks (go))
(:method on-dark :task (go) :precondition (not (lit)) :subtasks (go))
(:method light :task (go) :precondition (not (lit)) :ordered-subtasks (and (kindle) (go)))
(:method darken :task (go) :precondition (lit) :ordered-subtasks (and (quench) (go)))
(:method beside :task (go) :subtasks (and (go) (rest)))
(:method beside-lit :task (go) :precondition (lit) :subtasks (and (go) (rest)))
(:method behind :task (go) :ordered-subtasks (and (go) (rest)))
(:method behind-dark :task (go) :precondition (not (lit)) :ordered-subtasks (and (go) (rest)))
(:method look-beside :task (go) :subtasks (and (go) (look)))
(:method look-first :task (go) :ordered-subtasks (and (look) (go)))
(:method look-first-lit :task (go) :precondition (lit) :ordered-subtasks (and (look) (go)))
(:method look-last :task (go) :ordered-subtasks (and (go) (look)))
(:method twice :task (go) :ordered-subtasks (and (go) (go)))
(:method meet :parameters (?x) :task (go) :precondition (seen ?x) :ordered-subtasks (and (see ?x) (go)))
(:method call :parameters (?x ?y) :task (go) :precondition (seen ?y) :ordered-subtasks (and (visit ?x) (go)))
(:method fork :task (go) :subtasks (and (a (rest)) (b (go)) (c (look))) :ordering (and (< a b) (< a c)))
(:method blind :task (look) :subtasks ())
(:method look-lit :task (look) :precondition (lit) :subtasks ())
(:method look-dark :task (look) :precondition (not (lit)) :subtasks ())
(:method stare :task (look) :ordered-subtasks (and (rest) (rest)))
(:method known :parameters (?x) :task (visit ?x) :precondition (seen ?x) :subtasks ())
(:method new :parameters (?x) :task (visit ?x) :subtasks (see ?x))
(:action kindle :precondition (not (lit)) :effect (lit))
(:action quench :precondition (lit) :effect (not (lit)))
(:action rest)
(:action see :parameters (?x) :effect (seen ?x)))
"""
PROBLEM = "(define (problem deep) (:domain deep) (:htn :subtasks (go)) (:init (seen k0)))\n"
KINDS = (
    "on on-dark light darken beside beside-lit behind behind-dark look-beside look-first look-first-lit look-last twice meet call fork"
).split()
# methods that fit where the others do not
OTHER = {"light": "darken", "darken": "light", "on-dark": "on", "behind-dark": "behind", "beside-lit": "beside", "look-first-lit": "look-first"}


class Plan:
    """A plan that is made from the root down, with what is true where the way down stands."""

    def __init__(self, chance, is_sound):
        self.chance, self.is_sound = chance, is_sound
        self.before, self.behind, self.lines, self.last = [], [], [], 0
        self.is_lit, self.seen = False, {0}

    def fresh(self):
        self.last += 1
        return self.last

    def slips(self):
        """Something does not fit here, which in a sound plan is never so."""
        return not self.is_sound and self.chance.random() < 0.02

    def act(self, words, at):
        number = self.fresh()
        at.append(f"{number} {words}")
        return number

    def line(self, task, method, children=(), number=None):
        number = number or self.fresh()
        self.lines.append(" ".join(map(str, (number, task, "->", method, *children))))
        return number

    def look(self):
        method = self.chance.choice(("blind", "stare", "look-lit" if self.is_lit != self.slips() else "look-dark"))
        return self.line("look", method, [self.act("rest", self.before) for _ in range(2 * (method == "stare"))])

    def visit(self):
        item = self.chance.randrange(3)
        if item in self.seen and self.chance.random() < 0.5:
            return self.line(f"visit k{item}", "known")
        self.seen.add(item)
        return self.line(f"visit k{item}", "new", [self.act(f"see k{item}", self.before)])

    def fits(self, method):
        if method in ("darken", "beside-lit", "look-first-lit"):
            return self.is_lit
        return method not in ("light", "on-dark", "behind-dark") or not self.is_lit

    def children(self, method):
        """The children beside the one that is deeper."""
        if method in ("light", "darken"):
            self.is_lit = method == "light"
            return [self.act("kindle" if self.is_lit else "quench", self.before)]
        if method.startswith("beside"):
            return [self.act("rest", self.chance.choice((self.before, self.behind)))]
        if method.startswith("behind"):
            return [self.act("rest", self.before if self.slips() else self.behind)]
        if method == "look-last":
            return [self.line("look", "blind")]
        if method.startswith("look"):
            return [self.look()]
        if method == "twice":
            return [self.line("go", "end")]
        if method == "meet":
            item = self.chance.randrange(3) if self.slips() else self.chance.choice(sorted(self.seen))
            self.seen.add(item)
            return [self.act(f"see k{item}", self.before)]
        if method == "call":
            return [self.visit()]
        if method == "fork":
            return [self.act("rest", self.before), self.look()]
        return []

    def level(self, node, method):
        """One level, and the number of the next."""
        if not self.fits(method) and not self.slips():
            method = OTHER[method]
        below = self.fresh()
        children = [below, *self.children(method)]
        self.chance.shuffle(children)
        self.line("go", method, children, node)
        return below

    def text(self, root):
        actions = self.before + self.behind[::-1]
        if not self.is_sound and len(actions) > 1 and self.chance.random() < 0.5:
            at = self.chance.randrange(len(actions) - 1)
            one, other = (it.split(" ", 1)[1] for it in actions[at : at + 2])
            numbers = [it.split(" ", 1)[0] for it in actions[at : at + 2]]
            actions[at : at + 2] = [f"{numbers[1]} {other}", f"{numbers[0]} {one}"]
        self.chance.shuffle(self.lines)
        return "\n".join(["==>", *actions, f"root {root}", *self.lines, "<==", ""])


def make_plan(chance):
    plan = Plan(chance, chance.random() < 0.8)
    weights = [chance.choice((0, 0, 1, 1, 2, 5)) for _ in KINDS]
    weights[0] += not sum(weights)
    root = node = plan.fresh()
    for _ in range(chance.choice((1030, 1100, 1500, 2500))):
        node = plan.level(node, chance.choices(KINDS, weights)[0])
    plan.line("go", "end-lit" if plan.is_lit and chance.random() < 0.5 else "end", (), node)
    return plan.text(root)


def ask(program, folder, command, *more):
    """How a run ends, all that it writes, and how long it takes."""
    began = time.monotonic()
    words = [program, *command, *(f"{folder}/{name}" for name in ("domain", "problem", "plan", *more))]
    ran = subprocess.run(words, stdin=subprocess.DEVNULL, capture_output=True)
    return ran.returncode, ran.stdout, time.monotonic() - began


def is_certified(other, folder, certificate):
    with open(f"{folder}/certificate", "wb") as it:
        it.write(certificate)
    return ask(other, folder, ["recheck"], "certificate")[:2] == (0, b"certified\n")


def is_alike(program, other, folder):
    """The verdict of one, and whether nothing tells the two apart."""
    status, said, took = ask(program, folder, ["judge", "--explain"])
    other_status, other_said, other_took = ask(other, folder, ["judge"])
    verdict = said.split(b"\n")[0] + b"\n"
    is_same = (status, verdict) == (other_status, other_said) and took <= max(1, 20 * other_took)
    return verdict, is_same and (status != 0 or is_certified(other, folder, said))


def write(folder, plan):
    os.makedirs(folder, exist_ok=True)
    for name, text in (("domain", DOMAIN), ("problem", PROBLEM), ("plan", plan)):
        with open(f"{folder}/{name}", "w") as it:
            it.write(text)


def main():
    words = argparse.ArgumentParser(description=__doc__, formatter_class=argparse.RawDescriptionHelpFormatter)
    words.add_argument("program")
    words.add_argument("other")
    words.add_argument("--seed", type=int, default=1)
    words.add_argument("--first", type=int, default=0)
    words.add_argument("--count", type=int, default=1000)
    words.add_argument("--keep", default="deep-kept")
    given = words.parse_args()
    verdicts, kept = collections.Counter(), 0
    with tempfile.TemporaryDirectory() as folder:
        for number in range(given.first, given.first + given.count):
            plan = make_plan(random.Random(f"{given.seed} {number}"))
            write(folder, plan)
            verdict, is_same = is_alike(given.program, given.other, folder)
            verdicts[b" ".join(verdict.split()[:3]).decode()] += 1
            if not is_same:
                kept += 1
                write(f"{given.keep}/{given.seed}-{number}", plan)
    for verdict, count in verdicts.most_common():
        print(f"{count} {verdict}")
    print(f"{given.count} plans, {kept} kept")
    return kept > 0


if __name__ == "__main__":
    raise SystemExit(main())
