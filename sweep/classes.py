#!/usr/bin/env python3
"""Makes random plans of a network with many subtasks of few names, and has two programs judge each of them.

sweep/classes.py PROGRAM OTHER [--seed N] [--first N] [--count N] [--keep FOLDER]

The network is the initial one or that of a method, and has up to 20 subtasks of three actions, whose terms are objects, parameters or,
at some positions, both. Its children do them in another order, with objects that are drawn for the parameters; in two plans of five
one child does something else, or what another does. Both programs have the same command line. A plan is kept where their verdicts
differ, where OTHER does not certify what PROGRAM writes as a certificate, and where PROGRAM takes more than a second and twenty times
as long as OTHER. The last lines count the verdicts. The same seed makes the same plans."""

from alike import compare

OBJECTS = [f"o{number}" for number in range(6)]
PARAMETERS = [f"?v{number}" for number in range(4)]
ARITIES = {"a": 1, "b": 2, "c": 3}
DOMAIN = """(define (domain classes) (:constants {}) (:task t :parameters (?x)){}
(:action a :parameters (?x)) (:action b :parameters (?x ?y)) (:action c :parameters (?x ?y ?z)))
"""
PROBLEM = "(define (problem classes) (:domain classes) (:htn {}) (:init))\n"


def term(chance, kind):
    """An object or a parameter, as stand at a position of a kind."""
    if kind == "object" or kind == "either" and chance.random() < 0.6:
        return chance.choice(OBJECTS)
    return chance.choice(PARAMETERS)


def spoil(chance, children):
    """Has one child do something else, or what another does."""
    place = chance.randrange(len(children))
    if chance.random() < 0.5:
        children[place] = chance.choice(children)
    else:
        name = chance.choice("abc")
        children[place] = (name, [chance.choice(OBJECTS) for _ in range(ARITIES[name])])


def make_texts(chance):
    kinds = {name: [chance.choice(("object", "object", "parameter", "either")) for _ in range(arity)] for name, arity in ARITIES.items()}
    names = [chance.choice(("a", "b", "c", "c")) for _ in range(chance.randrange(1, 21))]
    subtasks = [(name, [term(chance, kind) for kind in kinds[name]]) for name in names]
    bound = {parameter: chance.choice(OBJECTS) for parameter in PARAMETERS}
    children = [(name, [bound.get(word, word) for word in terms]) for name, terms in subtasks]
    if chance.random() < 0.4:
        spoil(chance, children)
    chance.shuffle(children)
    network = f"(and {' '.join(f'({name} {chr(32).join(terms)})' for name, terms in subtasks)})"
    apart = " :constraints (not (= ?v0 ?v1))" if chance.random() < 0.3 else ""
    lines = [f"{number} {name} {' '.join(objects)}" for number, (name, objects) in enumerate(children)]
    below = " ".join(map(str, range(len(children))))
    if chance.random() < 0.5:
        method, top = "", f":parameters ({' '.join(PARAMETERS)}) :subtasks {network}{apart}"
        lines.append(f"root {below}")
    else:
        method = f"\n(:method m :parameters ({' '.join(PARAMETERS)}) :task (t ?v0) :subtasks {network}{apart})"
        top = f":subtasks (t {bound['?v0']})"
        lines += ["root 100", f"100 t {bound['?v0']} -> m {below}"]
    return DOMAIN.format(" ".join(OBJECTS), method), PROBLEM.format(top), "\n".join(["==>", *lines, "<==", ""])


if __name__ == "__main__":
    raise SystemExit(compare(__doc__, make_texts, "classes-kept"))
