#!/usr/bin/env python3
"""Makes random plans in worlds of many types, and has two programs judge each of them.

sweep/typed.py PROGRAM OTHER [--seed N] [--first N] [--count N] [--keep FOLDER]

There are up to 150 types, one below the other in long chains or spread out, with objects of all of them. In two worlds of five some
types have two parents and some objects two types, and in one of five a variable is of two types. Methods bind variables of such types
by their preconditions alone, and an action has a quantifier over one. The other judge must read the whole language (for one that has to
be told, PROFILE=2). A plan is kept as `sweep/alike.py` has it. The same seed makes the same plans."""

from alike import compare

DOMAIN = """(define (domain typed) (:types {types}) (:predicates (p ?x) (r ?x ?y)) (:task t) (:task u)
(:method m :parameters (?x - {of} ?y - {other}) :task (t) :precondition (r ?x ?y) :subtasks (a ?x))
(:method n :parameters (?x - {of} ?y - {other}) :task (u) :precondition (and (r ?y ?x) (not (p ?y))) :subtasks ())
(:action a :parameters (?x - {of}) :precondition (p ?x))
(:action b :parameters (?x - {other}) :precondition (forall (?y - {of}) (or (p ?y) (r ?x ?y)))))
"""
PROBLEM = "(define (problem typed) (:domain typed) (:objects {objects}) (:htn :subtasks (and {subtasks})) (:init {init}))\n"


def make_parents(chance, count, is_forest):
    """For each type its parents, which have a smaller number, apart from second ones."""
    is_long = chance.random() < 0.6
    parents = [[]]
    for number in range(1, count):
        above = [] if chance.random() < 0.03 else [chance.randrange(max(0, number - 3) if is_long else 0, number)]
        if not is_forest and chance.random() < 0.05:
            above.append(chance.randrange(count))
        parents.append(above)
    return parents


def type_above(chance, parents, of):
    """A type that a chain leads to, not too far up."""
    for _ in range(len(parents)):
        if not parents[of] or chance.random() < 0.1:
            break
        of = chance.choice(parents[of])
    return of


def make_texts(chance):
    count, objects, is_forest = chance.choice((5, 70, 90, 150)), chance.choice((3, 20, 60, 200)), chance.random() < 0.6
    parents = make_parents(chance, count, is_forest)
    types = [f"t{it} - {f't{above}' if above is not None else 'object'}" for it in range(count) for above in parents[it] or [None]]
    of_objects = [[chance.randrange(count)] + [chance.randrange(count)] * (not is_forest and chance.random() < 0.05) for _ in range(objects)]
    declared = [f"o{it} - t{of}" for it, all_of in enumerate(of_objects) for of in all_of] + ["z - object"] * (chance.random() < 0.3)
    chance.shuffle(types)
    chance.shuffle(declared)
    one, two = chance.randrange(objects), chance.randrange(objects)
    of, other = type_above(chance, parents, of_objects[one][0]), type_above(chance, parents, of_objects[two][0])
    words = f"(either t{of} t{other})" if chance.random() < 0.2 else f"t{of}"
    init = [f"(p o{it})" for it in range(objects) if chance.random() < 0.7]
    init += [f"(r o{chance.randrange(objects)} o{chance.randrange(objects)})" for _ in range(chance.choice((0, 5, 100)))]
    actions, lines, tasks = [f"0 a o{one}"], ["2 t -> m 0"], [(2, "(t)")]
    if chance.random() < 0.3:
        actions.append(f"1 b o{two}")
        tasks.append((1, f"(b o{two})"))
    if chance.random() < 0.6:
        lines.append("3 u -> n")
        tasks.append((3, "(u)"))
    chance.shuffle(tasks)
    root = " ".join(["root", *(str(line) for line, _ in tasks)])
    domain = DOMAIN.format(types=" ".join(types), of=words, other=f"t{other}")
    problem = PROBLEM.format(objects=" ".join(declared), subtasks=" ".join(it for _, it in tasks), init=" ".join(init))
    return domain, problem, "\n".join(["==>", *actions, root, *lines, "<==", ""])


if __name__ == "__main__":
    raise SystemExit(compare(__doc__, make_texts, "typed-kept"))
