#!/usr/bin/env python3
"""Writes a domain, a problem and a plan of which some nodes have candidates: make_texts.py KIND SIZE DOMAIN PROBLEM PLAN.

`tour`: 20 nodes with SIZE alike children, each from one place to another; a path through the places fits in one order.
`late`: the same number of children and of nodes, but only constraints on the objects of all children say the order.
`free` and `equal`: a method with three parameters that nothing binds, with SIZE objects each; `equal` has a constraint
that the first two are one. `names`: a node of SIZE children, each of another action. `objects`: the same with one
action, and another object for each child. `typed`: as `late`, but each parameter has a type of its own instead of a
constraint. `last`: as `late`, but a last subtask, which has no rival, says the order. `mixed`: 20 nodes with SIZE alike
children, of which three do what no subtask wants. `chain`: SIZE nodes below one another, each with an action and the next
node for its children.
"""
import random
import sys

NODES = 20


def sequence(name, count):
    return " ".join(f"{name}{k}" for k in range(count))


def domain_of(*parts):
    return "(define (domain d)\n" + "\n".join(parts) + ")\n"


def problem_of(objects, subtasks):
    tasks = "\n  ".join(subtasks)
    return f"(define (problem q) (:domain d) (:objects {objects})\n(:htn :parameters () :ordered-subtasks (and {tasks}))\n(:init))\n"


def plan_of(actions, lines, root):
    return "==>\n" + "\n".join(actions + lines) + "\nroot " + " ".join(map(str, root)) + "\n<==\n"


def shuffled(count, seed):
    order = list(range(count))
    random.Random(seed).shuffle(order)
    return order


def many_nodes(size, action, arguments, subtasks, parameters, constraints, objects, last=None):
    """NODES nodes whose children do `action`, in an order of their own, and then what is last, if it is given: a subtask and what does it."""
    subtasks = subtasks + [last[0]] if last else subtasks
    method = f"(:method m :parameters ({parameters} ?n) :task (t ?n)\n:ordered-subtasks (and {' '.join(subtasks)}){constraints})"
    domain = domain_of(*objects[1], "(:task t :parameters (?n))", action, method)
    actions, lines, root = [], [], []
    for node in range(NODES):
        ids = [node * size + k for k in shuffled(size, node)]
        actions += [f"{node * size + k} a {arguments(k)}" for k in range(size)]
        if last:
            ids.append((size + 1) * NODES + node)
            actions.append(f"{ids[-1]} {last[1]}")
        root.append(NODES * size + node)
        lines.append(f"{root[-1]} t n{node} -> m {' '.join(map(str, ids))}")
    return domain, problem_of(f"{objects[0]} {sequence('n', NODES)}", [f"(t n{node})" for node in range(NODES)]), plan_of(actions, lines, root)


def tour(size):
    action = "(:action a :parameters (?x ?y))"
    subtasks = [f"(a ?x{k} ?x{k + 1})" for k in range(size)]
    return many_nodes(size, action, lambda k: f"o{k} o{k + 1}", subtasks, sequence("?x", size + 1), "", (sequence("o", size + 1), []))


def late(size):
    action = "(:action a :parameters (?x))"
    subtasks = [f"(a ?x{k})" for k in range(size)]
    equal = "\n:constraints (and " + " ".join(f"(= ?x{k} o{k})" for k in range(size)) + ")"
    return many_nodes(size, action, lambda k: f"o{k}", subtasks, sequence("?x", size), equal, ("", [f"(:constants {sequence('o', size)})"]))


def typed(size):
    action = "(:action a :parameters (?x))"
    subtasks = [f"(a ?x{k})" for k in range(size)]
    parameters = " ".join(f"?x{k} - t{k}" for k in range(size))
    return many_nodes(size, action, lambda k: f"o{k}", subtasks, parameters, "", (" ".join(f"o{k} - t{k}" for k in range(size)), [f"(:types {sequence('t', size)})"]))


def last(size):
    parameters = sequence("?x", size)
    subtasks = [f"(a ?x{k})" for k in range(size)]
    objects = ("", [f"(:constants {sequence('o', size)})", f"(:action b :parameters ({parameters}))"])
    teller = (f"(b {parameters})", f"b {sequence('o', size)}")
    return many_nodes(size, "(:action a :parameters (?x))", lambda k: f"o{k}", subtasks, parameters, "", objects, teller)


def mixed(size):
    action = "(:action a :parameters (?x ?y))"
    subtasks = [f"(a {'one' if k < size - 3 else 'two'} ?x{k})" for k in range(size)]
    return many_nodes(size, action, lambda k: f"one o{k}", subtasks, sequence("?x", size), "", (sequence("o", size), ["(:constants one two)"]))


def chain(size):
    methods = ["(:method m :parameters (?x) :task (t ?x) :ordered-subtasks (and (a ?x) (t ?x)))", "(:method e :parameters (?x) :task (t ?x) :ordered-subtasks ())"]
    domain = domain_of("(:task t :parameters (?x))", "(:action a :parameters (?x))", *methods)
    lines = [f"{size + k} t o -> m {k} {size + k + 1}" for k in range(size)] + [f"{2 * size} t o -> e"]
    return domain, problem_of("o", ["(t o)"]), plan_of([f"{k} a o" for k in range(size)], lines, [size])


def free(size, constraint=""):
    method = f"(:method m :parameters (?a ?b ?c) :task (t) :ordered-subtasks (){constraint})"
    return domain_of("(:task t :parameters ())", method), problem_of(sequence("o", size), ["(t)"]), plan_of([], ["0 t -> m"], [0])


def equal(size):
    return free(size, " :constraints (= ?a ?b)")


def names(size):
    domain = domain_of(*(f"(:action a{k} :parameters ())" for k in range(size)))
    return domain, problem_of("", [f"(a{k})" for k in range(size)]), plan_of([f"{k} a{k}" for k in range(size)], [], range(size))


def objects(size):
    problem = problem_of(sequence("o", size), [f"(a o{k})" for k in range(size)])
    return domain_of("(:action a :parameters (?x))"), problem, plan_of([f"{k} a o{k}" for k in range(size)], [], range(size))


def main():
    kinds = {"tour": tour, "late": late, "typed": typed, "last": last, "mixed": mixed, "free": free, "equal": equal, "names": names, "objects": objects, "chain": chain}
    texts = kinds[sys.argv[1]](int(sys.argv[2]))
    for name, text in zip(sys.argv[3:], texts):
        with open(name, "w") as file:
            file.write(text)


main()
