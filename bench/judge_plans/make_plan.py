#!/usr/bin/env python3
"""Writes a domain, a problem and a plan of some kind and size into a folder: make_plan.py KIND N FOLDER

flat: N actions and no method, in a ring of 1,000 predicates. Each action moves a token from one predicate to the next,
so each is applicable where it stands. The ids of the plan's lines stand in an order of their own.
deliveries: N actions of trucks, each of which brings its packages one after another; the deliveries are unordered.
late: the same, but the deliveries are ordered against the plan, so that it fails.
chain: N lines, each of which has the next one as its only child, and no action.
steps: the same, and each line but the last has an action before that child, and a precondition that each action turns.
children: N children of root, unordered, of an action each, all lines in orders of their own.
ordered: the same, with a label for each and N - 1 pairs of an order in one chain.
terms: N subtasks of root in an order, of one name, told apart by their first object, and with a parameter each.
init: N atoms of :init and one action.
walk: N lines below one another, each with a precondition of atoms that come and go; one in ten binds a variable alone.
sought: 1,000 nodes, each with a variable that its precondition alone binds, to one of N objects.
lamps: 1,000 actions with quantifiers over N objects, in atoms that have the variable first and in such that have it last.
types: N types in a chain, and N objects of the lowest.
"""
import pathlib
import random
import sys


def scattered(count, step=7919):
    """The numbers below a count in an order of their own."""
    return [(k * step + 13) % count for k in range(count)] if count % step else list(range(count))


def flat(count):
    size = 1000
    actions = "\n".join(
        f"(:action a{k} :precondition (and (p{k % size}) (not (p{(k + 1) % size}))) :effect (and (not (p{k % size})) (p{(k + 1) % size})))"
        for k in range(count)
    )
    predicates = " ".join(f"(p{k})" for k in range(size))
    domain = f"(define (domain ring)\n(:predicates {predicates})\n{actions})\n"
    subtasks = " ".join(f"(a{k})" for k in range(count))
    goal = f"(and (p{count % size}))"
    problem = f"(define (problem around)\n(:domain ring)\n(:htn :ordered-subtasks (and {subtasks}))\n(:init (p0))\n(:goal {goal}))\n"
    ids = scattered(count)
    lines = "\n".join(f"{ids[k]} a{k}" for k in range(count))
    children = " ".join(str(k) for k in range(count))
    return domain, problem, f"==>\n{lines}\nroot {children}\n<==\n"


TRANSPORT = """(define (domain transport)
(:types truck package location)
(:predicates (at ?t - truck ?l - location) (lies ?p - package ?l - location) (in ?p - package ?t - truck) (road ?a ?b - location))
(:task deliver :parameters (?p - package ?l - location))
(:method m-deliver :parameters (?p - package ?t - truck ?a ?l - location) :task (deliver ?p ?l) :precondition (lies ?p ?a)
 :ordered-subtasks (and (load ?t ?p ?a) (drive ?t ?a ?l) (unload ?t ?p ?l) (drive ?t ?l ?a)))
(:action drive :parameters (?t - truck ?a ?b - location) :precondition (and (at ?t ?a) (road ?a ?b)) :effect (and (not (at ?t ?a)) (at ?t ?b)))
(:action load :parameters (?t - truck ?p - package ?l - location) :precondition (and (at ?t ?l) (lies ?p ?l)) :effect (and (not (lies ?p ?l)) (in ?p ?t)))
(:action unload :parameters (?t - truck ?p - package ?l - location) :precondition (and (at ?t ?l) (in ?p ?t)) :effect (and (not (in ?p ?t)) (lies ?p ?l))))
"""


def deliveries(count, is_late=False):
    packages = max(1, count // 4)
    trucks = max(1, packages // 10)
    names = " ".join(f"p{k}" for k in range(packages))
    objects = f"{' '.join(f't{k}' for k in range(trucks))} - truck {names} - package a b - location"
    at = " ".join(f"(at t{k} a)" for k in range(trucks)) + " ".join(f"(lies p{k} a)" for k in range(packages))
    order = reversed(range(packages)) if is_late else range(packages)
    subtasks = " ".join(f"(deliver p{k} b)" for k in order)
    form = ":ordered-subtasks" if is_late else ":subtasks"
    problem = f"(define (problem many)\n(:domain transport)\n(:objects {objects})\n(:htn {form} (and {subtasks}))\n(:init (road a b) (road b a) {at}))\n"
    lines, nodes = [], []
    for k in range(packages):
        truck, first = f"t{k % trucks}", 4 * k
        lines += [f"{first} load {truck} p{k} a", f"{first + 1} drive {truck} a b", f"{first + 2} unload {truck} p{k} b", f"{first + 3} drive {truck} b a"]
        nodes.append(f"{4 * packages + k} deliver p{k} b -> m-deliver {first} {first + 1} {first + 2} {first + 3}")
    root = " ".join(str(4 * packages + k) for k in range(packages))
    return TRANSPORT, problem, "==>\n" + "\n".join(lines) + f"\nroot {root}\n" + "\n".join(nodes) + "\n<==\n"


def late(count):
    return deliveries(count, True)


def chain(count):
    domain = "(define (domain chain) (:task t) (:method m :task (t) :subtasks (t)) (:method e :task (t) :subtasks ()))\n"
    problem = "(define (problem c) (:domain chain) (:htn :subtasks (t)) (:init))\n"
    lines = "\n".join(f"{k} t -> m {k + 1}" for k in range(1, count))
    return domain, problem, f"==>\nroot 1\n{lines}\n{count} t -> e\n<==\n"


STEPS = """(define (domain steps)
(:predicates (p))
(:task run)
(:method m-on :task (run) :precondition (not (p)) :ordered-subtasks (and (on) (run)))
(:method m-off :task (run) :precondition (p) :ordered-subtasks (and (off) (run)))
(:method m-end :task (run) :subtasks ())
(:action on :precondition (not (p)) :effect (p))
(:action off :precondition (p) :effect (not (p))))
"""


def steps(count):
    problem = "(define (problem s) (:domain steps) (:htn :subtasks (run)) (:init))\n"
    names = [("on", "off")[k % 2] for k in range(count - 1)]
    actions = "\n".join(f"{k} {name}" for k, name in enumerate(names))
    nodes = "\n".join(f"{count + k} run -> m-{name} {k} {count + k + 1}" for k, name in enumerate(names))
    return STEPS, problem, f"==>\n{actions}\nroot {count}\n{nodes}\n{2 * count - 1} run -> m-end\n<==\n"


PAINT = """(define (domain paint)
(:types wall)
(:predicates (bare ?w - wall) (painted ?w - wall))
(:task do :parameters (?w - wall))
(:method m :parameters (?w - wall) :task (do ?w) :precondition (bare ?w) :subtasks (paint ?w))
(:action paint :parameters (?w - wall) :precondition (bare ?w) :effect (and (not (bare ?w)) (painted ?w))))
"""


def walls(count, network):
    """The problem of painting so many walls in a network, and its plan, with all lines in orders of their own."""
    names = " ".join(f"w{k}" for k in range(count))
    bare = " ".join(f"(bare w{k})" for k in range(count))
    problem = f"(define (problem walls)\n(:domain paint)\n(:objects {names} - wall)\n(:htn {network})\n(:init {bare})\n(:goal (forall (?w - wall) (painted ?w))))\n"
    actions = [f"{k} paint w{k}" for k in scattered(count, 7907)]
    nodes = [f"{count + k} do w{k} -> m {k}" for k in scattered(count, 7901)]
    root = " ".join(str(count + k) for k in scattered(count))
    return problem, "==>\n" + "\n".join(actions) + f"\nroot {root}\n" + "\n".join(nodes) + "\n<==\n"


def children(count):
    tasks = " ".join(f"(do w{k})" for k in range(count))
    return PAINT, *walls(count, f":subtasks (and {tasks})")


def ordered(count):
    place = {wall: at for at, wall in enumerate(scattered(count, 7907))}
    tasks = " ".join(f"(l{place[k]} (do w{k}))" for k in scattered(count))
    pairs = " ".join(f"(< l{k} l{k + 1})" for k in scattered(count - 1))
    return PAINT, *walls(count, f":subtasks (and {tasks})\n:ordering (and {pairs})")


def terms(count):
    domain = "(define (domain terms) (:action a :parameters (?p ?x)))\n"
    names, variables = (" ".join(f"{it}{k}" for k in range(count)) for it in ("p", "?x"))
    tasks = " ".join(f"(a p{k} ?x{k})" for k in range(count))
    problem = f"(define (problem t) (:domain terms)\n(:objects {names} o)\n(:htn :parameters ({variables}) :ordered-subtasks (and {tasks}))\n(:init))\n"
    actions = "\n".join(f"{k} a p{k} o" for k in range(count))
    return domain, problem, f"==>\n{actions}\nroot {' '.join(map(str, range(count)))}\n<==\n"


ROADS = """(define (domain roads)
(:types city)
(:predicates (road ?a ?b - city) (seen ?a - city))
(:action look :parameters (?a ?b - city) :precondition (road ?a ?b) :effect (seen ?a)))
"""


def init(count):
    cities, draw = 20000, random.Random(count)
    roads = [f"city-{draw.randrange(cities)} city-{draw.randrange(cities)}" for _ in range(count)]
    names = " ".join(f"city-{k}" for k in range(cities))
    atoms = "\n".join(f"  (road {road})" for road in roads)
    problem = f"(define (problem r) (:domain roads)\n(:objects {names} - city)\n(:htn :subtasks (look {roads[0]}))\n(:init\n{atoms}))\n"
    return ROADS, problem, f"==>\n0 look {roads[0]}\nroot 0\n<==\n"


WALK = """(define (domain walk)
(:types place)
(:predicates (at ?p - place) (next ?p ?q - place))
(:task go)
(:method m-step :parameters (?p ?q - place) :task (go) :precondition (and (at ?p) (next ?p ?q) (not (at ?q)))
 :ordered-subtasks (and (step ?p ?q) (go)))
(:method m-over :parameters (?p ?q ?r - place) :task (go) :precondition (and (at ?p) (next ?p ?r) (next ?r ?q))
 :ordered-subtasks (and (step ?p ?q) (go)))
(:method m-there :task (go) :precondition (exists (?p - place) (at ?p)) :subtasks ())
(:action step :parameters (?p ?q - place) :precondition (at ?p) :effect (and (not (at ?p)) (at ?q))))
"""


def walk(count):
    places, at = 60, 0
    actions, nodes = [], []
    for k in range(count - 1):
        method, length = ("m-over", 2) if k % 10 == 9 else ("m-step", 1)
        actions.append(f"{k} step x{at} x{(at + length) % places}")
        nodes.append(f"{count + k} go -> {method} {k} {count + k + 1}")
        at = (at + length) % places
    names, ring = (" ".join(it.format(k, (k + 1) % places) for k in range(places)) for it in ("x{0}", "(next x{0} x{1})"))
    problem = f"(define (problem ring) (:domain walk)\n(:objects {names} - place)\n(:htn :subtasks (go))\n(:init (at x0) {ring}))\n"
    last = f"{2 * count - 1} go -> m-there"
    return WALK, problem, "==>\n" + "\n".join(actions) + f"\nroot {count}\n" + "\n".join([*nodes, last]) + "\n<==\n"


DOORS = """(define (domain doors)
(:types door key)
(:predicates (fits ?k - key ?d - door) (shut ?d - door))
(:task open :parameters (?k - key))
(:method m :parameters (?k - key ?d - door) :task (open ?k) :precondition (and (shut ?d) (fits ?k ?d)) :subtasks (turn ?k))
(:action turn :parameters (?k - key)))
"""


def sought(count):
    keys, draw = 1000, random.Random(count)
    doors, names = (" ".join(f"{it}{k}" for k in range(most)) for it, most in (("d", count), ("k", keys)))
    fits = " ".join(f"(fits k{k} d{draw.randrange(count)})" for k in range(keys))
    shut = " ".join(f"(shut d{k})" for k in range(count))
    tasks = " ".join(f"(open k{k})" for k in range(keys))
    problem = f"(define (problem d) (:domain doors)\n(:objects {doors} - door {names} - key)\n(:htn :ordered-subtasks (and {tasks}))\n(:init {fits} {shut}))\n"
    actions, nodes = ("\n".join(it.format(k, keys + k) for k in range(keys)) for it in ("{0} turn k{0}", "{1} open k{0} -> m {0}"))
    return DOORS, problem, f"==>\n{actions}\nroot {' '.join(str(keys + k) for k in range(keys))}\n{nodes}\n<==\n"


LAMPS = """(define (domain lamps)
(:types lamp)
(:predicates (lit ?a - lamp) (near ?a ?b - lamp))
(:action light :parameters (?a - lamp)
 :precondition (and (exists (?b - lamp) (and (near ?a ?b) (lit ?b))) (forall (?b - lamp) (or (not (near ?b ?a)) (not (near ?b ?b)))))
 :effect (lit ?a)))
"""


def lamps(count):
    acts = 1000
    names, ring = (" ".join(it.format(k, (k + 1) % count) for k in range(count)) for it in ("a{0}", "(near a{0} a{1}) (near a{1} a{0})"))
    tasks = [f"light a{(k + 1) % count}" for k in range(acts)]
    network = " ".join(f"({task})" for task in tasks)
    problem = f"(define (problem l) (:domain lamps)\n(:objects {names} - lamp)\n(:htn :ordered-subtasks (and {network}))\n(:init (lit a0) {ring}))\n"
    actions = "\n".join(f"{k} {task}" for k, task in enumerate(tasks))
    return LAMPS, problem, f"==>\n{actions}\nroot {' '.join(map(str, range(acts)))}\n<==\n"


def types(count):
    chain = "\n".join(f"t{k} - t{k - 1}" for k in range(1, count))
    domain = f"(define (domain types)\n(:types {chain})\n(:predicates (worn ?x - t{count - 1}))\n(:action wear :parameters (?x - t{count // 2}) :effect (worn ?x)))\n"
    names = " ".join(f"o{k}" for k in range(count))
    problem = f"(define (problem t) (:domain types)\n(:objects {names} - t{count - 1})\n(:htn :subtasks (wear o0))\n(:init)\n(:goal (exists (?x - t{count // 3}) (worn ?x))))\n"
    return domain, problem, "==>\n0 wear o0\nroot 0\n<==\n"


KINDS = {it.__name__: it for it in (flat, deliveries, late, chain, steps, children, ordered, terms, init, walk, sought, lamps, types)}
texts = KINDS[sys.argv[1]](int(sys.argv[2]))
folder = pathlib.Path(sys.argv[3])
folder.mkdir(parents=True, exist_ok=True)
for name, text in zip(("domain.hddl", "problem.hddl", "plan.txt"), texts):
    (folder / name).write_text(text)
