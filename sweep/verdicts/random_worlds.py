"""Random small worlds without static faults."""

from itertools import product

from world import TRUE, Action, Method, Network, World

VARIABLES = ["?x", "?y", "?z", "?u", "?v"]


def some(rng, probability):
    return rng.random() < probability


def weighted(rng, **weights):
    return rng.choices(list(weights), list(weights.values()))[0]


def random_types(rng):
    """Declared types with their parents: several of them at times, in circles at times."""
    names = ["a", "b", "c"][: rng.randint(0, 3)]
    pairs = [(name, rng.choice(["object", "object", *names, "d"])) for name in names]
    if names and some(rng, 0.2):
        pairs.append((rng.choice(names), rng.choice(names)))
    if names and some(rng, 0.08):
        pairs.append(("object", rng.choice(names)))
    return tuple(pairs)


def type_names(types):
    return sorted({name for pair in types for name in pair} | {"object"})


def random_type(rng, types):
    return "object" if some(rng, 0.6) else rng.choice(type_names(types))


def random_kind(rng, types):
    """The type of a variable: at times it is of either of several."""
    if some(rng, 0.15):
        return tuple(rng.choices(type_names(types), k=rng.randint(2, 3)))
    return random_type(rng, types)


def random_objects(rng, types):
    """Constants and objects; one of them declared a second time at times."""
    names = [f"o{k}" for k in range(1, rng.randint(2, 4) + 1)]
    declared = [(name, rng.choice(type_names(types))) for name in names]
    if some(rng, 0.2):
        declared.append((rng.choice(names), rng.choice(type_names(types))))
    rng.shuffle(declared)
    constants = rng.randint(0, 2)
    return tuple(declared[:constants]), tuple(declared[constants:])


def random_parameters(rng, types, most):
    variables = rng.sample(VARIABLES, rng.randint(0, most))
    return tuple((variable, random_kind(rng, types)) for variable in variables)


class Maker:
    """Makes the parts of one world over its types, objects, predicates and names."""

    def __init__(self, rng):
        self.rng = rng
        self.types = random_types(rng)
        self.constants, self.objects = random_objects(rng, self.types)
        self.names = sorted({name for name, _ in self.constants + self.objects})
        self.predicates = dict([("p", rng.randint(0, 1)), ("q", 1), ("r", rng.randint(0, 2))])
        self.tasks = {
            name: random_parameters(rng, self.types, 2)
            for name in ["s", "t"][: rng.randint(1, 2)]
        }
        self.actions = {name: self.action(name) for name in ["f", "g", "h"][: rng.randint(2, 3)]}

    def term(self, scope):
        return self.rng.choice(scope if scope and some(self.rng, 0.85) else self.names)

    def atom(self, scope):
        name, arity = self.rng.choice(list(self.predicates.items()))
        return (name, *(self.term(scope) for _ in range(arity)))

    def simple(self, scope):
        """An atom or an equality, perhaps negated."""
        equality = ("=", self.term(scope), self.term(scope))
        formula = equality if some(self.rng, 0.12) else ("atom", self.atom(scope))
        return ("not", formula) if some(self.rng, 0.3) else formula

    def formula(self, scope, depth):
        kinds = {"simple": 4, "and": 1, "or": 1, "not": 1, "imply": 1, "forall": 1, "exists": 1}
        kind = weighted(self.rng, **kinds) if depth else "simple"
        if kind == "simple":
            return self.simple(scope)
        if kind in ("forall", "exists"):
            variables = self.quantified(scope)
            inner = [variable for variable, _ in variables] + list(scope)
            return (kind, variables, self.formula(inner, depth - 1))
        lengths = {"not": 1, "imply": 2}
        length = lengths.get(kind, self.rng.randint(0, 3))
        return (kind, *(self.formula(scope, depth - 1) for _ in range(length)))

    def quantified(self, scope):
        """Variables of a quantifier; one of them hides one of the scope at times."""
        variables = random_parameters(self.rng, self.types, 2)
        if len(variables) == 1 and scope and some(self.rng, 0.5):
            variables = ((self.rng.choice(scope), variables[0][1]),)
        return variables

    def precondition(self, scope, simple, deep):
        chance = self.rng.random()
        if chance < simple:
            return self.simple(scope)
        return self.formula(scope, 2) if chance < simple + deep else TRUE

    def action(self, name):
        parameters = random_parameters(self.rng, self.types, 2)
        scope = [variable for variable, _ in parameters]
        count = self.rng.choice([0, 1, 1, 2, 3])
        effects = [self.effect(scope, 2) for _ in range(count)]
        literals = [effect for effect in effects if effect[0] != "forall"]
        if literals and some(self.rng, 0.2):
            adds, atom = self.rng.choice(literals)
            effects.insert(self.rng.randint(0, count), (not adds, atom))
        precondition = self.precondition(scope, 0.3, 0.1)
        return Action(name, parameters, precondition, tuple(effects))

    def effect(self, scope, depth):
        """A literal, or what holds for all objects of some variables."""
        if not depth or some(self.rng, 0.8):
            return some(self.rng, 0.6), self.atom(scope)
        variables = self.quantified(scope)
        inner = [variable for variable, _ in variables] + list(scope)
        effects = [self.effect(inner, depth - 1) for _ in range(self.rng.choice([0, 1, 1, 2]))]
        return "forall", variables, tuple(effects)

    def subtask(self, scope, before):
        """A subtask, at times of the name of one before it."""
        known = self.tasks if some(self.rng, 0.45) else self.actions
        name = self.rng.choice(list(known))
        if before and some(self.rng, 0.35):
            name = self.rng.choice(before)[0]
        parameters = self.tasks.get(name)
        if parameters is None:
            parameters = self.actions[name].parameters
        return name, tuple(self.term(scope) for _ in parameters)

    def pairs(self, count, probability):
        """Pairs that go along some order of the subtasks."""
        order = self.rng.sample(range(count), count)
        pairs = [(i, j) for k, i in enumerate(order) for j in order[k + 1 :]]
        return tuple(pair for pair in pairs if some(self.rng, probability))

    def network(self, scope, fewest, most):
        subtasks = []
        for _ in range(self.rng.randint(fewest, most)):
            subtasks.append(self.subtask(scope, subtasks))
        kind = weighted(self.rng, ordered=4, pairs=3, free=3)
        pairs = self.pairs(len(subtasks), 0.5) if kind == "pairs" else ()
        if kind == "ordered" and some(self.rng, 0.2):
            pairs = tuple((k, k + 1) for k in range(len(subtasks) - 1) if some(self.rng, 0.5))
        constraints = ()
        if len(scope) > 1 and some(self.rng, 0.3):
            constraints = ((some(self.rng, 0.25), *self.rng.sample(scope, 2)),)
        if some(self.rng, 0.05):
            constraints += ((some(self.rng, 0.5), self.term(scope), self.term(scope)),)
        return Network(tuple(subtasks), kind == "ordered", pairs, constraints)

    def method(self, name, task):
        """A method; most of its parameters stand in its task."""
        parameters, terms = [], []
        free = self.rng.sample(VARIABLES, len(VARIABLES))
        for _, type in self.tasks[task]:
            if some(self.rng, 0.85):
                own = type if some(self.rng, 0.7) else random_kind(self.rng, self.types)
                parameters.append((free.pop(), own))
                terms.append(parameters[-1][0])
            else:
                terms.append(self.term([variable for variable, _ in parameters]))
        for _ in range(self.rng.choice([0, 0, 1, 1, 2])):
            parameters.append((free.pop(), random_kind(self.rng, self.types)))
        self.rng.shuffle(parameters)
        scope = [variable for variable, _ in parameters]
        precondition = self.precondition(scope, 0.4, 0.25)
        network = self.network(scope, 0, 3)
        return Method(name, tuple(parameters), (task, tuple(terms)), precondition, network)

    def methods(self):
        made = {}
        for task in self.tasks:
            for number in range(1, self.rng.randint(1, 3) + 1):
                # a method may have the name of its task
                name = task if number == 1 and some(self.rng, 0.2) else f"{task}{number}"
                made[name] = self.method(name, task)
        return made

    def top(self):
        parameters = random_parameters(self.rng, self.types, 2)
        scope = [variable for variable, _ in parameters]
        return Method("", parameters, None, TRUE, self.network(scope, 1, 4))

    def initial(self):
        atoms = [
            (name, *things)
            for name, arity in self.predicates.items()
            for things in product(self.names, repeat=arity)
        ]
        return frozenset(atom for atom in atoms if some(self.rng, 0.5))

    def world(self):
        methods, top = self.methods(), self.top()
        return World(
            self.types,
            self.constants,
            self.objects,
            self.predicates,
            self.tasks,
            self.actions,
            methods,
            top,
            self.initial(),
            None,
        )

    def goal(self):
        return self.formula([], 2)
