"""The values of a small hierarchical problem and of a plan for it.

A term is a word: a variable begins with `?`, everything else is an object. An atom is a tuple of
a predicate and its terms. A formula is one of these tuples:

    ("atom", atom)  ("=", term, term)  ("not", formula)  ("imply", formula, formula)
    ("and", formula..)  ("or", formula..)
    ("forall", variables, formula)  ("exists", variables, formula)

Variables with their types are a tuple of pairs, as are objects with theirs. The type of a variable
may be a tuple of names: it is of either of them. An effect is a pair of whether it adds, and the
atom, or ("forall", variables, effects). All names are in lower case.
"""

from dataclasses import dataclass, replace

TRUE = ("and",)


@dataclass(frozen=True)
class Network:
    """Subtasks as written, each a name and its terms; pairs and constraints between them.

    A pair (i, j) says that subtask i stands before subtask j. A constraint is a triple of
    whether the two terms are to be equal, and the terms.
    """

    subtasks: tuple
    ordered: bool = False
    pairs: tuple = ()
    constraints: tuple = ()


@dataclass(frozen=True)
class Method:
    """A method, or the initial network, which has no task and a precondition that is true."""

    name: str
    parameters: tuple
    task: tuple | None
    precondition: tuple
    network: Network


@dataclass(frozen=True)
class Action:
    """An action, with a tuple of effects."""

    name: str
    parameters: tuple
    precondition: tuple
    effects: tuple


@dataclass(frozen=True)
class World:
    """A domain and a problem."""

    types: tuple
    constants: tuple
    objects: tuple
    predicates: dict
    tasks: dict
    actions: dict
    methods: dict
    top: Method
    initial: frozenset
    goal: tuple | None

    def names(self):
        """The objects, each once."""
        return list(dict.fromkeys(name for name, _ in self.constants + self.objects))

    def parameters_of(self, name):
        """The parameters of a task or an action; none where there is no such name."""
        if name in self.actions:
            return self.actions[name].parameters
        return self.tasks.get(name)


@dataclass
class Line:
    """A line of a plan. Only a decomposition line has a method, and only `root` has no id."""

    id: int | None
    name: str
    arguments: list
    method: str | None
    children: list

    def is_root(self):
        return self.id is None

    def is_action(self):
        return not self.is_root() and self.method is None

    def is_node(self):
        return not self.is_action()

    def copy(self):
        return replace(self, arguments=list(self.arguments), children=list(self.children))


@dataclass
class Plan:
    """The lines between the markers, in the order of the text.

    Before the k-th of them stand gaps[k] lines without words, and before the first marker as
    many lines as `preface` says.
    """

    lines: list
    gaps: list
    preface: int = 0

    def copy(self):
        return Plan([line.copy() for line in self.lines], list(self.gaps), self.preface)

    def number(self, line):
        """The number of a line in the text, from 1."""
        place = next(k for k, other in enumerate(self.lines) if other is line)
        return self.preface + 1 + sum(self.gaps[: place + 1]) + place + 1

    def root(self):
        return next(line for line in self.lines if line.is_root())

    def actions(self):
        return [line for line in self.lines if line.is_action()]

    def nodes(self):
        """The nodes in their order: `root`, then the decomposition lines."""
        return [self.root()] + [x for x in self.lines if x.is_node() and not x.is_root()]
