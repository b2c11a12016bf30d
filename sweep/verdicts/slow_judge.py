"""The verdict on a plan, straight by its definitions: it tries all choices and all orderings.

The nodes of a plan are `root` and its decomposition lines. The items of a network are ids of lines
and, for each node that was decomposed, its precondition: the pair ("pre", id).
"""

from collections import Counter
from dataclasses import dataclass
from functools import cached_property
from itertools import permutations, product
from math import factorial, prod

from meaning import (
    action_binding,
    bindings,
    ground,
    holds,
    is_applicable,
    is_of,
    is_true,
    objects_of,
    result,
)
from world import TRUE, Method

# more choices than these are not tried
MOST_CHOICES = 1500


class TooManyChoices(Exception):
    """The plan has more choices than are tried."""


@dataclass(frozen=True)
class Candidate:
    """What a node may choose: a child id for each subtask as written, and its binding.

    The indices are the states in which the method's precondition is true under the binding.
    """

    children: tuple
    binding: tuple
    indices: frozenset

    def objects(self):
        return [thing for _, thing in self.binding]


class SlowJudge:
    """The verdict on one plan in one world."""

    def __init__(self, world, plan):
        self.world = world
        self.plan = plan
        self.lines = {line.id: line for line in plan.lines}
        self.actions = plan.actions()

    # --- the tree and the fit of its lines ---

    def method_of(self, node):
        return self.world.top if node.is_root() else self.world.methods[node.method]

    def children_before(self, line):
        """The child ids on earlier lines."""
        place = next(k for k, other in enumerate(self.plan.lines) if other is line)
        return [child for other in self.plan.lines[:place] for child in other.children]

    def ids_before(self, line):
        place = next(k for k, other in enumerate(self.plan.lines) if other is line)
        return [other.id for other in self.plan.lines[:place]]

    def reached(self):
        """The ids that are reached from `root` by children."""
        ids = list(self.plan.root().children)
        for id in ids:
            ids += [child for child in self.lines[id].children if child not in ids]
        return set(ids)

    def repeats_its_id(self, line):
        return line.id in self.ids_before(line)

    def has_an_unknown_child(self, line):
        return any(child not in self.lines for child in line.children)

    def has_a_second_parent_of_a_child(self, line):
        return len(set(line.children)) < len(line.children) or any(
            child in self.children_before(line) for child in line.children
        )

    def is_unreached(self, line):
        return not line.is_root() and line.id not in self.reached()

    def has_an_unknown_task(self, line):
        return not line.is_root() and self.world.parameters_of(line.name) is None

    def has_an_unknown_method(self, line):
        return line.method is not None and line.method not in self.world.methods

    def has_an_unknown_object(self, line):
        return any(thing not in self.world.names() for thing in line.arguments)

    def has_another_number_of_arguments(self, line):
        return not line.is_root() and len(line.arguments) != len(
            self.world.parameters_of(line.name)
        )

    def has_an_object_of_another_type(self, line):
        return not line.is_root() and any(
            not is_of(self.world, thing, type)
            for thing, (_, type) in zip(line.arguments, self.world.parameters_of(line.name))
        )

    def is_an_action_line_of_a_task(self, line):
        return line.is_action() and line.name in self.world.tasks

    def is_a_decomposition_line_of_an_action(self, line):
        return line.method is not None and line.name in self.world.actions

    def has_a_method_of_another_task(self, line):
        return line.method is not None and self.method_of(line).task[0] != line.name

    def has_another_number_of_children(self, line):
        return line.is_node() and len(line.children) != len(self.method_of(line).network.subtasks)

    def has_children_of_other_names(self, line):
        if not line.is_node():
            return False
        names = Counter(self.lines[child].name for child in line.children)
        return names != Counter(name for name, _ in self.method_of(line).network.subtasks)

    def is_inapplicable(self, line):
        if not line.is_action():
            return False
        place = next(k for k, other in enumerate(self.actions) if other is line)
        action = self.world.actions[line.name]
        return not is_applicable(self.world, action, line.arguments, self.states[place])

    CAUSES = [
        (50, "RepeatedId", repeats_its_id),
        (51, "UnknownChild", has_an_unknown_child),
        (52, "TwoParents", has_a_second_parent_of_a_child),
        (53, "Unreached", is_unreached),
        (54, "UnknownTask", has_an_unknown_task),
        (55, "UnknownMethod", has_an_unknown_method),
        (56, "UnknownObject", has_an_unknown_object),
        (57, "ArgumentCount", has_another_number_of_arguments),
        (58, "ArgumentType", has_an_object_of_another_type),
        (59, "NotPrimitive", is_an_action_line_of_a_task),
        (60, "NotAbstract", is_a_decomposition_line_of_an_action),
        (61, "OtherTask", has_a_method_of_another_task),
        (62, "ChildCount", has_another_number_of_children),
        (63, "ChildNames", has_children_of_other_names),
        (64, "Inapplicable", is_inapplicable),
    ]

    # --- states ---

    @cached_property
    def states(self):
        """The state before the first action, and the state after each."""
        states = [self.world.initial]
        for line in self.actions:
            action = self.world.actions[line.name]
            states.append(result(self.world, action, line.arguments, states[-1]))
        return states

    # --- candidates and their count ---

    def fits(self, node, method, children, binding):
        """Whether the tasks of the node and of its children are those of the method."""
        tasks = [self.lines[child] for child in children]
        return all(
            (line.name, tuple(line.arguments)) == (name, ground(terms, binding))
            for line, (name, terms) in zip(tasks, method.network.subtasks)
        ) and (node.is_root() or tuple(node.arguments) == ground(method.task[1], binding))

    def indices(self, method, binding):
        """The states in which the method's precondition is true."""
        return frozenset(
            k
            for k, state in enumerate(self.states)
            if is_true(self.world, method.precondition, binding, state)
        )

    def arrangements(self, node):
        """The children in every order: each child once."""
        return permutations(node.children)

    def candidates(self, node):
        """All bijections from the children to the subtasks with all bindings that fit them."""
        method = self.method_of(node)
        found = []
        for binding in bindings(self.world, method.parameters):
            if not all(holds(constraint, binding) for constraint in method.network.constraints):
                continue
            fitting = [
                children
                for children in self.arrangements(node)
                if self.fits(node, method, children, binding)
            ]
            indices = self.indices(method, binding) if fitting else frozenset()
            found += [Candidate(each, tuple(binding.items()), indices) for each in fitting]
        return found

    def count(self, node):
        """How many choices the method alone leaves; the limit is on this count.

        Alike subtasks may be matched in any order, and a parameter that stands neither in the
        task nor in a subtask may be any object of its type.
        """
        method = self.method_of(node)
        subtasks = method.network.subtasks
        classes = Counter(self.likeness(subtasks, *subtask) for subtask in subtasks)
        written = [terms for _, terms in subtasks] + ([method.task[1]] if method.task else [])
        seen = {term for terms in written for term in terms}
        ranges = [
            len(objects_of(self.world, type))
            for variable, type in method.parameters
            if variable not in seen
        ]
        return prod(factorial(size) for size in classes.values()) * prod(ranges)

    def likeness(self, subtasks, name, terms):
        """What is one for subtasks that are alike.

        It is the name, and the objects at those positions at which all subtasks of the name
        have an object.
        """
        same = [others for other, others in subtasks if other == name]
        fixed = [
            place
            for place in range(len(terms))
            if all(not others[place].startswith("?") for others in same)
        ]
        return name, tuple(terms[place] for place in fixed)

    # --- networks, derivations, executable sequences ---

    def written_pairs(self, node, candidate):
        """The pairs of children that the network of the node's method writes."""
        network = self.method_of(node).network
        places = range(len(network.subtasks))
        written = set(network.pairs)
        if network.ordered:
            written |= {(i, j) for i in places for j in places if i < j}
        return {(candidate.children[i], candidate.children[j]) for i, j in written}

    def children_pairs(self, node, candidate):
        """(c, d) wherever d is reached from c by one or more written pairs."""
        pairs = self.written_pairs(node, candidate)
        while True:
            longer = {(x, z) for x, y in pairs for other, z in pairs if y == other}
            if longer <= pairs:
                return pairs
            pairs = pairs | longer

    def step(self, network, node, candidate):
        """The network in which the node's precondition and children have taken its place.

        What stood before or after the node stands before or after all of them, and the
        precondition stands before the children, which keep the order of their method.
        """
        items, pairs = network
        precondition = ("pre", node.id)
        new = {precondition, *node.children}
        kept = {(x, y) for x, y in pairs if node.id not in (x, y)}
        kept |= {(x, other) for x, y in pairs if y == node.id for other in new}
        kept |= {(other, y) for x, y in pairs if x == node.id for other in new}
        kept |= {(precondition, child) for child in node.children}
        kept |= self.children_pairs(node, candidate)
        return (items - {node.id}) | new, kept

    def end(self, choice):
        """The network that is left when no node is, under a choice of candidates.

        A step looks at nothing but the item that it replaces and the pairs with it, so that
        the steps end in the same network in whichever order they are made.
        """
        root = self.plan.root()
        network = set(root.children), self.children_pairs(root, choice[0])
        waiting = list(zip(self.plan.nodes(), choice))[1:]
        while waiting:
            node, candidate = next(x for x in waiting if x[0].id in network[0])
            network = self.step(network, node, candidate)
            waiting = [x for x in waiting if x[0] is not node]
        return network

    def has_sequence(self, network, indices):
        """Whether the items of an end, each once, can stand in an executable sequence.

        It keeps the pairs and the plan's order of actions, and each precondition stands at one
        of its node's indices: behind so many actions. This is asked where all actions are
        applicable in the plan's order and the goal is true at the end.
        """
        items, pairs = network
        order = [line.id for line in self.actions]
        before = {item: {x for x, y in pairs if y == item} for item in items}
        hopeless = set()

        def may_stand(item, index):
            if isinstance(item, tuple):
                return index in indices[item[1]]
            return index < len(order) and item == order[index]

        def leads_on(placed, index):
            """Whether the items that were placed in some order begin such a sequence."""
            if placed == items:
                return True
            if placed in hopeless:
                return False
            for item in items - placed:
                if before[item] <= placed and may_stand(item, index):
                    passed = 0 if isinstance(item, tuple) else 1
                    if leads_on(placed | {item}, index + passed):
                        return True
            hopeless.add(placed)
            return False

        return leads_on(frozenset(), 0)

    def indices_of(self, choice, with_preconditions):
        """Where each node's precondition may stand; anywhere if it is taken as true."""
        everywhere = range(len(self.actions) + 1)
        return {
            node.id: candidate.indices if with_preconditions else everywhere
            for node, candidate in zip(self.plan.nodes(), choice)
        }

    def has_solution(self, candidates, with_preconditions):
        """Whether some choice of a candidate for each node has an executable sequence."""
        if prod(map(len, candidates)) > MOST_CHOICES:
            raise TooManyChoices
        return any(
            self.has_sequence(self.end(choice), self.indices_of(choice, with_preconditions))
            for choice in product(*candidates)
        )

    # --- the verdict ---

    def plain_cause(self):
        """The least cause from 50 to 65 with its first line in the text, if there is one."""
        for number, name, applies in self.CAUSES:
            for line in self.plan.lines:
                if applies(self, line):
                    return f"fails {number} {name} line {self.plan.number(line)}"
        goal = TRUE if self.world.goal is None else self.world.goal
        if not is_true(self.world, goal, {}, self.states[-1]):
            return "fails 65 GoalFalse"
        return None

    def searched_cause(self):
        """The cause from 66 to 68, if there is one: what is wrong with all choices."""
        candidates = [self.candidates(node) for node in self.plan.nodes()]
        for node, found in zip(self.plan.nodes(), candidates):
            if not found:
                return f"fails 66 NoBinding line {self.plan.number(node)}"
        if self.has_solution(candidates, True):
            return None
        if self.has_solution(candidates, False):
            return "fails 68 PreconditionUnplaced"
        return "fails 67 OrderBroken"

    def verdict(self, limit):
        """The line of the verdict."""
        cause = self.plain_cause()
        if cause:
            return cause
        for node in self.plan.nodes():
            if self.count(node) > limit:
                return f"undecided line {self.plan.number(node)}"
        return self.searched_cause() or "solves"

    # --- certificates ---

    def candidate_named(self, node, children, objects):
        """The candidate of a node with these children and objects, if it is one."""
        return next(
            (
                candidate
                for candidate in self.candidates(node)
                if (list(candidate.children), candidate.objects()) == (children, objects)
            ),
            None,
        )

    def certifies(self, entries):
        """Whether the entries, each of an id, children, objects and an index, are right.

        They are where they are for all nodes in their order, name candidates, and these have
        an executable sequence in which each precondition stands at its entry's index.
        """
        nodes = self.plan.nodes()
        if [id for id, *_ in entries] != [node.id for node in nodes]:
            return False
        choice = [
            self.candidate_named(node, children, objects)
            for node, (_, children, objects, _) in zip(nodes, entries)
        ]
        if None in choice:
            return False
        given = {id: index for id, _, _, index in entries}
        true = self.indices_of(choice, True)
        indices = {id: {given[id]} & true[id] for id in given}
        return self.has_sequence(self.end(choice), indices)


def read_entry(line, is_root):
    """An entry of a certificate's line, or none where it has not the form of one."""
    words = line.split(" ")
    try:
        middle = words.index("objects")
        id = None if is_root else int(words[0])
        children = [int(word) for word in words[2:middle]]
        index = None if is_root else int(words[-1])
    except (ValueError, IndexError):
        return None
    objects = words[middle + 1 :] if is_root else words[middle + 1 : -2]
    head = "root" if is_root else str(id)
    tail = [] if is_root else ["pre", str(index)]
    again = [head, "children", *map(str, children), "objects", *objects, *tail]
    return (id, children, objects, index) if words == again else None


def is_certificate(judge, lines):
    """Whether the lines after `solves` are those of a right certificate."""
    entries = [read_entry(line, place == 0) for place, line in enumerate(lines)]
    return bool(entries) and None not in entries and judge.certifies(entries)
