"""A plan made by decomposing the initial network at random, from state to state."""

from dataclasses import dataclass

from meaning import bindings, ground, holds, is_applicable, is_of, is_true, result
from random_worlds import some
from world import Line, Plan

MOST_LINES = 12
GREATEST_ID = 2**64 - 1


@dataclass
class Item:
    """An open item of the network: its line, and the items that stand before it."""

    line: Line
    before: set


def fitting(world, name, things):
    parameters = world.parameters_of(name)
    return all(is_of(world, thing, type) for thing, (_, type) in zip(things, parameters))


def order_of(network):
    """The places before each subtask, by the written pairs alone."""
    count = len(network.subtasks)
    before = {place: {i for i, j in network.pairs if j == place} for place in range(count)}
    if network.ordered:
        for place in range(count):
            before[place] |= set(range(place))
    return before


class Walk:
    """A walk from the initial state, and the lines that it has made."""

    def __init__(self, rng, world):
        self.rng = rng
        self.world = world
        self.state = world.initial
        self.items = {}
        self.actions = []
        self.nodes = []

    def new_id(self):
        used = {line.id for line in self.actions + self.nodes} | set(self.items)
        choices = [id for id in range(1, 40) if id not in used]
        rare = [id for id in (0, GREATEST_ID, GREATEST_ID - 1, 10**12) if id not in used]
        return self.rng.choice(rare if rare and some(self.rng, 0.04) else choices)

    def open_children(self, node, method, binding, inherited):
        """Opens the subtasks of a node's method in its place."""
        before = order_of(method.network)
        ids = []
        for name, terms in method.network.subtasks:
            # a plan tells actions from tasks by whether a line has a method
            line = Line(self.new_id(), name, list(ground(terms, binding)), None, [])
            ids.append(line.id)
            self.items[line.id] = Item(line, set())
        for place, id in enumerate(ids):
            self.items[id].before = {ids[other] for other in before[place]} | inherited
        for item in self.items.values():
            if node.id in item.before:
                item.before = (item.before - {node.id}) | set(ids)
        node.children = self.rng.sample(ids, len(ids))
        self.nodes.append(node)

    def suits(self, method, line, binding, careful):
        """Whether a binding of a method may be taken for a line here."""
        if not all(holds(constraint, binding) for constraint in method.network.constraints):
            return False
        if line and tuple(line.arguments) != ground(method.task[1], binding):
            return False
        tasks = [(name, ground(terms, binding)) for name, terms in method.network.subtasks]
        return not careful or (
            all(fitting(self.world, *task) for task in tasks)
            and is_true(self.world, method.precondition, binding, self.state)
        )

    def choices(self, method, line, careful):
        found = bindings(self.world, method.parameters)
        return [binding for binding in found if self.suits(method, line, binding, careful)]

    def begin(self, careful):
        choices = self.choices(self.world.top, None, careful)
        if not choices:
            return False
        root = Line(None, "root", [], None, [])
        self.open_children(root, self.world.top, self.rng.choice(choices), set())
        return True

    def do_action(self, item, careful):
        action, things = self.world.actions[item.line.name], item.line.arguments
        if careful and not is_applicable(self.world, action, things, self.state):
            return False
        self.state = result(self.world, action, things, self.state)
        self.actions.append(item.line)
        self.close(item)
        return True

    def close(self, item):
        del self.items[item.line.id]
        for other in self.items.values():
            other.before.discard(item.line.id)

    def decompose(self, item, careful):
        methods = [m for m in self.world.methods.values() if m.task[0] == item.line.name]
        self.rng.shuffle(methods)
        if len(self.nodes) + len(self.items) > 5:
            methods.sort(key=lambda method: len(method.network.subtasks))
        for method in methods:
            choices = self.choices(method, item.line, careful)
            if choices:
                item.line.method = method.name
                del self.items[item.line.id]
                self.open_children(item.line, method, self.rng.choice(choices), item.before)
                return True
        return False

    def go_on(self, careful):
        """One step of the walk, if there is one."""
        first = [item for item in self.items.values() if not item.before]
        self.rng.shuffle(first)
        for item in first:
            is_action = item.line.name in self.world.actions
            if (self.do_action if is_action else self.decompose)(item, careful):
                return True
        return False

    def run(self):
        """Walks to the end, carefully while it can. False where there is no end in sight."""
        if not (self.begin(True) or self.begin(False)):
            return False
        while self.items:
            if len(self.actions) + len(self.nodes) + len(self.items) > MOST_LINES:
                return False
            if not (self.go_on(True) or (some(self.rng, 0.3) and self.go_on(False))):
                return False
        return True

    def plan(self):
        """The plan of the walk; its nodes stand anywhere between the actions."""
        lines = list(self.actions)
        for node in self.nodes:
            lines.insert(self.rng.randint(0, len(lines)), node)
        gaps = [self.rng.choice([0, 0, 0, 0, 1]) for _ in lines]
        return Plan([line.copy() for line in lines], gaps, self.rng.choice([0, 0, 0, 2]))
