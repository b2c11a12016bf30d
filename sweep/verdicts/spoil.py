"""Small ways to spoil a plan, or the world that it is for.

Each takes a random source, a world and a plan of its own to change, and gives back a world and
a plan. Where there is nothing to change it gives both back as they are.
"""

from dataclasses import replace

from random_worlds import random_kind, random_type, some
from slow_judge import SlowJudge


def any_line(rng, plan, suits):
    """A line that suits, if there is one."""
    lines = [line for line in plan.lines if suits(line)]
    return rng.choice(lines) if lines else None


def is_numbered(line):
    return not line.is_root()


def has_method(line):
    return line.method is not None


# --- the plan ---


def swap_actions(rng, world, plan):
    """Two actions change places in the plan's order, mostly neighbours."""
    places = [k for k, line in enumerate(plan.lines) if line.is_action()]
    if len(places) > 1:
        first = rng.randrange(len(places) - 1)
        last = first + 1 if some(rng, 0.7) else rng.randrange(len(places))
        i, j = places[first], places[last]
        plan.lines[i], plan.lines[j] = plan.lines[j], plan.lines[i]
    return world, plan


def shuffle_lines(rng, world, plan):
    rng.shuffle(plan.lines)
    return world, plan


def exchange_children(rng, world, plan):
    """Two children change parents, or places where their parent is one."""
    parents = [line for line in plan.lines for _ in line.children]
    if len(parents) > 1:
        first, second = rng.choice(parents), rng.choice(parents)
        i, j = rng.randrange(len(first.children)), rng.randrange(len(second.children))
        children = first.children[i], second.children[j]
        second.children[j], first.children[i] = children
    return world, plan


def exchange_alike_children(rng, world, plan):
    """Two children of one name change parents."""
    names = {line.id: line.name for line in plan.lines}
    seats = [(line, k) for line in plan.lines for k in range(len(line.children))]
    alike = [
        (one, other)
        for one in seats
        for other in seats
        if one[0] is not other[0]
        and names.get(one[0].children[one[1]]) == names.get(other[0].children[other[1]])
    ]
    if alike:
        (one, i), (other, j) = rng.choice(alike)
        one.children[i], other.children[j] = other.children[j], one.children[i]
    return world, plan


def drop_child(rng, world, plan):
    line = any_line(rng, plan, lambda line: line.children)
    if line:
        line.children.pop(rng.randrange(len(line.children)))
    return world, plan


def add_child(rng, world, plan):
    """A child too many: one that is there, or one that is no line."""
    line = any_line(rng, plan, lambda line: line.is_node())
    known = [other.id for other in plan.lines if is_numbered(other)]
    child = rng.choice(known) if known and some(rng, 0.7) else 77
    line.children.insert(rng.randint(0, len(line.children)), child)
    return world, plan


def drop_line(rng, world, plan):
    """A line goes, and mostly its id goes from its parent too."""
    line = any_line(rng, plan, is_numbered)
    if line:
        plan.lines.remove(line)
        if some(rng, 0.7):
            for other in plan.lines:
                other.children = [child for child in other.children if child != line.id]
    return world, plan


def add_line(rng, world, plan):
    """A copy of a line, with its own id or another."""
    line = any_line(rng, plan, lambda line: is_numbered(line) and not line.children)
    if line:
        copy = line.copy()
        if some(rng, 0.7):
            copy.id = 78
            any_line(rng, plan, lambda line: line.is_node()).children.append(78)
        plan.lines.insert(rng.randint(0, len(plan.lines)), copy)
        plan.gaps.append(0)
    return world, plan


def repeat_id(rng, world, plan):
    first, second = any_line(rng, plan, is_numbered), any_line(rng, plan, is_numbered)
    if first:
        first.id = second.id
    return world, plan


def change_method(rng, world, plan):
    """Another method: mostly one for the same task."""
    line = any_line(rng, plan, has_method)
    if line:
        same = [m.name for m in world.methods.values() if m.task[0] == line.name]
        choices = same if same and some(rng, 0.7) else [*world.methods, "nothing"]
        line.method = rng.choice(choices)
    return world, plan


def change_argument(rng, world, plan):
    line = any_line(rng, plan, lambda line: line.arguments)
    if line:
        known = world.names()
        thing = rng.choice(known) if some(rng, 0.85) else "nothing"
        line.arguments[rng.randrange(len(line.arguments))] = thing
    return world, plan


def change_number_of_arguments(rng, world, plan):
    line = any_line(rng, plan, is_numbered)
    if line and line.arguments and some(rng, 0.5):
        line.arguments.pop()
    elif line:
        line.arguments.append(rng.choice(world.names()))
    return world, plan


def change_name(rng, world, plan):
    """Another task or action, or a name that is neither."""
    line = any_line(rng, plan, is_numbered)
    if line:
        line.name = rng.choice([*world.tasks, *world.actions, "nothing"])
    return world, plan


def change_kind(rng, world, plan):
    """An action line becomes a decomposition line, or the other way round."""
    line = any_line(rng, plan, is_numbered)
    if line and line.is_action():
        line.method = rng.choice(list(world.methods))
    elif line and not line.children:
        line.method = None
    return world, plan


# --- the world ---


def with_method(world, method):
    return replace(world, methods={**world.methods, method.name: method})


def used_method(rng, world, plan):
    """A method that a line uses, or the initial network."""
    used = [world.methods[x.method] for x in plan.lines if x.method in world.methods]
    return rng.choice([*used, world.top])


def with_network(world, method, network):
    changed = replace(method, network=network)
    return replace(world, top=changed) if method is world.top else with_method(world, changed)


def change_precondition(rng, world, plan):
    """The precondition of a method that is used: its opposite, or one that is never true."""
    method = used_method(rng, world, plan)
    if method is not world.top:
        never = rng.choice([("or",), ("not", ("and",)), ("exists", (("?x", "object"),), ("or",))])
        opposite = ("not", method.precondition)
        formula = never if some(rng, 0.3) else opposite
        world = with_method(world, replace(method, precondition=formula))
    return world, plan


def varying_literals(world, plan):
    """Literals that are true in some states of the plan and false in others."""
    if any(line.name not in world.actions for line in plan.actions()):
        return []
    states = SlowJudge(world, plan).states
    atoms = set().union(*states) - set(states[0]).intersection(*states)
    # a plan that is spoiled already may have made atoms of what is no object
    atoms = [atom for atom in sorted(atoms) if set(atom[1:]) <= set(world.names())]
    literals = [("atom", atom) for atom in atoms]
    return literals + [("not", literal) for literal in literals]


def time_precondition(rng, world, plan):
    """A precondition that is true at some places of the plan alone."""
    method, literals = used_method(rng, world, plan), varying_literals(world, plan)
    if literals and method is not world.top:
        world = with_method(world, replace(method, precondition=rng.choice(literals)))
    return world, plan


def time_preconditions(rng, world, plan):
    """The same for two methods, or twice for one."""
    world, plan = time_precondition(rng, world, plan)
    return time_precondition(rng, world, plan)


def change_type_of_parameter(rng, world, plan):
    method = used_method(rng, world, plan)
    if method.parameters:
        parameters = list(method.parameters)
        place = rng.randrange(len(parameters))
        parameters[place] = (parameters[place][0], random_kind(rng, world.types))
        changed = replace(method, parameters=tuple(parameters))
        top = method is world.top
        world = replace(world, top=changed) if top else with_method(world, changed)
    return world, plan


def change_type_of_object(rng, world, plan):
    if world.objects:
        objects = list(world.objects)
        place = rng.randrange(len(objects))
        objects[place] = (objects[place][0], random_type(rng, world.types))
        world = replace(world, objects=tuple(objects))
    return world, plan


def change_action_precondition(rng, world, plan):
    action = rng.choice(list(world.actions.values()))
    changed = replace(action, precondition=("not", action.precondition))
    return replace(world, actions={**world.actions, action.name: changed}), plan


def order_network(rng, world, plan):
    """An ordered form, or pairs along some order."""
    method = used_method(rng, world, plan)
    count = len(method.network.subtasks)
    network = replace(method.network, ordered=True, pairs=())
    if some(rng, 0.7):
        order = rng.sample(range(count), count)
        pairs = tuple(pair for pair in zip(order, order[1:]) if some(rng, 0.7))
        network = replace(network, ordered=False, pairs=pairs)
    return with_network(world, method, network), plan


def free_network(rng, world, plan):
    """A network without its order."""
    method = used_method(rng, world, plan)
    network = replace(method.network, ordered=False, pairs=())
    return with_network(world, method, network), plan


def swap_subtasks(rng, world, plan):
    """The subtasks of an ordered form in another order; others keep theirs as written."""
    method = used_method(rng, world, plan)
    network = method.network
    subtasks = tuple(rng.sample(network.subtasks, len(network.subtasks)))
    return with_network(world, method, replace(network, subtasks=subtasks)), plan


def constrain(rng, world, plan):
    method = used_method(rng, world, plan)
    scope = [variable for variable, _ in method.parameters]
    if scope:
        terms = rng.choice(scope), rng.choice([*scope, *world.names()])
        constraints = (*method.network.constraints, (some(rng, 0.5), *terms))
        network = replace(method.network, constraints=constraints)
        world = with_network(world, method, network)
    return world, plan


def contradict(rng, world, plan):
    """Constraints that nothing meets, for one method or two."""
    never = (False, "o1", "o1")
    for _ in range(rng.choice([1, 2])):
        method = used_method(rng, world, plan)
        network = replace(method.network, constraints=(never,))
        world = with_network(world, method, network)
    return world, plan


def change_initial_state(rng, world, plan):
    name, arity = rng.choice(list(world.predicates.items()))
    atom = (name, *(rng.choice(world.names()) for _ in range(arity)))
    return replace(world, initial=world.initial ^ {atom}), plan


def change_goal(rng, world, plan):
    if world.goal is not None:
        world = replace(world, goal=("not", world.goal))
    return world, plan


WAYS = {
    swap_actions: 5,
    shuffle_lines: 1,
    exchange_children: 2,
    exchange_alike_children: 4,
    drop_child: 1,
    add_child: 1,
    drop_line: 1,
    add_line: 0.7,
    repeat_id: 0.3,
    change_method: 2,
    change_argument: 2,
    change_number_of_arguments: 0.5,
    change_name: 1,
    change_kind: 0.7,
    change_precondition: 3,
    time_precondition: 4,
    time_preconditions: 4,
    change_type_of_parameter: 2,
    change_type_of_object: 1,
    change_action_precondition: 1,
    order_network: 5,
    free_network: 3,
    swap_subtasks: 3,
    constrain: 2,
    contradict: 1,
    change_initial_state: 2,
    change_goal: 0.5,
}


def spoiled(rng, world, plan):
    way = rng.choices(list(WAYS), list(WAYS.values()))[0]
    return way(rng, world, plan)
