"""Types, truth and states, by their definitions."""

from itertools import product


def parents(world, name):
    return [parent for child, parent in world.types if child == name]


def types_of(world, thing):
    """All types that a chain of declared pairs reaches from the declared types of an object."""
    reached = [type for name, type in world.constants + world.objects if name == thing]
    for name in reached:
        reached += [parent for parent in parents(world, name) if parent not in reached]
    return reached


def is_of(world, thing, type):
    if isinstance(type, tuple):
        return any(is_of(world, thing, name) for name in type)
    return type == "object" or type in types_of(world, thing)


def objects_of(world, type):
    return [thing for thing in world.names() if is_of(world, thing, type)]


def bindings(world, parameters):
    """Every choice of an object of its type for each parameter."""
    ranges = [objects_of(world, type) for _, type in parameters]
    for things in product(*ranges):
        yield {variable: thing for (variable, _), thing in zip(parameters, things)}


def ground(terms, binding):
    """The objects that the terms stand for."""
    return tuple(binding.get(term, term) for term in terms)


def is_true(world, formula, binding, state):
    kind, *parts = formula
    if kind == "atom":
        return ground(parts[0], binding) in state
    if kind == "=":
        first, second = ground(parts, binding)
        return first == second
    if kind in ("forall", "exists"):
        variables, inner = parts
        values = (
            is_true(world, inner, {**binding, **chosen}, state)
            for chosen in bindings(world, variables)
        )
        return all(values) if kind == "forall" else any(values)
    values = (is_true(world, part, binding, state) for part in parts)
    if kind == "and":
        return all(values)
    if kind == "or":
        return any(values)
    if kind == "not":
        return not next(values)
    premise, conclusion = values
    return not premise or conclusion


def holds(constraint, binding):
    equal, first, second = constraint
    return equal == (ground((first,), binding) == ground((second,), binding))


def action_binding(action, things):
    return {variable: thing for (variable, _), thing in zip(action.parameters, things)}


def is_applicable(world, action, things, state):
    return is_true(world, action.precondition, action_binding(action, things), state)


def literals(world, effects, binding):
    """What effects add and delete: pairs of whether it is added, and a ground atom."""
    for effect in effects:
        if effect[0] == "forall":
            _, variables, inner = effect
            for chosen in bindings(world, variables):
                yield from literals(world, inner, {**binding, **chosen})
        else:
            adds, atom = effect
            yield adds, ground(atom, binding)


def result(world, action, things, state):
    """The next state: what the action deletes is taken away, then what it adds is put in."""
    changes = set(literals(world, action.effects, action_binding(action, things)))
    deleted = {atom for adds, atom in changes if not adds}
    return (state - deleted) | {atom for adds, atom in changes if adds}
