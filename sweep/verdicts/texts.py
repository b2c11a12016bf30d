"""The texts of a world and a plan, with some of the freedom that the languages leave."""

PREFACE = ["; found after 3 seconds", "", "cost: 7", "(a line of another tool", "-> 12 <- root"]
GAPS = ["", "   ", "; a comment", "\t; 1 root ->"]


def type_text(type):
    return f"(either {' '.join(type)})" if isinstance(type, tuple) else type


def typed(things):
    return " ".join(f"{name} - {type_text(type)}" for name, type in things)


def atom_text(atom):
    return f"({' '.join(atom)})"


def formula_text(formula):
    kind, *parts = formula
    if formula == ("and",):
        return "()"
    if kind == "atom":
        return atom_text(parts[0])
    if kind == "=":
        return f"(= {parts[0]} {parts[1]})"
    if kind in ("forall", "exists"):
        return f"({kind} ({typed(parts[0])}) {formula_text(parts[1])})"
    return f"({' '.join([kind, *map(formula_text, parts)])})"


def listed(rng, items):
    """A list as `(and ..)`; where it has one member, or none, perhaps without the `and`."""
    if len(items) < 2 and rng.random() < 0.5:
        return items[0] if items else "()"
    return f"({' '.join(['and', *items])})"


def literal_text(positive, atom):
    return atom_text(atom) if positive else f"(not {atom_text(atom)})"


def effect_text(rng, effect):
    if effect[0] != "forall":
        return literal_text(*effect)
    _, variables, inner = effect
    return f"(forall ({typed(variables)}) {effects_text(rng, inner)})"


def effects_text(rng, effects):
    return listed(rng, [effect_text(rng, effect) for effect in effects])


def subtask_text(rng, network, place):
    name, terms = network.subtasks[place]
    task = atom_text((name, *terms))
    labelled = any(place in pair for pair in network.pairs) or rng.random() < 0.2
    return f"(l{place} {task})" if labelled else task


def pair_text(rng, pair):
    first, second = (f"l{place}" for place in pair)
    return rng.choice([f"(< {first} {second})", f"({first} < {second})"])


def constraint_text(constraint):
    equal, first, second = constraint
    text = f"(= {first} {second})"
    return text if equal else f"(not {text})"


def network_fields(rng, network):
    subtasks = [subtask_text(rng, network, k) for k in range(len(network.subtasks))]
    words = ["subtasks", "tasks"]
    keyword = ":" + "ordered-" * network.ordered + rng.choice(words)
    fields = [f"{keyword} {listed(rng, subtasks)}"]
    if network.pairs:
        pairs = [pair_text(rng, pair) for pair in network.pairs]
        fields.append(f"{rng.choice([':ordering', ':order'])} {listed(rng, pairs)}")
    if network.constraints:
        constraints = [constraint_text(constraint) for constraint in network.constraints]
        fields.append(f":constraints {listed(rng, constraints)}")
    return fields


def section(rng, head, fields):
    """A section; its fields stand in any order."""
    rng.shuffle(fields)
    return f"({' '.join([head, *fields])})"


def parameter_fields(rng, parameters):
    if not parameters and rng.random() < 0.5:
        return []
    return [f":parameters ({typed(parameters)})"]


def precondition_fields(rng, precondition):
    if precondition == ("and",) and rng.random() < 0.5:
        return []
    return [f":precondition {formula_text(precondition)}"]


def task_text(rng, name, parameters):
    return section(rng, f":task {name}", parameter_fields(rng, parameters))


def method_text(rng, method):
    name, terms = method.task
    fields = [f":task {atom_text((name, *terms))}"]
    fields += parameter_fields(rng, method.parameters)
    fields += precondition_fields(rng, method.precondition)
    fields += network_fields(rng, method.network)
    return section(rng, f":method {method.name}", fields)


def action_text(rng, action):
    fields = parameter_fields(rng, action.parameters)
    fields += precondition_fields(rng, action.precondition)
    if action.effects:
        fields.append(f":effect {effects_text(rng, action.effects)}")
    return section(rng, f":action {action.name}", fields)


def predicate_text(name, arity):
    return atom_text((name, *(f"?v{k}" for k in range(arity))))


def loudly(rng, text):
    """Letter case decides nothing."""
    return text.upper() if rng.random() < 0.1 else text


def domain_text(rng, world):
    sections = [f"(:predicates {' '.join(predicate_text(*p) for p in world.predicates.items())})"]
    if world.types:
        sections.append(f"(:types {typed(world.types)})")
    if world.constants:
        sections.append(f"(:constants {typed(world.constants)})")
    sections += [task_text(rng, *task) for task in world.tasks.items()]
    sections += [method_text(rng, method) for method in world.methods.values()]
    sections += [action_text(rng, action) for action in world.actions.values()]
    rng.shuffle(sections)
    return loudly(rng, "\n  ".join(["(define (domain small)", *sections])) + ")\n"


def problem_text(rng, world):
    fields = parameter_fields(rng, world.top.parameters) + network_fields(rng, world.top.network)
    initial = [atom_text(atom) for atom in sorted(world.initial)]
    nullary = [name for name, arity in world.predicates.items() if arity == 0]
    # an atom said to be false adds nothing, and takes nothing away
    initial += [f"(not ({name}))" for name in nullary if rng.random() < 0.2]
    rng.shuffle(initial)
    sections = ["(:domain small)", section(rng, ":htn", fields)]
    sections.append(f"({' '.join([':init', *initial])})")
    if world.objects:
        sections.append(f"(:objects {typed(world.objects)})")
    if world.goal is not None:
        sections.append(f"(:goal {formula_text(world.goal)})")
    rng.shuffle(sections)
    return loudly(rng, "\n  ".join(["(define (problem one)", *sections])) + ")\n"


def id_text(rng, number):
    """Leading zeros are read."""
    return "0" * (rng.random() < 0.05) + str(number)


def line_text(rng, line):
    children = [id_text(rng, child) for child in line.children]
    if line.is_root():
        return " ".join(["root", *children])
    words = [line.name, *line.arguments]
    if line.is_action():
        return " ".join([id_text(rng, line.id), *words])
    task = f"({' '.join(words)})" if rng.random() < 0.2 else " ".join(words)
    return " ".join([id_text(rng, line.id), task, "->", line.method, *children])


def plan_text(rng, plan):
    lines = [rng.choice(PREFACE) for _ in range(plan.preface)] + ["==>"]
    for line, gap in zip(plan.lines, plan.gaps):
        lines += [rng.choice(GAPS) for _ in range(gap)]
        lines.append(loudly(rng, line_text(rng, line)))
    return "\n".join([*lines, "<==", "the end"]) + "\n"
