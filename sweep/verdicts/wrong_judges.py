#!/usr/bin/env python3
"""Judges that are wrong in one way each, and after how many random cases that is seen.

Whoever changes how cases are made can see by this that they still tell wrong from right. The exit
status is 1 where a wrong judge always agreed with the slow one."""

import argparse
import random
import sys
import time
from dataclasses import fields, is_dataclass, replace
from itertools import product
from math import prod

from meaning import action_binding, is_true, literals, objects_of
from random_cases import random_cases
from slow_judge import SlowJudge, TooManyChoices

SPOILS = 7


def with_network(method, **changes):
    return replace(method, network=replace(method.network, **changes))


class OrderedFormDropped(SlowJudge):
    def method_of(self, node):
        return with_network(super().method_of(node), ordered=False)


class PairsDropped(SlowJudge):
    def method_of(self, node):
        return with_network(super().method_of(node), pairs=())


class ConstraintsSkipped(SlowJudge):
    def method_of(self, node):
        return with_network(super().method_of(node), constraints=())


class TypesOfMethodsSkipped(SlowJudge):
    def method_of(self, node):
        method = super().method_of(node)
        return replace(method, parameters=tuple((x, "object") for x, _ in method.parameters))


class EmptyMethodVanishes(SlowJudge):
    """Its precondition stays, without the order."""

    def step(self, network, node, candidate):
        items, pairs = super().step(network, node, candidate)
        lost = ("pre", node.id) if not node.children else None
        return items, {pair for pair in pairs if lost not in pair}


class PreconditionInsideItsLine(SlowJudge):
    def step(self, network, node, candidate):
        items, pairs = super().step(network, node, candidate)
        return items, pairs - {(("pre", node.id), child) for child in node.children}


class PreconditionBeforeItsTurn(SlowJudge):
    def step(self, network, node, candidate):
        items, pairs = super().step(network, node, candidate)
        return items, {(x, y) for x, y in pairs if y != ("pre", node.id)}


class FirstCandidateFixed(SlowJudge):
    def has_solution(self, candidates, with_preconditions):
        return super().has_solution([found[:1] for found in candidates], with_preconditions)


class FirstTrueCandidateFixed(SlowJudge):
    """The first candidate whose precondition is true anywhere."""

    def has_solution(self, candidates, with_preconditions):
        true = [[each for each in found if each.indices] or found for found in candidates]
        return super().has_solution([found[:1] for found in true], with_preconditions)


class PreconditionsInTheInitialStateOnly(SlowJudge):
    def indices(self, method, binding):
        true = is_true(self.world, method.precondition, binding, self.world.initial)
        return frozenset(range(len(self.states))) if true else frozenset()


class FirstTrueStateOnly(SlowJudge):
    def indices(self, method, binding):
        return frozenset(sorted(super().indices(method, binding))[:1])


class LastStateForgotten(SlowJudge):
    def indices(self, method, binding):
        return super().indices(method, binding) - {len(self.actions)}


class WrittenOrderOnly(SlowJudge):
    def arrangements(self, node):
        return [tuple(node.children)]


class OneChildMatchedTwice(SlowJudge):
    def arrangements(self, node):
        return product(node.children, repeat=len(node.children))


class AlikeByNameAlone(SlowJudge):
    def likeness(self, subtasks, name, terms):
        return name


class AlikeByAllTerms(SlowJudge):
    def likeness(self, subtasks, name, terms):
        return name, terms


class AllParametersCounted(SlowJudge):
    def count(self, node):
        parameters = self.method_of(node).parameters
        return super().count(node) * prod(len(objects_of(self.world, t)) for _, t in parameters)


class UndecidedAtTheLimit(SlowJudge):
    def verdict(self, limit):
        return super().verdict(limit - 1)


class NeverUndecided(SlowJudge):
    def count(self, node):
        return 0


class NoBindingPastTheLimit(SlowJudge):
    def verdict(self, limit):
        verdict = super().verdict(limit)
        found = map(self.candidates, self.plan.nodes())
        if verdict.startswith("undecided") and not all(found):
            return self.searched_cause()
        return verdict


class NoBindingAsWritten(SlowJudge):
    """The first node of the text without a candidate, also where it stands before `root`."""

    def searched_cause(self):
        for line in self.plan.lines:
            if line.is_node() and not self.candidates(line):
                return f"fails 66 NoBinding line {self.plan.number(line)}"
        return super().searched_cause()


class OrderNeverBroken(SlowJudge):
    def has_solution(self, candidates, with_preconditions):
        return not with_preconditions or super().has_solution(candidates, True)


class OrderAlwaysBroken(SlowJudge):
    def has_solution(self, candidates, with_preconditions):
        return with_preconditions and super().has_solution(candidates, True)


class Effects(SlowJudge):
    """Effects that are carried out one by one."""

    @property
    def states(self):
        states = [self.world.initial]
        for line in self.actions:
            action, state = self.world.actions[line.name], set(states[-1])
            binding = action_binding(action, line.arguments)
            for adds, atom in self.in_order(literals(self.world, action.effects, binding)):
                (state.add if adds else state.discard)(atom)
            states.append(frozenset(state))
        return states


class AddsBeforeDeletes(Effects):
    def in_order(self, effects):
        return sorted(effects, reverse=True)


class LastEffectWins(Effects):
    def in_order(self, effects):
        return effects


def with_kinds(value, change):
    """The same value with other types of those variables that are of either of several."""
    if is_dataclass(value):
        parts = {field.name: getattr(value, field.name) for field in fields(value)}
        return replace(value, **{name: with_kinds(part, change) for name, part in parts.items()})
    if isinstance(value, dict):
        return {name: with_kinds(part, change) for name, part in value.items()}
    match value:
        case (str(variable), tuple(names)) if variable.startswith("?"):
            return variable, change(names)
        case tuple():
            return tuple(with_kinds(part, change) for part in value)
    return value


class LastOfEitherAlone(SlowJudge):
    def __init__(self, world, plan):
        super().__init__(with_kinds(world, lambda names: names[-1]), plan)


class EitherOfAll(SlowJudge):
    def __init__(self, world, plan):
        super().__init__(with_kinds(world, lambda names: "object"), plan)


class OuterVariablesSeen(SlowJudge):
    """A variable of an effect is the outer one where an inner one hides it."""

    @property
    def states(self):
        states = [self.world.initial]
        for line in self.actions:
            action, state = self.world.actions[line.name], states[-1]
            outer = action_binding(action, line.arguments)
            changes = set(self.changes(action.effects, outer))
            deleted = {atom for adds, atom in changes if not adds}
            states.append((state - deleted) | {atom for adds, atom in changes if adds})
        return states

    def changes(self, effects, outer):
        for effect in effects:
            if effect[0] == "forall":
                _, variables, inner = effect
                seen = tuple(pair for pair in variables if pair[0] not in outer)
                yield from literals(self.world, (("forall", seen, inner),), outer)
            else:
                yield from literals(self.world, (effect,), outer)


class FirstParentOnly(SlowJudge):
    def __init__(self, world, plan):
        first = {}
        for name, parent in world.types:
            first.setdefault(name, parent)
        super().__init__(replace(world, types=tuple(first.items())), plan)


class ObjectMakesNoChains(SlowJudge):
    def __init__(self, world, plan):
        types = tuple(pair for pair in world.types if pair[0] != "object")
        super().__init__(replace(world, types=types), plan)


class FirstDeclarationOnly(SlowJudge):
    """The types of an object that is declared again are those of the first time."""

    def __init__(self, world, plan):
        first = {}
        for name, type in world.constants + world.objects:
            first.setdefault(name, type)
        super().__init__(replace(world, constants=(), objects=tuple(first.items())), plan)


def subclasses(kind):
    """The judges that are wrong by themselves."""
    for inner in kind.__subclasses__():
        deeper = list(subclasses(inner))
        yield from deeper or [inner]


def verdict_of(kind, case):
    try:
        return kind(case.world, case.plan).verdict(case.limit)
    except TooManyChoices:
        return None


def seen_after(seed, seconds):
    """For each wrong judge the number of cases after which it was seen, and the others."""
    seen, unseen, count = {}, set(subclasses(SlowJudge)), 0
    end, rng = time.monotonic() + seconds, random.Random(seed)
    while unseen and time.monotonic() < end:
        for case in random_cases(rng, SPOILS):
            count += 1
            right = verdict_of(SlowJudge, case)
            wrong = {kind for kind in unseen if verdict_of(kind, case) not in (right, None)}
            if right:
                seen |= {kind: count for kind in wrong}
                unseen -= wrong
    return seen, unseen


def main():
    parser = argparse.ArgumentParser(description=__doc__)
    parser.add_argument("--seconds", type=float, default=60)
    parser.add_argument("--seed", type=int, default=1)
    arguments = parser.parse_args()
    seen, unseen = seen_after(arguments.seed, arguments.seconds)
    for kind, count in sorted(seen.items(), key=lambda pair: pair[1]):
        print(f"{count:7} {kind.__name__}")
    for kind in unseen:
        print(f"  never {kind.__name__}")
    sys.exit(bool(unseen))


if __name__ == "__main__":
    main()
