"""Random cases: worlds, plans that are nearly right, and limits."""

from dataclasses import dataclass, replace

from meaning import is_true
from random_worlds import Maker, some
from slow_judge import SlowJudge
from spoil import spoiled
from walk import Walk
from world import Plan, World

DEFAULT_LIMIT = 1_000_000


@dataclass
class Case:
    world: World
    plan: Plan
    limit: int


def with_goal(rng, maker, world, state):
    """The world with a goal, which is mostly true in the state, or with none."""
    if some(rng, 0.3):
        return world
    goals = [maker.goal() for _ in range(8)]
    true = [goal for goal in goals if is_true(world, goal, {}, state)]
    return replace(world, goal=true[0] if true and some(rng, 0.95) else goals[0])


def random_limit(rng, world, plan):
    """A limit: mostly the greatest, else the count of a node or one below."""
    if some(rng, 0.85):
        return DEFAULT_LIMIT
    known = [x for x in plan.nodes() if x.is_root() or x.method in world.methods]
    count = SlowJudge(world, plan).count(rng.choice(known))
    return max(0, count - rng.choice([0, 1, 1]))


def is_kept(rng, walk):
    """Short walks come by far most often, and most of them are left."""
    decompositions = len(walk.nodes) - 1
    return some(rng, [0.03, 0.1, 0.4][decompositions] if decompositions < 3 else 1)


def walked(rng):
    """A world, and a plan that a walk through it makes."""
    while True:
        maker = Maker(rng)
        world = maker.world()
        for _ in range(6):
            walk = Walk(rng, world)
            if walk.run() and is_kept(rng, walk):
                return with_goal(rng, maker, world, walk.state), walk.plan()


def random_cases(rng, spoils):
    """A walked plan as it is, and as many times spoiled in a small way or two."""
    world, plan = walked(rng)
    yield Case(world, plan, random_limit(rng, world, plan))
    for _ in range(spoils):
        other_world, other_plan = world, plan.copy()
        for _ in range(rng.choice([1, 1, 1, 2])):
            other_world, other_plan = spoiled(rng, other_world, other_plan)
        yield Case(other_world, other_plan, random_limit(rng, other_world, other_plan))
