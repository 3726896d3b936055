"""Random lists of turns of carriers, from a seed. Each turn is a carrier and its reading of the clock."""

import random


def weighted(randoms, carriers, count):
    """Carriers by chance, some of them seldom or never."""
    weights = [randoms.choice([0, 1, 1, 10, 100]) for _ in range(carriers)]
    weights[randoms.randrange(carriers)] += 1
    return randoms.choices(range(carriers), weights, k=count)


def even(randoms, carriers, count):
    return [randoms.randrange(carriers) for _ in range(count)]


def in_turn(randoms, carriers, count):
    first = randoms.randrange(carriers)
    return [(first + place) % carriers for place in range(count)]


def in_runs(randoms, carriers, count):
    """Each carrier makes many turns before another has one."""
    longest = randoms.choice([5, 50, 500])
    turns = []
    while len(turns) < count:
        turns += [randoms.randrange(carriers)] * randoms.randint(1, longest)
    return turns[:count]


def starved(randoms, carriers, count):
    """One carrier has no turn until late."""
    late = randoms.randrange(carriers)
    others = [carrier for carrier in range(carriers) if carrier != late] or [late]
    begins = randoms.randrange(count + 1)
    return [randoms.choice(others) if place < begins else late for place in range(count)]


SHAPES = [weighted, even, in_turn, in_runs, starved]


def mixed(randoms, carriers, count):
    """Parts of different shapes."""
    turns = []
    while len(turns) < count:
        turns += randoms.choice(SHAPES)(randoms, carriers, randoms.randint(1, 400))
    return turns[:count]


def length_of(randoms, most):
    """Short lists are as likely as long ones."""
    return int(most ** randoms.uniform(0.2, 1))


def times(randoms, count):
    """Readings of a clock that goes on, stands still, and at times falls."""
    now = 0
    for _ in range(count):
        now = max(0, now + randoms.choice([0, 0, 1, 1000, 1_000_000, -500]))
        yield now


def turn_list(randoms, carriers, most):
    """A list of turns: at most so many, half of the lists shorter so that they stop on the way."""
    count = randoms.choice([most, length_of(randoms, most)])
    shape = randoms.choice(SHAPES + [mixed, mixed])
    return list(zip(shape(randoms, carriers, count), times(randoms, count)))


def limits_of(randoms):
    """Mostly the limits of the command `run`: cells, threads and entries. At times one of them is near."""
    cells, threads, events = 4_194_304, 100_000, 4_194_304
    near = randoms.randrange(20)
    if near == 0:
        cells = randoms.randint(0, 2000)
    elif near == 1:
        threads = randoms.randint(1, 12)
    elif near == 2:
        events = randoms.randint(3, 600)
    return cells, threads, events


def randoms_of(seed):
    return random.Random(seed)
