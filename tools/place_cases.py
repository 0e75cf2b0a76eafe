"""Cases of the plan place: plans of many shapes with their deadlines and cells at and beside what they need."""
from random import Random

from byte_cases import NAMED, SAMPLE
from plan_bytes import Plan, Segment, alone, task, written
from schedule import Schedule

ENOUGH = 256, 8


def shapes():
    """Tasks of one segment: chains, forks, joins, crowds that keep all cores busy, and many of worst 0."""
    for worsts in ([0], [7], [3, 3, 3], [1, 0, 2, 0, 0, 3]):
        yield alone(*(task(w, *range(max(0, t - 1), t)) for t, w in enumerate(worsts)))
    yield alone(task(2), *(task(w, 0) for w in (1, 5, 3, 5, 2)))
    yield alone(*(task(w) for w in (1, 5, 3, 5, 2)), task(4, 0, 1, 2, 3, 4))
    yield alone(task(3), task(2, 0), task(6, 0), task(0, 1, 2), task(1, 3), task(1, 3))
    yield alone(task(1), task(9), task(4, 0), task(4, 0), task(2, 2), task(8, 1, 3), task(2, 1))
    yield alone(*[task(4)] * 9)
    yield alone(*(task(w) for w in (1, 2, 3, 4, 5, 6, 7, 8, 9)))
    yield alone(*(task(w) for w in (6, 3, 3, 2, 2, 2, 1, 1, 1, 1, 1, 1)))
    yield alone(*[task(0)] * 20)
    yield alone(*(task(t % 2) for t in range(12)))
    yield alone(*(task(0, *range(max(0, t - 2), t)) for t in range(10)))
    yield alone(task(5), *[task(0)] * 4, task(0, 0), task(2, 1, 2), task(0, 0, 5), *[task(0)] * 3)


def ways():
    """Segments one after another, one of many, and both."""
    each = [Segment([task(s % 5), task(3 * s % 7)], []) for s in range(32)]
    last = len(each) - 1
    yield [segment._replace(exits=[s + 1] * (s < last)) for s, segment in enumerate(each)]
    yield [segment._replace(exits=list(range(1, 32)) * (s == 0)) for s, segment in enumerate(each)]
    yield [segment._replace(exits=list(range(s + 1, 32))) for s, segment in enumerate(each)]
    yield [segment._replace(exits=[e for e in (2 * s + 1, 2 * s + 2) if e <= last]) for s, segment in enumerate(each)]
    yield [
        Segment([task(1)], [1, 2, 3]),
        Segment([task(9), task(8, 0)], [4]),
        Segment([task(5), task(5), task(5)], [3]),
        Segment([task(2, name=b"ash")], [4]),
        Segment([task(0)], []),
    ]


def limits():
    """As many tasks and predecessors as a plan may have, and the largest worst."""
    yield 8, alone(*(task(t * 37 % 101) for t in range(128)), *(task(t * 37 % 101, *range(8)) for t in range(128)))
    yield 1, alone(*[task(1000000)] * 256)
    yield 8, [Segment([task(1000000)] * 8, [s + 1] * (s < 31)) for s in range(32)]


def any_plan(dice):
    """Cores and segments of a small plan, as the dice fall."""
    count = dice.randint(1, 5)
    exits = [set() for _ in range(count)]
    for e in range(1, count):
        exits[dice.randrange(e)].add(e)
        exits[dice.randrange(e)].add(e)
    segments = []
    for s in range(count):
        tasks = []
        for t in range(dice.randint(1, 8)):
            predecessors = [p for p in range(t) if dice.random() < 0.25]
            name = dice.randbytes(dice.choice((0, 0, 0, 3, 16)))
            tasks.append(task(dice.choice((0, 0, 1, 2, 3, 5, 8, 300)), *predecessors, name=name))
        segments.append(Segment(tasks, sorted(exits[s])))
    return dice.randint(1, 8), segments


def due(cores, segments, spare):
    """A plan whose deadline is so many ticks above the needed length, but not below 0."""
    needed = Schedule(Plan(cores, 0, segments)).needed
    return Plan(cores, max(0, needed + spare), segments)


def cells_beside(plan):
    """Ready and running cells: just enough, one too few of either and of both, one more, and none."""
    ready, running = max(len(segment.tasks) for segment in plan.segments), plan.cores
    yield from ((ready, running), (ready - 1, running), (ready, running - 1), (ready - 1, running - 1))
    yield from ((ready + 1, running + 1), (ready, 0), (0, running), (0, 0))


def places():
    for deadline in (17, 15, 14, 16, 0, 1000000000):
        yield SAMPLE._replace(deadline=deadline), ENOUGH
    yield NAMED, ENOUGH
    for cores in (1, 2, 3, 8):
        for segments in shapes():
            yield due(cores, segments, 0), ENOUGH
    for segments in shapes():
        yield due(4, segments, -1), ENOUGH
        yield due(4, segments, 1000), ENOUGH
    for segments in ways():
        for spare in (0, -1, 5):
            yield due(2, segments, spare), ENOUGH
    for cores, segments in limits():
        yield due(cores, segments, 0), ENOUGH
        yield due(cores, segments, -1), ENOUGH
    crowd = due(8, alone(*[task(4)] * 9), 0)
    for plan in (SAMPLE, SAMPLE._replace(deadline=14), crowd, due(1, SAMPLE.segments, 0)):
        for cells in cells_beside(plan):
            yield plan, cells
    dice = Random(20)
    for _ in range(300):
        plan = due(*any_plan(dice), dice.choice((0, 0, 1, 9, 1000, -1)))
        enough = dice.random() < 0.75
        yield plan, ENOUGH if enough else dice.choice(list(cells_beside(plan)))


def damaged():
    """Bytes at fault, with no cells: their fault comes first."""
    whole = written(SAMPLE)
    yield b""
    yield whole[:-1]
    yield whole[:5] + b"\x84\x00" + whole[6:]
    yield b"\x09" + whole[1:]
    yield whole[:13] + b"\x02" + whole[14:]
    yield whole + b"\x00"
    yield written(SAMPLE._replace(segments=[Segment([task(1)], [2]), Segment([task(1)], []), Segment([task(1)], [])]))


def cases():
    for plan, (ready, running) in places():
        yield f"place {ready} {running} {written(plan).hex()}"
    for data in damaged():
        yield f"place 0 0 {data.hex() or '-'}"
