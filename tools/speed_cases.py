"""Cases of ladders and policies: levels, windows, floors and tops at and beside where an answer changes, and ladders
with one speed damaged."""
from random import Random

from ladders import even, listed
from plan_bytes import LARGEST

LARGEST_64 = 2**64 - 1
WORKED = [400, 600, 800, 1000]


def listed_case(speeds, work=5, level=0, window=0):
    return f"listed {','.join(map(str, speeds)) or '-'} {work} {level} {window}"


def even_case(lowest, step, count, work=5, level=0, window=0):
    return f"even {lowest} {step} {count} {work} {level} {window}"


def questions(ladder, works):
    """Each level, the first beyond and one far beyond; each time as the window, and a tick less and more."""
    for work in works:
        for level in (*range(ladder.count), ladder.count, 2**32, LARGEST_64):
            time = ladder.time(work, level) or 0
            for window in (max(0, time - 1), time, time + 1):
                yield work, level, window
        for window in (2**32, LARGEST_64 - 1, LARGEST_64):
            yield work, 0, window


def good_ladders():
    for speeds in (WORKED, [1, 10000], [1], [7], [10000], [9999, 10000], [1, 2, 3, 5, 9]):
        for question in questions(listed(speeds), (0, 1, 5, 1000, LARGEST)):
            yield listed_case(speeds, *question)
    for speeds in (range(1, 17), range(9985, 10001)):
        for question in questions(listed(speeds), (3, LARGEST)):
            yield listed_case(speeds, *question)
    for parts in ((400, 200, 4), (1, 9999, 2), (1, 0, 1), (10000, 0, 1), (10000, LARGEST, 1), (3, 7, 5)):
        for question in questions(even(*parts), (0, 5, LARGEST)):
            yield even_case(*parts, *question)
    for parts in ((1, 1, 64), (46, 158, 64)):
        for question in questions(even(*parts), (LARGEST,)):
            yield even_case(*parts, *question)


def bad_lists():
    """None, too many, each speed of a ladder out of range or not rising, and several at once."""
    yield from ([], range(1, 18), [0] * 17, range(9990, 10010), [1] * 40)
    yield from ([0, 0], [5, 5, 5], [10001, 1], [10000, 10001], [1, 2, 2, 1, 0], [LARGEST] * 3, [1, 0, LARGEST])
    for speeds in ([9], WORKED, list(range(1, 17)), list(range(9985, 10001))):
        for level in range(len(speeds)):
            for speed in (0, speeds[level - 1] if level else 0, 10001, LARGEST):
                yield speeds[:level] + [speed] + speeds[level + 1:]


def bad_steps():
    """Even ladders that are refused, some of which would pass where a sum, a product or a count wrapped."""
    for count in (0, 65, 66, 2**32, 2**32 + 2, LARGEST_64):
        yield from ((1, 1, count), (0, 0, count), (LARGEST, LARGEST, count))
    for count in (1, 2, 64):
        for lowest in (0, 10001, LARGEST):
            yield from ((lowest, 1, count), (lowest, LARGEST, count))
    yield from ((1, 0, 2), (10000, 0, 64), (10000, 1, 2), (9999, 1, 64), (1, 10000, 2), (1, 1000, 64), (47, 158, 64))
    for count in (2, 3, 5, 64):
        around = 2**32 // (count - 1)
        yield from ((7, step, count) for step in (around - 1, around, around + 1, around + 2) if step <= LARGEST)


def any_question(dice, ladder):
    work = dice.choice((0, dice.randrange(100), dice.randrange(10**6), LARGEST - dice.randrange(3)))
    level = dice.randrange(ladder.count)
    window = max(0, ladder.time(work, level) + dice.choice((-1, 0, 0, 1, 50)))
    return work, level, window


def any_listed(dice):
    """A listed ladder and a question, as the dice fall; now and then its speeds are shuffled."""
    speeds = sorted(dice.sample(range(1, dice.choice((20, 10001))), dice.randint(1, 16)))
    question = any_question(dice, listed(speeds))
    if dice.random() < 0.2:
        dice.shuffle(speeds)
    return listed_case(speeds, *question)


def any_even(dice):
    lowest, count = dice.randint(1, 5000), dice.randint(1, 64)
    step = dice.randint(1, 5000 // count)
    return even_case(lowest, step, count, *any_question(dice, even(lowest, step, count)))


def ranges():
    """Floors and tops: apart, equal, the floor above, and as large as they come."""
    yield from ((0, 0), (0, 3), (2, 3), (3, 3), (4, 3), (1, 0), (64, 63), (16, 15), (0, LARGEST_64))
    yield from ((LARGEST_64, 0), (LARGEST_64, 3), (LARGEST_64, LARGEST_64), (2**32, 3), (2, 2**32), (2**32 + 1, 2**32))


def steps():
    """Switches with times beside them."""
    for switch in (0, 1, 10, 2**32, LARGEST_64):
        for time in (0, switch - 1, switch, switch + 1, LARGEST_64):
            if 0 <= time <= LARGEST_64:
                yield switch, time


def policies():
    for floor, top in ranges():
        for task, time in ((0, 0), (LARGEST, LARGEST_64)):
            yield f"greedy {task} {time} {floor} {top}"
        for first, second in ((0, 3), (3, 0), (2, 2), (1, LARGEST_64), (LARGEST_64, 1), (2**32, 2**32 + 3)):
            for task, time in ((0, 9), (LARGEST, 10)):
                yield f"twostep 10 {first} {second} {task} {time} {floor} {top}"
    for switch, time in steps():
        yield f"twostep {switch} 1 2 0 {time} 0 3"


def cases():
    yield from good_ladders()
    for speeds in bad_lists():
        yield listed_case(speeds)
    for parts in bad_steps():
        yield even_case(*parts)
    dice = Random(21)
    for _ in range(150):
        yield any_listed(dice)
        yield any_even(dice)
    yield from policies()
