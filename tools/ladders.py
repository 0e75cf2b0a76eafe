"""Ladders and policies, as docs/SPEED.md says, the plainest way."""
from plan_bytes import Refused

FASTEST = 10000


class Ladder:
    def __init__(self, most, count, speed):
        """A ladder of a kind with at most so many levels: so many are asked for, each with its speed."""
        if not 1 <= count <= most:
            raise Refused(9, "ladder", 0)
        self.speeds = []
        for level in range(count):
            before = self.speeds[-1] if self.speeds else 0
            if not before < speed(level) <= FASTEST:
                raise Refused(9, "ladder", level + 1)
            self.speeds.append(speed(level))
        self.count, self.full = count, self.speeds[-1]

    def speed(self, level):
        return self.speeds[level] if level < self.count else 0

    def time(self, work, level):
        """The least number of ticks in which the level does the work, or none beyond the list."""
        if level >= self.count:
            return None
        ticks, rest = divmod(work * self.full, self.speeds[level])
        return ticks + (rest > 0)

    def floor(self, work, window):
        return next((level for level in range(self.count) if self.time(work, level) <= window), None)


def listed(speeds):
    return Ladder(16, len(speeds), lambda level: speeds[level])


def even(lowest, step, count):
    return Ladder(64, count, lambda level: lowest + level * step)


def greedy(task, time, floor, top):
    return min(floor, top)


def two_step(switch, first, second, task, time, floor, top):
    level = first if time < switch else second
    return min(max(level, floor), top)
