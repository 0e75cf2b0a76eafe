"""Plan bytes, built and read, as docs/FORMAT.md and docs/REFUSALS.md say."""
from typing import NamedTuple

LARGEST = 4294967295


class Task(NamedTuple):
    name: bytes
    worst: int
    predecessors: list


class Segment(NamedTuple):
    tasks: list
    exits: list


class Plan(NamedTuple):
    cores: int
    deadline: int
    segments: list


def task(worst, *predecessors, name=b""):
    return Task(name, worst, list(predecessors))


def alone(*tasks):
    """The segments of a plan that has but one."""
    return [Segment(list(tasks), [])]


def encode(n):
    out = []
    while n >= 128:
        out.append(128 + n % 128)
        n //= 128
    return bytes(out + [n])


def pieces(plan):
    """A plan as a list of pieces, each a number or the bytes of a name."""
    out = [plan.cores, plan.deadline, len(plan.segments)]
    for tasks, exits in plan.segments:
        out.append(len(tasks))
        for name, worst, predecessors in tasks:
            out += [len(name), name, worst, len(predecessors), *predecessors]
        out += [len(exits), *exits]
    return out


def joined(parts):
    return b"".join(p if isinstance(p, bytes) else encode(p) for p in parts)


def written(plan):
    return joined(pieces(plan))


class Refused(Exception):
    def __init__(self, number, layer, place):
        self.line = f"refused {number} {layer} {place}"


class Reader:
    def __init__(self, data):
        self.data, self.at = data, 0

    def number(self):
        start, groups = self.at, []
        while True:
            if self.at == len(self.data):
                raise Refused(1, "bytes", len(self.data))
            byte = self.data[self.at]
            self.at += 1
            groups.append(byte % 128)
            if byte < 128:
                break
        value = sum(g * 128**i for i, g in enumerate(groups))
        if value > LARGEST or len(groups) > 1 and groups[-1] == 0:
            raise Refused(2, "bytes", start)
        return value, start

    def ranged(self, low, high):
        value, start = self.number()
        if not low <= value <= high:
            raise Refused(3, "plan", start)
        return value

    def name(self, size):
        if len(self.data) - self.at < size:
            raise Refused(1, "bytes", len(self.data))
        self.at += size
        return self.data[self.at - size:self.at]

    def plan(self):
        plan = Plan(self.ranged(1, 8), self.ranged(0, 1000000000), [])
        segments = self.ranged(1, 32)
        left, spare = 256, 1024
        for s in range(segments):
            tasks = []
            count = self.ranged(1, left)
            left -= count
            for t in range(count):
                name = self.name(self.ranged(0, 16))
                worst = self.ranged(0, 1000000)
                many = self.ranged(0, spare)
                spare -= many
                tasks.append(Task(name, worst, self.predecessors(many, t)))
            plan.segments.append(Segment(tasks, self.exits(self.ranged(0, 31), s, segments)))
        if self.at < len(self.data):
            raise Refused(5, "plan", self.at)
        for s in range(1, segments):
            if not any(s in segment.exits for segment in plan.segments):
                raise Refused(6, "plan", s)
        return plan

    def predecessors(self, many, t):
        out = []
        for _ in range(many):
            p, start = self.number()
            if p >= t or out and p <= out[-1]:
                raise Refused(4, "plan", start)
            out.append(p)
        return out

    def exits(self, many, s, segments):
        out = []
        for _ in range(many):
            e, start = self.number()
            if e >= segments:
                raise Refused(3, "plan", start)
            if e <= s or out and e <= out[-1]:
                raise Refused(4, "plan", start)
            out.append(e)
        return out
