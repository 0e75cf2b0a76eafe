"""The schedule of a plan and what follows from it, as docs/SCHEDULE.md and docs/REFUSALS.md say, the plainest way."""
from plan_bytes import Refused


def canonical(cores, tasks):
    """The starts of one segment in canonical order, each a task, a time and a core."""
    now, starts, running, ended = 0, [], [], set()
    while True:
        started = {t for t, _, _ in starts}
        ready = [t for t in range(len(tasks)) if t not in started and ended.issuperset(tasks[t].predecessors)]
        free = set(range(cores)) - {core for _, core, _ in running}
        if ready and free:
            first = min(ready, key=lambda t: (-tasks[t].worst, t))
            core = min(free)
            starts.append((first, now, core))
            running.append((now + tasks[first].worst, core, first))
        elif running:
            now = min(end for end, _, _ in running)
            ended |= {t for end, _, t in running if end == now}
            running = [r for r in running if r[0] > now]
        else:
            return starts


class Schedule:
    def __init__(self, plan):
        self.plan = plan
        self.starts = [canonical(plan.cores, segment.tasks) for segment in plan.segments]
        self.lengths = [
            max(at + segment.tasks[t].worst for t, at, _ in starts)
            for segment, starts in zip(plan.segments, self.starts)
        ]
        self.remaining = list(self.lengths)
        for s in reversed(range(len(plan.segments))):  # exits are higher segments
            self.remaining[s] += max((self.remaining[e] for e in plan.segments[s].exits), default=0)
        self.needed = self.remaining[0]
        self.shifts = [plan.deadline - remaining for remaining in self.remaining]

    def lines(self):
        """Segment, task, place in order, latest start and latest end, of each task in canonical order."""
        for s, shift in enumerate(self.shifts):
            for k, (t, at, _) in enumerate(self.starts[s]):
                yield s, t, k, at + shift, at + shift + self.plan.segments[s].tasks[t].worst


def accepted(plan, ready, running):
    """The schedule of a plan that is read into a place with so many cells, unless that is refused."""
    largest = max(len(segment.tasks) for segment in plan.segments)
    if ready < largest:
        raise Refused(7, "plan", largest)
    if running < plan.cores:
        raise Refused(7, "plan", plan.cores)
    schedule = Schedule(plan)
    if schedule.needed > plan.deadline:
        raise Refused(8, "plan", schedule.needed)
    return schedule
