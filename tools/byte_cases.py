"""Cases of the byte layer: numbers and small plans, built number by number, and each number damaged in turn in every
way that its kind allows."""
from plan_bytes import LARGEST, Plan, Segment, alone, encode, joined, pieces, task, written

SAMPLE = Plan(2, 17, [
    Segment([task(4), task(3), task(5, 0)], [1, 2]),
    Segment([task(6), task(2), task(2)], []),
    Segment([task(3)], []),
])
NAMED = Plan(8, 1000000000, [
    Segment([task(1000000, name=b"scan"), task(0, 0, name=bytes(range(240, 256))), task(128, 0, 1)], [1, 3]),
    Segment([task(300, name=b"\x80")], [2, 3]),
    Segment([task(16384)], [3]),
    Segment([task(7), task(7), task(7, 0, 1)], []),
])


def damaged(parts):
    """Every number of a plan in turn: cut, endless, padded, too large, one off, at both ends of the range."""
    for i, p in enumerate(parts):
        before, after = joined(parts[:i]), joined(parts[i + 1:])
        yield before
        if isinstance(p, bytes):
            for k in range(len(p)):
                yield before + p[:k]
            continue
        bytes_of = encode(p)
        yield before + b"\x80" * 7
        yield before + bytes_of[:-1] + bytes([bytes_of[-1] + 128]) + b"\x00" + after
        yield before + b"\x80\x80\x80\x80\x10" + after
        yield before + b"\xff\xff\xff\xff\x0f" + after
        yield before + b"\x81" * 6 + b"\x01" + after
        for other in (0, p - 1, p + 1, 8, 9, 16, 17, 31, 32, 33, 256, 257, 1024, 1025, 1000000, 1000001, 1000000000,
                      1000000001):
            if other >= 0 and other != p:
                yield before + encode(other) + after


def plans():
    for plan in (SAMPLE, NAMED):
        whole = written(plan)
        yield whole
        for k in range(len(whole)):
            yield whole[:k]
        yield whole + b"\x00"
        yield whole + b"\x80"
        yield from damaged(pieces(plan))
    for size in (0, 16, 17):
        yield written(Plan(1, 0, alone(task(0, name=b"n" * size))))
    for worst in (1000000, 1000001):
        yield written(Plan(1, 0, alone(task(worst))))
    for count in (256, 257):
        yield written(Plan(1, 0, alone(*[task(0)] * count)))
        yield written(Plan(1, 0, [Segment([task(0)] * 200, [1]), Segment([task(0)] * (count - 200), [])]))
    full = [task(1, *range(max(0, t - 4), t)) for t in range(256)]
    spare = sum(len(t.predecessors) for t in full)
    for more in (1024 - spare, 1025 - spare):
        yield written(Plan(1, 0, alone(*full[:255], task(1, *range(4 + more)))))
    yield written(Plan(4, 32, [Segment([task(1)], [s + 1] * (s < 31)) for s in range(32)]))
    ends = [Segment([task(1)], [])] * 31
    yield written(Plan(4, 32, [Segment([task(1)], list(range(1, 32))), *ends]))
    for lost in (1, 16, 31):
        yield written(Plan(4, 32, [Segment([task(1)], [e for e in range(1, 32) if e != lost]), *ends]))
    yield b""


def numbers():
    for n in (0, 1, 127, 128, 300, 16383, 16384, 2097151, 2097152, 268435455, 268435456, LARGEST - 1, LARGEST):
        yield 0, encode(n)
        yield 0, encode(n) + b"\xff"
        yield 2, b"\x80\x00" + encode(n)
    for data in (b"", b"\x80", b"\x80\x00", b"\xff\x00", b"\x80\x80\x00", b"\x80\x80\x80\x80\x10",
                 b"\xff\xff\xff\xff\x7f", b"\x80" * 5 + b"\x01", b"\x80" * 5 + b"\x00", b"\x80" * 12,
                 b"\xff" * 11 + b"\x00", b"\xff" * 11 + b"\x01"):
        yield 0, data
        yield len(data), data


def cases():
    for at, data in numbers():
        yield f"number {at} {data.hex() or '-'}"
    for data in plans():
        yield f"plan {data.hex() or '-'}"
