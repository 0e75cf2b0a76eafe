#!/usr/bin/env python3
"""Makes cases for the test programs and what they should answer.

The answers come from a reader and a scheduler of plans, and from ladders and policies, that were written from docs/,
in another language than the product and not after its code (plan_bytes.py, schedule.py, ladders.py). The programs
`vectors`, `plan_vectors` and `speed_vectors` are held to them:

    tools/cases.py bytes      prints cases of the byte layer, one to a line
    tools/cases.py places     prints cases of the plan place
    tools/cases.py speeds     prints cases of ladders and policies
    tools/cases.py answer     answers the cases on standard input
"""
import sys

import byte_cases
import place_cases
import speed_cases
from ladders import even, greedy, listed, two_step
from plan_bytes import Reader, Refused
from schedule import accepted


def reader_of(digits):
    return Reader(bytes.fromhex(digits.strip("-")))


def answer_number(at, digits):
    reader = reader_of(digits)
    reader.at = int(at)
    value, start = reader.number()
    return f"value {value} used {reader.at - start}"


def answer_plan(digits):
    reader = reader_of(digits)
    reader.plan()
    return f"accepted {reader.at}"


def parted(mark, items):
    return mark.join(map(str, items))


def answer_place(ready, running, digits):
    schedule = accepted(reader_of(digits).plan(), int(ready), int(running))
    starts = parted("/", (parted(",", (parted(":", start) for start in starts)) for starts in schedule.starts))
    return (
        f"accepted needed {schedule.needed} lengths {parted(',', schedule.lengths)}"
        f" remaining {parted(',', schedule.remaining)} shifts {parted(',', schedule.shifts)}"
        f" starts {starts} lines {parted(',', (parted(':', line) for line in schedule.lines()))}"
    )


def numbers(words):
    return [int(word) for word in words]


def or_none(number):
    return "none" if number is None else number


def answer_ladder(ladder, question):
    work, level, window = numbers(question)
    return (
        f"count {ladder.count} full {ladder.full} speed {ladder.speed(level)}"
        f" time {or_none(ladder.time(work, level))} floor {or_none(ladder.floor(work, window))}"
    )


def answer_listed(speeds, *question):
    return answer_ladder(listed([] if speeds == "-" else numbers(speeds.split(","))), question)


def answer_even(lowest, step, count, *question):
    return answer_ladder(even(*numbers((lowest, step, count))), question)


def answer_greedy(*words):
    return f"level {greedy(*numbers(words))}"


def answer_two_step(*words):
    return f"level {two_step(*numbers(words))}"


ANSWERS = {
    "number": answer_number,
    "plan": answer_plan,
    "place": answer_place,
    "listed": answer_listed,
    "even": answer_even,
    "greedy": answer_greedy,
    "twostep": answer_two_step,
}
CASES = {"bytes": byte_cases.cases, "places": place_cases.cases, "speeds": speed_cases.cases}


def answer(case):
    kind, *words = case.split()
    try:
        return ANSWERS[kind](*words)
    except Refused as refused:
        return refused.line


def main():
    if len(sys.argv) == 2 and sys.argv[1] in CASES:
        lines = dict.fromkeys(CASES[sys.argv[1]]())
    elif sys.argv[1:] == ["answer"]:
        lines = map(answer, sys.stdin)
    else:
        sys.exit(__doc__)
    for line in lines:
        print(line)


if __name__ == "__main__":
    main()
