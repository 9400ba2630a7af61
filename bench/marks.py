#!/usr/bin/env python3
"""Measures what closing and marks cost as a journal grows, against the bar.

Each delivery brings a row for each of 30 partitions, and closes those of the deliveries before it.
After 10 of them, and after a hundred times as many, it is measured what one thing more costs: a
delivery of a row that closes, a delivery of a row that comes too late, and the mark of one partition
of a view, closed or waiting to be computed. The bar is a growth of 1.1.

Instructions are counted under callgrind. Exit status: 0 if the bar is met, 1 if it is not, 2 if
something was not measured. See docs/PERFORMANCE.md.
"""

import argparse
import sys

sys.dont_write_bytecode = True

import depot
from depot import Session

PARTS_A_DELIVERY = 30
FEW = 10
MANY = 1_000
MOST_GROWTH = 1.1

WIDTH = 10

DESCRIPTION = """\
feed f
raw r feed f width 10 time at cols at:int k:text n:int
view tot width 20 group r 0 0 by k agg sum:n as s count as c
go
"""

# A partition of `r` that is closed in each session, and that of `tot` above it.
CLOSED_PART = 100
CLOSED_TOTAL = 50


def row_in(part):
    return "r,%d,k%d,%d\n" % (part * WIDTH + part % WIDTH, part % 7, part % 10)


def session_of(deliveries, is_drained):
    """So many deliveries, with a drain after them or none."""
    session = Session(DESCRIPTION)
    for number in range(deliveries):
        first = number * PARTS_A_DELIVERY
        body = "".join(map(row_in, range(first, first + PARTS_A_DELIVERY)))
        session.deliver("f", number, body, closes=first * WIDTH)
    if is_drained:
        session.drain(deliveries * PARTS_A_DELIVERY // 2)
    return session


def closing(session, deliveries):
    """One row for a new partition, and all before it closed."""
    part = deliveries * PARTS_A_DELIVERY
    session.deliver("f", deliveries, row_in(part), closes=part * WIDTH)


def late(session, deliveries):
    """One row for a partition that is closed."""
    session.deliver("f", deliveries, row_in(CLOSED_PART), aside=1)


def mark_of_total(mark):
    """The mark of a partition of the view."""
    def ask(session, _):
        start = CLOSED_TOTAL * 2 * WIDTH
        session.marks("tot", start, start + 2 * WIDTH, [(CLOSED_TOTAL, mark)])
    return ask


# What is done once more, and whether all is computed before.
STEPS = {
    "a delivery of a row that closes": (closing, False),
    "a delivery of a row that comes too late": (late, False),
    "the mark of a partition that waits": (mark_of_total("open"), False),
    "the mark of a partition that is complete": (mark_of_total("complete"), True),
}


def cost_of(step, is_drained, deliveries):
    before = session_of(deliveries, is_drained)
    after = before.copy()
    step(after, deliveries)
    return depot.instructions(after) - depot.instructions(before)


def measure(figures, name):
    step, is_drained = STEPS[name]
    few, many = (cost_of(step, is_drained, deliveries) for deliveries in (FEW, MANY))
    figures.tell("%s, after %d deliveries" % (name, FEW), few)
    figures.tell("the same after %s" % format(MANY, ","), many)
    figures.hold("growth", many / few, MOST_GROWTH, 3)


def main():
    parser = argparse.ArgumentParser(description=__doc__.split("\n")[0])
    parser.add_argument("--print", action="store_true",
                        help="write the session of %d deliveries and run nothing" % FEW)
    options = parser.parse_args()
    if options.print:
        sys.stdout.buffer.write(session_of(FEW, True).script())
        return depot.MET
    depot.require_program()
    print("figures are instructions, unless they say otherwise")
    figures = depot.Figures()
    for name in STEPS:
        figures.measure(name, lambda figures, name=name: measure(figures, name))
    return figures.status


if __name__ == "__main__":
    sys.exit(main())
