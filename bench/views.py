#!/usr/bin/env python3
"""Measures what views cost: how drains grow, and what groups and joins take, against the bars.

Each part writes sessions and runs the proved program on them; instructions are counted under
callgrind. A run on the description alone is start-up, and is taken off.

- growth: one row more and a drain, after few partitions and deliveries and after a hundred times
  as many.
- widths: one row below three views, each 1,024 times as wide as what it reads.
- drains: drains of two filters one above the other, which install 400 partitions of each.
- groups: rows of a monitoring agent by the hour and the host.
- join: two tables of 1,000 rows with 1,000 different keys.
- times: microseconds of loads, queries and drains. It has no bar, and runs only if it is named.

Exit status: 0 if all bars are met, 1 if one is not, 2 if something was not measured. See
docs/PERFORMANCE.md.
"""

import sys

sys.dont_write_bytecode = True

import depot
from depot import Session

# Partitions and deliveries before the row that is measured.
FEW = (300, 10)
MANY = (30_000, 1_000)
MOST_GROWTH = 1.1

# The row that is measured goes to a partition that has rows, or to one that has none so far.
FILLED_PART = 100
EMPTY_PART = 200

GROWTH = """\
feed f
raw r feed f width 10 time at cols at:int k:text n:int
view big width 10 filter r 0 0 where n >= 5 keep at k n
view tot width 20 group r 0 0 by k agg sum:n as s count as c
view roll width 20 group tot -20 0 by k agg sum:s as s
go
"""

MOST_SECONDS_OF_WIDTHS = 1
TICK_IN_WIDTHS = 123_456_789_012

WIDTHS = """\
feed f
raw r feed f width 1 time at cols at:int k:text n:int
view minor width %d filter r 0 0 where n >= 5 keep k n
view middle width %d group minor 0 0 by k agg sum:n as s count as c
view major width %d group middle 0 0 by k agg sum:s as s sum:c as c
go
"""

PARTS_A_DRAIN = 400
MOST_LATER_DRAINS = 1.1
MOST_INSTRUCTIONS_A_ROW_AGAIN = 2_000

DRAINS = """\
feed agent
raw cpu feed agent width 3600 time at cols at:int host:text percent:int
view busy width 3600 filter cpu 0 0 where percent >= 50 keep at host percent
view hot width 3600 filter busy 0 0 where percent >= 90 keep at host
go
"""

DELIVERIES_OF_GROUPS = 200
ROWS_A_DELIVERY = 200
MOST_INSTRUCTIONS_A_GROUPED_ROW = 3_200

GROUPS = """\
feed agent
raw cpu feed agent width 3600 time at cols at:int host:text percent:int
view load width 3600 group cpu 0 0 by host agg sum:percent as total count as rows
go
"""

ROWS_OF_A_SIDE = 1_000
MOST_INSTRUCTIONS_A_JOINED_ROW = 7_000

JOIN = """\
feed f
raw l feed f width 1000 time at cols at:int k:text n:int
raw r feed f width 1000 time at cols at:int k:text n:int
view both width 1000 join l 0 0 r 0 0 on k=k
go
"""

TIMES = """\
feed agent
raw cpu feed agent width 3600 time at cols at:int host:text percent:int
view busy width 3600 filter cpu 0 0 where percent >= 50 keep at host percent
go
"""

# Partitions and rows of each: a few full ones, and many of one row.
FULL = (100, 1_000)
THIN = (20_000, 1)


def row_in(part):
    """A row of `GROWTH` in a partition. The key and the number go by the partition only."""
    return "r,%d,k%d,%d\n" % (part * 10 + part % 10, part % 7, part % 10)


def installs_of(parts):
    """How many partitions of the views of `GROWTH` are installed for rows in these of `r`."""
    totals = {part // 2 for part in parts}
    rolls = totals | {part + 1 for part in totals}
    return len(set(parts)) + len(totals) + len(rolls)


def before_growth(partitions, deliveries):
    """So many partitions of one row each, spread over so many deliveries, and a drain."""
    parts = [part for part in range(partitions + 1) if part != EMPTY_PART]
    session = Session(GROWTH)
    for number in range(deliveries):
        session.deliver("f", number, "".join(map(row_in, parts[number::deliveries])))
    session.drain(installs_of(parts))
    return session


def growth_sessions(before, number, part):
    """The session before, with a delivery of one row, and with a drain after it too."""
    delivered = before.copy()
    delivered.deliver("f", number, "r,%d,k3,7\n" % (part * 10 + 5))
    drained = delivered.copy()
    drained.drain(installs_of([part]))
    return delivered, drained


def measure_growth(figures):
    totals = {FILLED_PART: [], EMPTY_PART: []}
    places = {FILLED_PART: "a partition with rows", EMPTY_PART: "a new partition"}
    for partitions, deliveries in [FEW, MANY]:
        before = before_growth(partitions, deliveries)
        at_first = depot.instructions(before)
        for part, place in places.items():
            delivered, drained = map(depot.instructions, growth_sessions(before, deliveries, part))
            after = "after %s" % format(partitions, ",")
            figures.tell("delivery of a row for %s, %s" % (place, after), delivered - at_first)
            figures.tell("drain after it", drained - delivered)
            totals[part].append(drained - at_first)
    for part, place in places.items():
        few, many = totals[part]
        figures.hold("growth of delivery and drain, %s" % place, many / few, MOST_GROWTH, 3)


def widths_session(factor):
    """One row below three views, each so many times as wide as what it reads."""
    widths = (factor, factor ** 2, factor ** 3)
    session = Session(WIDTHS % widths)
    session.deliver("f", 0, "r,%d,k,7\n" % TICK_IN_WIDTHS)
    session.drain(len(widths))
    part = TICK_IN_WIDTHS // widths[2]
    session.query("major", TICK_IN_WIDTHS, TICK_IN_WIDTHS + 1, [(part, 1, 3, ["k,7,1"])])
    return session


def measure_widths(figures):
    seconds = depot.processor_seconds(widths_session(1_024))
    figures.hold("processor seconds of a run with one row below three wide views",
                 seconds, MOST_SECONDS_OF_WIDTHS, 3)


def drains_session(drains, are_new):
    """A row for each of 400 partitions and a drain, so many times.

    The partitions are new ones each time, or the same.
    """
    session = Session(DRAINS)
    for delivery in range(drains):
        first = delivery * PARTS_A_DRAIN if are_new else 0
        lines = []
        for row in range(PARTS_A_DRAIN):
            tick = (first + row) * 3600 + (delivery * 7 + row) % 3600
            lines.append("cpu,%d,web-%03d,%d\n" % (tick, row % 120, row * 7919 % 101))
        session.deliver("agent", delivery, "".join(lines))
        session.drain(2 * PARTS_A_DRAIN)
    return session


def rows_again(drains):
    """How many rows of the raw partitions so many drains go over, if these stay the same."""
    return PARTS_A_DRAIN * drains * (drains + 1) // 2


def measure_drains(figures):
    start_up = depot.start_up(Session(DRAINS))
    ratios = {}
    counts = {}
    for are_new, which in [(True, "400 new"), (False, "the same 400")]:
        for drains in [10, 20, 40]:
            counts[drains] = depot.instructions(drains_session(drains, are_new)) - start_up
            figures.tell("%d deliveries and drains, each time %s partitions" % (drains, which),
                         counts[drains])
        ratios[are_new] = (counts[40] - counts[20]) / counts[20]
    figures.hold("drains 21 to 40 over drains 1 to 20, new partitions",
                 ratios[True], MOST_LATER_DRAINS, 3)
    figures.tell("drains 21 to 40 over drains 1 to 20, the same partitions", ratios[False], 3)
    # What each drain costs besides the rows of its partitions cancels out.
    again = (counts[40] - 2 * counts[20]) / (rows_again(40) - 2 * rows_again(20))
    figures.hold("instructions a row that a drain goes over again",
                 again, MOST_INSTRUCTIONS_A_ROW_AGAIN)


def groups_of(bodies):
    """Sum and count by host for each hour, in the order in which hosts first come."""
    hours = {}
    for line in "".join(bodies).splitlines():
        _, tick, host, percent = line.split(",")
        total, rows = hours.setdefault(int(tick) // 3600, {}).get(host, (0, 0))
        hours[int(tick) // 3600][host] = (total + int(percent), rows + 1)
    return {hour: ["%s,%d,%d" % (host, total, rows) for host, (total, rows) in hosts.items()]
            for hour, hosts in sorted(hours.items())}


def groups_session(deliveries, rows):
    bodies = [depot.body_of(number, rows) for number in range(deliveries)]
    session = Session(GROUPS)
    for number, body in enumerate(bodies):
        session.deliver("agent", number, body)
    before = session.length
    hours = groups_of(bodies)
    session.drain(len(hours))
    session.query("load", 0, 3600 * len(hours),
                  [(hour, 1, before + hour, groups) for hour, groups in hours.items()])
    return session


def measure_groups(figures):
    session = groups_session(DELIVERIES_OF_GROUPS, ROWS_A_DELIVERY)
    count = depot.instructions_after_start(session)
    figures.hold("instructions a row grouped, with load, drain and query",
                 count / (DELIVERIES_OF_GROUPS * ROWS_A_DELIVERY), MOST_INSTRUCTIONS_A_GROUPED_ROW)


def join_session(rows):
    """Two tables of so many rows with as many keys, a delivery each. The right one has the keys in
    another order."""
    left = ["%d,item%04d,%d" % (row, row, row * 7 % 1000) for row in range(rows)]
    right = ["%d,item%04d,%d" % (row, row * 7919 % rows, row * 3 % 1000) for row in range(rows)]
    session = Session(JOIN)
    for table, lines in [("l", left), ("r", right)]:
        session.deliver("f", session.length, "".join("%s,%s\n" % (table, row) for row in lines))
    before = session.length
    session.drain(1)
    partner = {line.split(",")[1]: line for line in right}
    joined = ["%s,%s" % (line, partner[line.split(",")[1]]) for line in left]
    session.query("both", 0, 1000, [(0, 1, before, joined)])
    return session


def measure_join(figures):
    count = depot.instructions_after_start(join_session(ROWS_OF_A_SIDE))
    figures.hold("instructions a row joined, with loads, drain and query",
                 count / ROWS_OF_A_SIDE, MOST_INSTRUCTIONS_A_JOINED_ROW)


def times_sessions(parts, rows):
    """Loads so many partitions of so many rows; then a query of all, or a drain of all."""
    lines = [["%d,web-%03d,%d" % (part * 3600 + row, row % 120, (part + row) * 7919 % 101)
              for row in range(rows)] for part in range(parts)]
    sent = ["cpu,%s\n" % line for part in lines for line in part]
    loaded = Session(TIMES)
    for first in range(0, len(sent), ROWS_A_DELIVERY):
        loaded.deliver("agent", loaded.length, "".join(sent[first:first + ROWS_A_DELIVERY]))
    queried = loaded.copy()
    version = max(1, rows // ROWS_A_DELIVERY)
    queried.query("cpu", 0, parts * 3600,
                  [(part, version, loaded.length, shown) for part, shown in enumerate(lines)])
    drained = loaded.copy()
    drained.drain(parts)
    return loaded, queried, drained


def measure_times(figures):
    for (parts, rows), what in [(FULL, "a row"), (THIN, "a partition of one row")]:
        load, query, drain = map(depot.processor_seconds, times_sessions(parts, rows))
        millionths = parts * rows / 1e6
        figures.tell("microseconds to load %s" % what, load / millionths, 2)
        figures.tell("microseconds to query %s" % what, (query - load) / millionths, 2)
        figures.tell("microseconds to drain %s" % what, (drain - load) / millionths, 2)


def one_growth_session():
    partitions, deliveries = FEW
    return growth_sessions(before_growth(partitions, deliveries), deliveries, FILLED_PART)[1]


# Each part with the session that `--print` writes.
PARTS = {
    "growth": (measure_growth, one_growth_session),
    "widths": (measure_widths, lambda: widths_session(1_024)),
    "drains": (measure_drains, lambda: drains_session(40, False)),
    "groups": (measure_groups, lambda: groups_session(DELIVERIES_OF_GROUPS, ROWS_A_DELIVERY)),
    "join": (measure_join, lambda: join_session(ROWS_OF_A_SIDE)),
    "times": (measure_times, lambda: times_sessions(*FULL)[1]),
}
WITH_BARS = [part for part in PARTS if part != "times"]


if __name__ == "__main__":
    sys.exit(depot.measure_parts(__doc__, PARTS, WITH_BARS))
