#!/usr/bin/env python3
"""Measures what the machine costs as a whole, against the bars: loads, drains and queries together.

- rounds: 1,000 loads of one row with a drain after each, after few partitions and after a hundred
  times as many; and a `reclaim` of the versions that they replaced.
- queries: a query of 65,536 partitions, and one of an eighth of them; and the time of ten such.
- day: a day of three feeds, by the minute, with views by the hour and of the day, and a drain after
  each ten deliveries.

Instructions are counted under callgrind. Exit status: 0 if all bars are met, 1 if one is not, 2 if
something was not measured. See docs/PERFORMANCE.md.
"""

import sys

sys.dont_write_bytecode = True

import depot
from depot import Session
from views import EMPTY_PART, FEW, MANY, MOST_GROWTH, before_growth, installs_of, row_in

ROUNDS = 1_000
PARTS_OF_ROUNDS = [part for part in range(FEW[0]) if part != EMPTY_PART]

QUERIES = 10
MOST_PARTS = 65_536
FEWER_PARTS = MOST_PARTS // 8
ROWS_A_DELIVERY = 1_024

THIN = """\
feed f
raw r feed f width 10 time at cols at:int n:int
view even width 10 filter r 0 0 where n >= 0 keep n
go
"""

MINUTES = 1_440
HOSTS = ["web-%02d.fra.example.net" % host for host in range(10)]
FEEDS = ["cpu", "mem", "net"]
ROWS_OF_DAY = 200
DELIVERIES_A_DRAIN = 10
MOST_INSTRUCTIONS_A_ROW = 4_500

DAY = "".join("feed %s\n" % feed for feed in FEEDS) + "".join(
    "raw %s feed %s width 60 time at cols at:int host:text percent:int\n" % (feed, feed)
    for feed in FEEDS) + "".join(
    "view %s_hour width 3600 group %s 0 0 by host agg sum:percent as total count as n\n"
    % (feed, feed) for feed in FEEDS) + """\
view hosts width 3600 join cpu_hour 0 0 mem_hour 0 0 on host=host
view day width 86400 group hosts 0 0 by l_host agg sum:l_total as cpu sum:r_total as mem
go
"""


def rounds_after(before, number):
    """The session before, with a load of one row and a drain so many times: each round goes to the
    next of the same partitions."""
    session = before.copy()
    for round in range(ROUNDS):
        part = PARTS_OF_ROUNDS[round % len(PARTS_OF_ROUNDS)]
        session.deliver("f", number + round, row_in(part))
        session.drain(installs_of([part]))
    return session


def replaced_in_rounds():
    """How many versions the rounds replace: each of their installs is of a partition that has one,
    since all that they reach was installed before."""
    return sum(installs_of([PARTS_OF_ROUNDS[round % len(PARTS_OF_ROUNDS)]])
               for round in range(ROUNDS))


def measure_rounds(figures):
    costs = []
    for partitions, deliveries in [FEW, MANY]:
        before = before_growth(partitions, deliveries)
        rounds = rounds_after(before, deliveries)
        at_first, after = map(depot.instructions, (before, rounds))
        costs.append(after - at_first)
        figures.tell("%s rounds after %s partitions" % (format(ROUNDS, ","), format(partitions, ",")),
                     costs[-1])
    few, many = costs
    figures.hold("growth of the rounds", many / few, MOST_GROWTH, 3)
    reclaimed = rounds.copy()
    reclaimed.reclaim(replaced_in_rounds())
    dropping = depot.instructions(reclaimed) - after
    figures.tell("reclaim, for each version dropped", dropping / replaced_in_rounds())


def thin_session(parts, queries):
    """A row in each of so many partitions, a filter of them, and queries of all of it."""
    session = Session(THIN)
    rows = ["%d,%d" % (part * 10, part % 100) for part in range(parts)]
    for first in range(0, parts, ROWS_A_DELIVERY):
        body = "".join("r,%s\n" % row for row in rows[first:first + ROWS_A_DELIVERY])
        session.deliver("f", session.length, body)
    before = session.length
    session.drain(parts)
    for _ in range(queries):
        session.query("even", 0, parts * 10, [(part, 1, before + part, [str(part % 100)])
                                              for part in range(parts)])
    return session


def measure_queries(figures):
    costs = []
    for parts in [FEWER_PARTS, MOST_PARTS]:
        loaded, queried = (depot.instructions(thin_session(parts, queries), depot.PLAIN_STORES)
                           for queries in (0, 1))
        costs.append((queried - loaded) / parts)
        figures.tell("a partition of a query of %s" % format(parts, ","), costs[-1])
    fewer, most = costs
    figures.hold("growth of the cost of a partition", most / fewer, MOST_GROWTH, 3)
    loaded, queried = (depot.processor_seconds(thin_session(MOST_PARTS, queries))
                       for queries in (0, QUERIES))
    figures.tell("processor seconds of %d queries of %s" % (QUERIES, format(MOST_PARTS, ",")),
                 queried - loaded, 1)


def rows_of_day(feed):
    """What each host tells of a feed, minute by minute: host, tick and percent."""
    return [(host, minute * 60 + number, (minute * 7919 + number * 31 + feed * 17) % 101)
            for minute in range(MINUTES) for number, host in enumerate(HOSTS)]


def deliveries_of_day():
    """The feeds deliver in turn: number of the feed, and rows."""
    rows = [rows_of_day(feed) for feed in range(len(FEEDS))]
    return [(feed, rows[feed][first:first + ROWS_OF_DAY])
            for first in range(0, len(rows[0]), ROWS_OF_DAY) for feed in range(len(FEEDS))]


def installs_of_day(hours):
    """How many partitions a drain installs, by the hours of each feed that have new rows: those
    hours, the joins of the first two feeds, and the day if there is such a join."""
    joined = hours[0] | hours[1]
    return sum(map(len, hours)) + len(joined) + (1 if joined else 0)


def totals_of_day():
    """Of each host the sums of the first two feeds. The day has them only for hours in which both
    tell of the host, and that is each hour."""
    sums = [{host: 0 for host in HOSTS} for _ in range(2)]
    for feed in range(2):
        for host, _, percent in rows_of_day(feed):
            sums[feed][host] += percent
    return ["%s,%d,%d" % (host, sums[0][host], sums[1][host]) for host in HOSTS]


def day_session():
    session = Session(DAY)
    hours = [set() for _ in FEEDS]
    drains = 0
    deliveries = deliveries_of_day()
    for number, (feed, rows) in enumerate(deliveries, 1):
        body = "".join("%s,%d,%s,%d\n" % (FEEDS[feed], tick, host, percent)
                       for host, tick, percent in rows)
        session.deliver(FEEDS[feed], (number - 1) // len(FEEDS), body)
        hours[feed] |= {tick // 3600 for _, tick, _ in rows}
        if number % DELIVERIES_A_DRAIN == 0 or number == len(deliveries):
            session.drain(installs_of_day(hours))
            hours = [set() for _ in FEEDS]
            drains += 1
    session.query("day", 0, 86_400, [(0, drains, session.length - 1, totals_of_day())])
    return session


def measure_day(figures):
    count = depot.instructions_after_start(day_session())
    rows = MINUTES * len(HOSTS) * len(FEEDS)
    figures.hold("instructions a row of a monitoring day, all in", count / rows,
                 MOST_INSTRUCTIONS_A_ROW)


# Each part with the session that `--print` writes.
PARTS = {
    "rounds": (measure_rounds, lambda: rounds_after(before_growth(*FEW), FEW[1])),
    "queries": (measure_queries, lambda: thin_session(FEWER_PARTS, 1)),
    "day": (measure_day, day_session),
}


if __name__ == "__main__":
    sys.exit(depot.measure_parts(__doc__, PARTS, PARTS))
