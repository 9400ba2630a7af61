#!/usr/bin/env python3
"""Measures what a load and its installs cost the book of stale partitions as a history grows.

The program `stale_bench` takes the book through rounds: a load of one raw partition, and the
installs of the three partitions above it. After 1,000 installs, and after a hundred times as many,
it is measured what 100 rounds more cost. The bar is a growth of 1.1, if the rounds go through the
same 300 raw partitions. If each loads a new one, what is kept grows too: that is told, with no bar.

Instructions are counted under callgrind. Exit status: 0 if the bar is met, 1 if it is not, 2 if
something was not measured. See docs/PERFORMANCE.md.
"""

import argparse
import sys

sys.dont_write_bytecode = True

import depot

INSTALLS_A_ROUND = 3
FEW_INSTALLS = 1_000
MANY_INSTALLS = 100_000
MORE_ROUNDS = 100
MOST_GROWTH = 1.1


def rounds_for(installs):
    """The least number of rounds that make so many installs."""
    return -(-installs // INSTALLS_A_ROUND)


def cost_after(installs, words):
    """What 100 rounds more cost after so many installs."""
    before, after = (depot.instructions_of(depot.STALE_BENCH, [str(rounds)] + words)
                     for rounds in (rounds_for(installs), rounds_for(installs) + MORE_ROUNDS))
    return after - before


def growth(figures, words):
    """Tells both costs, and returns the later one over the earlier one."""
    few, many = (cost_after(installs, words) for installs in (FEW_INSTALLS, MANY_INSTALLS))
    figures.tell("%d rounds after %s installs" % (MORE_ROUNDS, format(FEW_INSTALLS, ",")), few)
    figures.tell("the same after %s" % format(MANY_INSTALLS, ","), many)
    return many / few


def measure_same(figures):
    figures.hold("growth, if the partitions are the same", growth(figures, []), MOST_GROWTH, 3)


def measure_new(figures):
    figures.tell("growth, if they are new ones", growth(figures, ["new"]), 3)


def main():
    argparse.ArgumentParser(description=__doc__.split("\n")[0]).parse_args()
    depot.require_program(depot.STALE_BENCH)
    print("figures are instructions, unless they say otherwise")
    figures = depot.Figures()
    figures.measure("the same partitions", measure_same)
    figures.measure("new partitions", measure_new)
    return figures.status


if __name__ == "__main__":
    sys.exit(main())
