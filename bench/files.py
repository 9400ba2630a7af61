#!/usr/bin/env python3
"""Measures what the bytes of a depot's files cost: rows written and read back, a catalogue opened.

The program `file_bench` writes 100 rows of 36 bytes each and reads them back, again and again. What
it read it keeps, as a depot does, or it drops that at once: both are told. It opens a catalogue of
records of 32 bytes. If opening is one pass, a record of a long catalogue costs
what one of a short one does.

Instructions are counted under callgrind. Exit status: 0 if the bars are met, 1 if one is not, 2 if
something was not measured. See docs/PERFORMANCE.md.
"""

import argparse
import sys

sys.dont_write_bytecode = True

import depot

ROWS = 100
ROUNDS = 100
MOST_A_ROW = 900

FEW_RECORDS = 10_000
MANY_RECORDS = 100_000
MOST_GROWTH = 1.1


def run(words):
    return depot.instructions_of(depot.FILE_BENCH, [str(word) for word in words])


def cost_of_row(word):
    """What more rounds cost, for each row of them."""
    return (run([word, 2 * ROUNDS]) - run([word, ROUNDS])) / (ROWS * ROUNDS)


def measure_rows(figures):
    figures.hold("a row of 36 bytes, written and read back", cost_of_row("rows"), MOST_A_ROW)
    figures.tell("the same, and dropped again", cost_of_row("dropped-rows"))


def cost_of_record(records):
    """What opening costs for each of so many records."""
    return (run(["open", records, 2]) - run(["open", records, 1])) / records


def measure_opening(figures):
    few, many = (cost_of_record(records) for records in (FEW_RECORDS, MANY_RECORDS))
    figures.tell("opening, a record of %s" % format(FEW_RECORDS, ","), few, 1)
    figures.tell("opening, a record of %s" % format(MANY_RECORDS, ","), many, 1)
    figures.hold("growth", many / few, MOST_GROWTH, 3)


def main():
    argparse.ArgumentParser(description=__doc__.split("\n")[0]).parse_args()
    depot.require_program(depot.FILE_BENCH)
    print("figures are instructions, unless they say otherwise")
    figures = depot.Figures()
    figures.measure("rows", measure_rows)
    figures.measure("opening", measure_opening)
    return figures.status


if __name__ == "__main__":
    sys.exit(main())
