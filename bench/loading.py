#!/usr/bin/env python3
"""Measures what it costs to load deliveries, and holds it against the bars.

It writes a session of 200 deliveries of 200 rows each, and runs the proved program on it:

- under callgrind, which counts instructions. A run on the description alone is start-up, and is
  taken off. The bar is 2,000 instructions a row.
- without valgrind, for the most memory that was resident. The bar is six times the bytes of the
  bodies, with start-up counted in.

Bars are for the default size. Exit status: 0 if both are met, 1 if one is not, 2 if something was
not measured. See docs/PERFORMANCE.md.
"""

import argparse
import contextlib
import re
import subprocess
import sys
import threading

sys.dont_write_bytecode = True

import depot

MOST_INSTRUCTIONS_A_ROW = 2_000
MOST_RESIDENT_A_BODY_BYTE = 6

DESCRIPTION = """\
feed agent
raw cpu feed agent width 3600 time at cols at:int host:text percent:int
go
"""


def session_of(bodies):
    """A delivery of each of the bodies."""
    session = depot.Session(DESCRIPTION)
    for number, body in enumerate(bodies):
        session.deliver("agent", number, body)
    return session


def write_all(pipe, script):
    # A program that ends early does not read on: its exit code and replies tell the rest.
    with contextlib.suppress(BrokenPipeError):
        pipe.write(script)
        pipe.flush()


def resident(session):
    """The most bytes that were resident in a run.

    The program waits for more input once it has replied to all, so the system is asked while it
    still runs. (What it tells of a child that has ended counts Python's own memory too.)
    """
    wanted = session.wanted()
    child = subprocess.Popen([depot.PROGRAM] + depot.WORDS,
                             stdin=subprocess.PIPE, stdout=subprocess.PIPE)
    stopper = threading.Timer(depot.MOST_SECONDS, child.kill)
    stopper.start()
    writer = threading.Thread(target=write_all, args=(child.stdin, session.script()))
    writer.start()
    replies = child.stdout.read(len(wanted))
    writer.join()
    with open("/proc/%d/status" % child.pid) as file:
        found = re.search(r"^VmHWM:\s+(\d+) kB", file.read(), re.MULTILINE)
    with contextlib.suppress(BrokenPipeError):
        child.stdin.close()
    child.wait()
    stopper.cancel()
    if child.returncode != 0:
        raise depot.Unmeasured("the run for its memory ended with code %d" % child.returncode)
    if replies != wanted:
        raise depot.Unmeasured(depot.first_difference(replies, wanted))
    if not found:
        raise depot.Unmeasured("the system told nothing of resident memory")
    return int(found.group(1)) * 1024


def measure_instructions(figures, session, rows):
    start_up = depot.start_up(session)
    loading = depot.instructions(session) - start_up
    figures.tell("instructions for start-up", start_up)
    figures.tell("instructions for loading", loading)
    figures.hold("instructions a row", loading / rows, MOST_INSTRUCTIONS_A_ROW)
    stores = depot.instructions_after_start(session, depot.PLAIN_STORES)
    figures.tell("the same, with memory cleared by ordinary stores", stores / rows)


def measure_memory(figures, session, size):
    started = depot.Session(DESCRIPTION)
    started.query("cpu", 0, 0, [])
    figures.tell("resident bytes after start-up", resident(started))
    most = resident(session)
    figures.tell("resident bytes at most", most)
    figures.hold("resident bytes for a byte of the bodies", most / size,
                 MOST_RESIDENT_A_BODY_BYTE, 2)


def main():
    parser = argparse.ArgumentParser(description=__doc__.split("\n")[0])
    parser.add_argument("--deliveries", type=int, default=200)
    parser.add_argument("--rows", type=int, default=200, help="rows of a delivery")
    parser.add_argument("--print", action="store_true", help="write the session and run nothing")
    options = parser.parse_args()

    bodies = [depot.body_of(number, options.rows) for number in range(options.deliveries)]
    session = session_of(bodies)
    if options.print:
        sys.stdout.buffer.write(session.script())
        return depot.MET
    depot.require_program()

    rows = options.deliveries * options.rows
    size = sum(map(len, bodies))
    print("input: %d deliveries of %d rows, %d bytes of bodies, %.1f bytes a row"
          % (options.deliveries, options.rows, size, size / rows))
    figures = depot.Figures()
    figures.measure("instructions", lambda to: measure_instructions(to, session, rows))
    figures.measure("memory", lambda to: measure_memory(to, session, size))
    return figures.status


if __name__ == "__main__":
    sys.exit(main())
