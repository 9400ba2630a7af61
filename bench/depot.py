"""What the scripts beside this one share: sessions, runs of the proved program, and figures.

A run that goes wrong gives no figure: it raises `Unmeasured`, with the reason.
"""

import argparse
import os
import re
import resource
import subprocess
import sys
import tempfile

TOP = os.path.dirname(os.path.dirname(os.path.abspath(__file__)))
PROGRAM = os.path.join(TOP, "crates", "depot_cli", "out", "depot_cli")
STALE_BENCH = os.path.join(TOP, "crates", "stale_bench", "out", "stale_bench")
FILE_BENCH = os.path.join(TOP, "crates", "file_bench", "out", "file_bench")
WORDS = [".", "trial"]

# A run that takes longer than this is stopped. The longest ones take some ten seconds.
MOST_SECONDS = 600

# The C library clears a large piece with one instruction that repeats, and callgrind counts each
# repeat. With this setting it clears with ordinary stores, which are counted one by one.
PLAIN_STORES = "glibc.cpu.x86_rep_stosb_threshold=1000000000"

# Exit statuses of the scripts.
MET = 0
MISSED = 1
NOT_MEASURED = 2

SITES = ["fra", "ams", "lon", "nyc"]
HOSTS = 120


class Unmeasured(Exception):
    """Why a run gives no figure."""


class Session:
    """A script for `trial`, and the replies that it must get.

    No line of it may be refused, and no delivery a repeat. The places in the replies are counted
    here, so the calls come in the order of the lines.
    """

    def __init__(self, description):
        self.description = description
        self.lines = []
        self.replies = []
        self.length = 0

    def copy(self):
        other = Session(self.description)
        other.lines = self.lines[:]
        other.replies = self.replies[:]
        other.length = self.length
        return other

    def script(self):
        return (self.description + "".join(self.lines)).encode()

    def wanted(self):
        return "".join(self.replies).encode()

    def deliver(self, feed, number, body, closes=0, aside=0):
        """Delivers a body of rows, each of them a line, of which so many come too late."""
        self.length += 1
        self.lines.append("deliver %s %d %d %d\n%s"
                          % (feed, number, closes, len(body.encode()), body))
        self.replies.append("loaded %s %d entry %d kept %d aside %d\n"
                            % (feed, number, self.length, body.count("\n") - aside, aside))

    def drain(self, installs):
        """Drains, with so many partitions to install."""
        self.length += installs
        self.lines.append("drain\n")
        self.replies.append("drained at %d\n" % self.length)

    def reclaim(self, dropped):
        """Drops the versions that were replaced, of which there are so many."""
        self.lines.append("reclaim\n")
        self.replies.append("reclaimed %d at %d\n" % (dropped, self.length))

    def marks(self, table, start, end, parts):
        """Asks for the marks of the partitions between two ticks: number and mark of each."""
        self.lines.append("marks %s %d %d\n" % (table, start, end))
        self.replies.append("marks at %d parts %d\n" % (self.length, len(parts)))
        self.replies.extend("part %s %d mark %s\n" % (table, number, mark)
                            for number, mark in parts)

    def query(self, table, start, end, parts):
        """Asks for the partitions between two ticks: number, version, `upto` and rows of each."""
        self.lines.append("query %s %d %d\n" % (table, start, end))
        self.replies.append("answer at %d parts %d\n" % (self.length, len(parts)))
        for number, version, upto, rows in parts:
            self.replies.append("part %s %d version %d upto %d mark open rows %d\n"
                                % (table, number, version, upto, len(rows)))
            self.replies.extend(row + "\n" for row in rows)


def body_of(delivery, rows):
    """The rows of one delivery: each minute each host tells its load, in percent."""
    lines = []
    for row in range(rows):
        measured = delivery * rows + row
        host = measured % HOSTS
        tick = measured // HOSTS * 60 + host % 7
        name = "web-%03d.%s.example.net" % (host, SITES[host % len(SITES)])
        lines.append("cpu,%d,%s,%d\n" % (tick, name, measured * 7919 % 101))
    return "".join(lines)


def first_difference(replies, wanted):
    """The first line of the replies that is not as wanted, in words."""
    got_lines = replies.split(b"\n")
    wanted_lines = wanted.split(b"\n")
    for number, (got, want) in enumerate(zip(got_lines, wanted_lines), 1):
        if got != want:
            return "line %d of the replies is %r, and should be %r" % (number, got, want)
    return "%d lines of replies, and there should be %d" % (len(got_lines), len(wanted_lines))


def told_by(stderr):
    """What a run wrote to standard error, without the lines that valgrind adds."""
    lines = stderr.decode(errors="replace").splitlines()
    told = [line for line in lines if not line.startswith("==")]
    return "; ".join(told) or "nothing on standard error"


def run(command, script, wanted, tunables=""):
    """Runs a command on an input, and compares code and replies with those that are wanted."""
    settings = dict(os.environ, GLIBC_TUNABLES=tunables)
    try:
        ended = subprocess.run(command, input=script, capture_output=True, env=settings,
                               timeout=MOST_SECONDS)
    except FileNotFoundError:
        raise Unmeasured("%s is not installed" % command[0])
    except subprocess.TimeoutExpired:
        raise Unmeasured("a run was stopped after %d seconds" % MOST_SECONDS)
    if ended.returncode != 0:
        raise Unmeasured("a run ended with code %d: %s" % (ended.returncode, told_by(ended.stderr)))
    if ended.stdout != wanted:
        raise Unmeasured(first_difference(ended.stdout, wanted))


def instructions(session, tunables=""):
    """How many instructions a run on a session takes, with these settings of the C library."""
    return instructions_of(PROGRAM, WORDS, session.script(), session.wanted(), tunables)


def instructions_of(program, words, script=b"", wanted=b"", tunables=""):
    """How many instructions a run of a program takes, by callgrind."""
    with tempfile.TemporaryDirectory() as folder:
        counts = os.path.join(folder, "callgrind.out")
        valgrind = ["valgrind", "--tool=callgrind", "--callgrind-out-file=" + counts]
        run(valgrind + [program] + words, script, wanted, tunables)
        with open(counts) as file:
            found = re.search(r"^(?:summary|totals): (\d+)", file.read(), re.MULTILINE)
    if not found:
        raise Unmeasured("callgrind left no count")
    return int(found.group(1))


def start_up(session, tunables=""):
    """How many instructions a run takes on the description of a session only."""
    return instructions(Session(session.description), tunables)


def instructions_after_start(session, tunables=""):
    return instructions(session, tunables) - start_up(session, tunables)


def processor_seconds(session):
    """The processor's time for a run, that of the system for it included: the least of three."""
    return min(one_processor_time(session) for _ in range(3))


def one_processor_time(session):
    before = resource.getrusage(resource.RUSAGE_CHILDREN)
    run([PROGRAM] + WORDS, session.script(), session.wanted())
    after = resource.getrusage(resource.RUSAGE_CHILDREN)
    return after.ru_utime - before.ru_utime + after.ru_stime - before.ru_stime


def require_program(program=PROGRAM):
    """Ends the script if the program was not proved and built."""
    if not os.access(program, os.X_OK):
        print("no proved program at %s: run `make program` first" % os.path.relpath(program),
              file=sys.stderr)
        sys.exit(NOT_MEASURED)


class Figures:
    """Prints figures beside their bars, and keeps the exit status of the script."""

    def __init__(self):
        self.status = MET
        self.line("figure", "measured", "at most", "")

    def line(self, name, measured, bar, verdict):
        print(("%-62s %13s %9s  %s" % (name, measured, bar, verdict)).rstrip(), flush=True)

    def tell(self, name, measured, digits=0):
        """A figure without a bar."""
        self.line(name, format(measured, ",.%df" % digits), "", "")

    def hold(self, name, measured, bar, digits=0):
        """A figure that is met if it is at most its bar, before it is rounded."""
        is_met = measured <= bar
        self.line(name, format(measured, ",.%df" % digits), format(bar, ","),
                  "pass" if is_met else "FAIL")
        if not is_met:
            self.status = max(self.status, MISSED)

    def measure(self, name, measuring):
        """Takes some figures, or tells why there are none."""
        try:
            measuring(self)
        except Unmeasured as why:
            self.line(name, "none", "", "FAIL")
            print("not measured, %s: %s" % (name, why), file=sys.stderr, flush=True)
            self.status = NOT_MEASURED


def measure_parts(about, parts, with_bars):
    """The main of a script with parts: each has a measuring and the session that `--print` writes.

    Those named on the command line are measured, and else all that have bars.
    """
    parser = argparse.ArgumentParser(description=about.split("\n")[0])
    parser.add_argument("parts", nargs="*", metavar="PART",
                        help="of %s; else all that have bars" % ", ".join(parts))
    parser.add_argument("--print", metavar="PART", choices=parts,
                        help="write a session of this part and run nothing")
    options = parser.parse_args()
    unknown = [part for part in options.parts if part not in parts]
    if unknown:
        parser.error("no such part: %s" % ", ".join(unknown))
    if options.print:
        _, session = parts[options.print]
        sys.stdout.buffer.write(session().script())
        return MET
    require_program()
    print("figures are instructions, start-up taken off, unless they say otherwise")
    figures = Figures()
    for part in options.parts or with_bars:
        measuring, _ = parts[part]
        figures.measure(part, measuring)
    return figures.status
