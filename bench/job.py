#!/usr/bin/env python3
"""Times the field program: records a second, by kind of record, by the ring's corners and by the file's length, as rows for bench/table.py.

    bench/run job

Builds the program where something has changed. A run's time has the start of the process and the reading of standard input in it; the start alone (an empty job)
is a row of its own. What is timed is the proved program, which is for x86-64, so this refuses to run on another processor.
Assumes the kit's `rt`, Python 3.9 or newer and its standard library.
"""

import math
import os
import platform
import struct
import subprocess
import sys
import time

ROOT = os.path.dirname(os.path.dirname(os.path.abspath(__file__)))
RUNS = 3


def command():
    if platform.machine() != "x86_64":
        sys.exit("bench/job.py: only on x86-64")
    field = os.path.join(ROOT, "crates", "field")
    subprocess.run(["rt", "run", "field"], cwd=field, check=True, stdin=subprocess.DEVNULL, stdout=subprocess.DEVNULL)
    return [os.path.join(field, "out", "field")]


def seconds(program, job):
    """The best of some runs, and the program's last line."""
    best, last = math.inf, ""
    for _ in range(RUNS):
        before = time.perf_counter()
        said = subprocess.run(program, input=job, check=True, capture_output=True).stdout
        best, last = min(best, time.perf_counter() - before), said.decode().splitlines()[-1]
    return best, last


def ring(corners):
    """A field in system 3 with its corners on a circle of 2 km."""
    turns = [2 * math.pi * k / corners for k in range(corners)]
    places = [(5_600_000_000 + round(2e6 * math.cos(t)), 5_500_000_000 + round(2e6 * math.sin(t))) for t in turns]
    return struct.pack("<BB", 1, 3) + b"".join(struct.pack("<B2q", 2, x, y) for x, y in places) + b"\x03"


def nozzles(count):
    return b"".join(struct.pack("<B2q", 4, 5_600_000_000 + 20 * (k % 99_991), 5_500_000_000 + 10 * (k % 99_989)) for k in range(count))


def points(count):
    return b"".join(struct.pack("<BB2q", 5, 3, (180_000 + k % 18_000) * 1_000_000, 65_000_000_000 + k * 100) for k in range(count))


def show(program, name, size, unit, records, job):
    """A row for a job of so many records, which must all have been taken."""
    took, last = seconds(program, job)
    if last != "end %d" % records:
        sys.exit("bench/job.py: %s ended with %r, not with its %d records" % (name, last, records))
    print("rate", "job, " + name, size, unit, records / took, sep="\t")


def main():
    program = command()
    print("time", "job, empty file", 0, "records", seconds(program, b"")[0] * 1e9, sep="\t")
    for corners in (16, 64, 256, 1024):
        rings = 65_536 // corners
        show(program, "rings", corners, "corners", rings * (corners + 2), ring(corners) * rings)
    for corners in (16, 64, 256, 1024):
        show(program, "nozzle queries", corners, "corners", corners + 2 + 50_000, ring(corners) + nozzles(50_000))
    for records in (1_000, 10_000, 100_000):
        show(program, "points to the plane", records, "records", records, points(records))


main()
