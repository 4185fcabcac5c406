#!/usr/bin/env python3
"""Prints the benchmark's one table, with its machine and date, as Markdown.

    python3 bench/table.py < ROWS

A row is a line of fields parted by tabs:

    about TEXT                                          something for the heading; a text that comes again is said once
    time  CALL SIZE UNIT OURS [PEER ITS [PEER ITS]]     nanoseconds for the whole of the size, ours and those of one or two peers
    rate  CALL SIZE UNIT OURS                           records a second; nothing does the same, so it has no peer
    pairs CALL SIZE PAIRS                               how many pairs of edges that row's call said that it looked at

A row may come several times; the table has the least of its times, of ours and of each peer. Rows of one call stand together, in the order in which they came; so do
the calls whose names are the same up to a comma. Of the rows that have pairs a second table is made, of milliseconds by corners and pairs. A call `leaf, ..` that takes more than twice its first peer's time is warned of on standard error.
Assumes Python 3.9 or newer and its standard library.
"""

import datetime
import math
import os
import platform
import subprocess
import sys
import textwrap
from collections import namedtuple

NONE = "–"
LEGEND = (
    "Times are for the whole of the size, the least of many passes in which ours and the peers take turns. `ratio` is ours by the peer's: below 1 ours is faster. "
    "`growth` is the power of the size with which our time (for a rate, the time of a record) grew since the row above: 0 is not at all, 1 in proportion, 2 with "
    "the square."
)
TITLES = ("call", "size", "ours", "growth", "peer", "ratio", "other peer", "ratio")

# `time`: our nanoseconds for the size, or for a record where it is a rate. `peers`: names and nanoseconds.
Row = namedtuple("Row", "call size unit rate time peers")


def read(lines):
    """The heading's texts and the rows, each once, and the pairs looked at by call and size."""
    texts, rows, pairs = {}, {}, {}
    for line in lines:
        kind, *fields = line.rstrip("\n").split("\t")
        if kind == "about":
            texts[fields[0]] = True
        elif kind in ("time", "rate"):
            row = read_row(kind == "rate", *fields)
            key = (row.call, row.size)
            rows[key] = least(rows[key], row) if key in rows else row
        elif kind == "pairs":
            pairs[fields[0], int(fields[1])] = int(fields[2])
        else:
            sys.exit("bench/table.py: no row of the kind %r" % kind)
    return list(texts), list(rows.values()), pairs


def read_row(rate, call, size, unit, ours, *peers):
    named = {peers[k]: float(peers[k + 1]) for k in range(0, len(peers), 2)}
    return Row(call, int(size), unit, rate, 1e9 / float(ours) if rate else float(ours), named)


def least(one, other):
    peers = {name: min(time, other.peers[name]) for name, time in one.peers.items()}
    return one._replace(time=min(one.time, other.time), peers=peers)


def together(rows):
    """The rows with those of one subject, and within it of one call, side by side."""
    subjects = [row.call.split(",")[0] for row in rows]
    calls = [row.call for row in rows]
    return sorted(rows, key=lambda row: (subjects.index(row.call.split(",")[0]), calls.index(row.call)))


def three_digits(number):
    return "%.*f" % (max(0, 2 - int(math.floor(math.log10(number)))), number)


def duration(nanoseconds):
    for limit, unit in ((1e3, "ns"), (1e6, "µs"), (1e9, "ms")):
        if nanoseconds < limit * 0.9995:
            return three_digits(nanoseconds / limit * 1e3) + " " + unit
    return three_digits(nanoseconds / 1e9) + " s"


def ratio(number):
    for limit, form in ((0.0995, "{:.3f}"), (9.995, "{:.2f}"), (99.95, "{:.1f}")):
        if number < limit:
            return form.format(number)
    return "{:,.0f}".format(number)


def growth(row, before):
    if before is None or before.call != row.call or before.size in (0, row.size):
        return NONE
    power = math.log(row.time / before.time) / math.log(row.size / before.size)
    return "%.1f" % (round(power, 1) + 0.0)  # the sum makes -0.0 a plain 0


def cells(row, before):
    size = "{:,} {}".format(row.size, row.unit[:-1] if row.size == 1 else row.unit)
    ours = "{:,} a second".format(int(round(1e9 / row.time, -3))) if row.rate else duration(row.time)
    found = [row.call, size, ours, growth(row, before)]
    for name, time in row.peers.items():
        found += [name + " " + duration(time), ratio(row.time / time)]
    return found + [NONE] * (len(TITLES) - len(found))


def warn(row):
    """A leaf's goal is at most twice the time of the same formula in C, its first peer."""
    slowest = 2
    name, time = next(iter(row.peers.items()), (None, math.inf))
    if row.call.startswith("leaf,") and row.time > slowest * time:
        print("bench: warning: %s takes %s times as long as %s" % (row.call, ratio(row.time / time), name), file=sys.stderr)


def machine():
    """The processor's name and the count of its cores."""
    name = platform.machine()
    try:
        said = subprocess.run(["lscpu"], env=dict(os.environ, LC_ALL="C"), capture_output=True, text=True).stdout
    except OSError:
        said = ""
    for line in said.splitlines():
        if line.startswith("Model name:"):
            name = line.split(":", 1)[1].strip() + ", " + name
    return "%s, %d cores" % (name, os.cpu_count())


def figure(rows, pairs):
    """The dealer's table: the time in milliseconds for a ring, by its corners and the pairs of edges looked at, a column for each shape of ring."""
    timed = {(row.call, row.size): row.time for row in rows if (row.call, row.size) in pairs}
    calls = list(dict.fromkeys(call for call, _ in timed))
    print("\nMilliseconds to test a clean ring for crossings:\n")
    print("| " + " | ".join(["corners", "pairs looked at"] + [call.split(", ")[1] for call in calls]) + " |\n" + "|---" * (2 + len(calls)) + "|")
    for size in sorted({size for _, size in timed} - {6}):
        print("| {:,} | {:,} | ".format(size, pairs[calls[0], size]) + " | ".join(three_digits(timed[call, size] / 1e6) for call in calls) + " |")


def main():
    texts, rows, pairs = read(sys.stdin)
    heading = "; ".join([datetime.date.today().isoformat(), machine()] + texts) + "."
    for text in (heading, LEGEND):
        print(textwrap.fill(text, 160, break_on_hyphens=False, break_long_words=False) + "\n")
    print("| " + " | ".join(TITLES) + " |\n" + "|---" * len(TITLES) + "|")
    before = None
    for row in together(rows):
        print("| " + " | ".join(cells(row, before)) + " |")
        warn(row)
        before = row
    if pairs:
        figure(rows, pairs)


main()
