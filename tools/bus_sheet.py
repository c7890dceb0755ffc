#!/usr/bin/env python3
"""The expected output of bus_sheet, worked out by simulation: clock numbers by search among exact times, and each frame
by appending two bytes after two while it stays in the page and lasts at most tCEM.
Writes crates/bus_sheet/stdout's text to standard output."""
from sheet import (COMMANDS, EXTENDED, NORMAL, PAGE, TCEM, TCPH, TPU, TRC, TRP, TRST, clock_refused, fewest_clocks,
                   keeps_tcem, last_start, latency_of, low_clocks, most_clocks, period_ps)

START, LENGTH = 0x3E3, 64
CLOCKS = (10250, 41000, 41001, 66000, 109000, 133000)


def even_ends():
    """The record, rounded out to even ends."""
    start, end = START, START + LENGTH
    return start - start % 2, end + end % 2


def sheet(make, clock_range, khz):
    title = f"{make} {clock_range} {khz} kHz:"
    refused = clock_refused(clock_range, khz)
    if refused:
        print(f"{title} refused by {refused}")
        return
    page, latency, tcem = PAGE[make], latency_of(khz), most_clocks(TCEM[clock_range], khz)
    times = {"tCPH": TCPH, "tRC": TRC, "tRST": TRST, "tPU": TPU, "tRP": TRP}
    waits = ", ".join(f"{name} {fewest_clocks(ns, khz)}" for name, ns in times.items())
    print(f"{title} period {period_ps(khz)} ps, LC {latency}, WL {latency}, tCEM {tcem}, {waits}")
    lines, frames = [], {}
    for kind, longest in (("read", 2 * latency), ("write", latency)):
        frames[kind] = 0
        at, end = even_ends()
        while at < end:
            count = 0
            while (at + count < end and last_start(page, at + count) == last_start(page, at)
                   and keeps_tcem(clock_range, khz, low_clocks(kind, longest, count + 2))):
                count += 2
            low, high = (low_clocks(kind, clocks, count) for clocks in (latency, longest))
            opening = bytes([COMMANDS["linear-" + kind], *at.to_bytes(4, "big")]).hex(" ").upper()
            lines.append(f"  {kind} {opening}, {count} bytes, low {low} to {high}, left {tcem - high}")
            frames[kind] += 1
            at += count
    start = last_start(page, START)
    print(f"  row {range(0, start + 1, page).index(start)}, column {START - start}, "
          f"frames {frames['read']} to read, {frames['write']} to write")
    print("\n".join(lines))


print(f"a record of {LENGTH} bytes at {START:06X}")
for make in PAGE:
    for clock_range in (NORMAL, EXTENDED):
        for khz in CLOCKS:
            sheet(make, clock_range, khz)
