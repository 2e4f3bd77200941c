#!/usr/bin/env python3
"""Measures how long settle and the plain program take for the same input, and prints the ratio.

    measure.py FRAMES RUNS INPUT SETTLE PLAIN

Both read the file INPUT, which has so many FRAMES, and write to the null device. They run by turns,
RUNS pairs of one run each, and the one that begins a pair alternates. Medians count: of each
program's times, and of the ratios within the pairs, whose two runs lie close together, so that a
machine whose speed changes slows or speeds both. The goal is about the ratio of the wall times; the
processor time stands beside it, since it suffers less where other programs are running.
"""

import os
import sys
import time
from statistics import median

GOAL = 1.5  # the most that the time of settle may be of the time of plain


def run(program, path):
    """Runs a program once: its wall time and its processor time, in seconds."""
    source = os.open(path, os.O_RDONLY)
    sink = os.open(os.devnull, os.O_WRONLY)
    actions = [(os.POSIX_SPAWN_DUP2, source, 0), (os.POSIX_SPAWN_DUP2, sink, 1)]
    start = time.perf_counter()
    child = os.posix_spawn(program, [program], os.environ, file_actions=actions)
    _, status, used = os.wait4(child, 0)
    wall = time.perf_counter() - start
    os.close(source)
    os.close(sink)
    if status != 0:
        sys.exit(f"measure: {program} failed")
    return wall, used.ru_utime + used.ru_stime


def pairs(programs, runs, path):
    """For each program its runs, in the order of the pairs."""
    times = {name: [] for name in programs}
    order = list(programs)
    for _ in range(runs):
        for name in order:
            times[name].append(run(programs[name], path))
        order.reverse()
    return times


def main():
    if len(sys.argv) != 6:
        sys.exit("usage: measure.py FRAMES RUNS INPUT SETTLE PLAIN")
    frames, runs, path = int(sys.argv[1]), int(sys.argv[2]), sys.argv[3]
    times = pairs({"settle": sys.argv[4], "plain": sys.argv[5]}, runs, path)
    print(f"  median of {runs:<3} {'wall time':>11} {'frames/s':>12} {'processor':>13} {'frames/s':>12}")
    for name, rows in times.items():
        wall, used = (median(column) for column in zip(*rows))
        print(
            f"  {name:<13} {wall * 1000:>8.1f} ms {frames / wall:>12,.0f}"
            f" {used * 1000:>10.1f} ms {frames / used:>12,.0f}"
        )
    ratios = [
        [ours / theirs for ours, theirs in zip(*pair)]
        for pair in zip(times["settle"], times["plain"])
    ]
    wall, used = (median(column) for column in zip(*ratios))
    met = "met" if wall <= GOAL else "missed"
    print(f"  settle/plain  {wall:>8.2f}    {'':>12} {used:>10.2f}")
    print(f"  goal: at most {GOAL} of the wall time of plain: {met}")


if __name__ == "__main__":
    main()
