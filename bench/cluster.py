#!/usr/bin/env python3
"""bench/cluster.py  works out how long a file takes on a cluster: the schedule of its tasks is simulated.

usage: bench/cluster.py [--bytes N] [--machines N] [--block N] [--cores N] [--bandwidth N] [--digest N] [--summary N] [--read N]
                        [--overhead N] [--spread N] [--index] [--seed N]

With no words it prints the table of docs/cluster.md. A machine takes tasks, one a core; a task reads its block (the bandwidth of a machine is
shared by its cores), digests and summarises it, or reads it into a frame. Each task takes its time times a factor whose logarithm is
normal with the deviation --spread, so some are late. The scheduler hands out tasks one after the other, each in --overhead seconds. Between
the two steps the summaries are composed by one task, and the ranges are sent to each machine. The speeds are those that docs/cluster.md
says were measured, bytes a second by one core.
"""

import argparse
import heapq
import random

# What was measured (docs/cluster.md, "How fast").
DEFAULTS = {
    "bytes": 1e12,
    "machines": 100,
    "block": 256e6,
    "cores": 8,
    "bandwidth": 1.2e9,
    "digest": 0.5e9,
    "summary": 4.0e9,
    "read": 0.063e9,
    "overhead": 0.5e-3,
    "spread": 0.3,
    "seed": 1,
}

# Bytes of a summary as a task's result, and seconds to compose one in Python.
SUMMARY_BYTES, COMPOSE = 120, 2e-6


def step(count, seconds, slots, overhead, spread, pick):
    """Returns when the last of so many tasks ends, when the first core was idle for good, and the sum of their times."""
    free, handed, work, idle_from, last = [0.0] * slots, 0.0, 0.0, None, 0.0
    for task in range(count):
        handed += overhead
        begin = max(heapq.heappop(free), handed)
        lasts = seconds * pick.lognormvariate(0, spread)
        work += lasts
        last = max(last, begin + lasts)
        heapq.heappush(free, begin + lasts)
    idle_from = free[0]
    return last, idle_from, work


def simulate(it):
    """Returns the parts of a run, in seconds and bytes."""
    pick = random.Random(it.seed)
    blocks, slots = max(1, round(it.bytes / it.block)), it.machines * it.cores
    fetch = it.block / (it.bandwidth / it.cores)
    first = 0.0
    tail = 0.0
    sent = 0.0
    if not it.index:
        first, idle, _ = step(blocks, fetch + it.block / it.digest + it.block / it.summary, slots, it.overhead, it.spread, pick)
        tail += first - idle
        sent = blocks * SUMMARY_BYTES * (1 + it.machines)
        # from the scheduler's machine, by its own bandwidth
        first += blocks * COMPOSE + sent / it.bandwidth
    second, idle, _ = step(blocks, fetch + it.block / it.read + (0 if it.index else it.block / it.digest), slots, it.overhead, it.spread, pick)
    tail += second - idle
    return {"blocks": blocks, "summaries": first, "read": second, "tail": tail, "sent": sent, "bytes": it.bytes * (1 if it.index else 2)}


def line(it):
    found = simulate(it)
    whole = found["summaries"] + found["read"]
    rate = it.bytes / whole / 1e9
    print(
        f"| {it.bytes / 1e12:,.0f} TB | {it.machines} | {it.block / 1e6:,.0f} MB | {found['blocks']:,} | {found['bytes'] / 1e12:,.0f} TB "
        f"| {found['sent'] / 1e6:,.1f} MB | {found['summaries']:,.0f} | {found['read']:,.0f} | {found['tail']:,.0f} | {whole:,.0f} | {rate:,.1f} |"
    )


def main():
    parser = argparse.ArgumentParser(description=__doc__, formatter_class=argparse.RawDescriptionHelpFormatter)
    for name, value in DEFAULTS.items():
        parser.add_argument(f"--{name}", type=type(value), default=value)
    parser.add_argument("--index", action="store_true")
    parser.add_argument("--table", action="store_true", help="one line of this run, not the whole table")
    it = parser.parse_args()
    print("| Input | Machines | Block | Blocks | Bytes read | Sent | Summaries, s | Read, s | Of it stragglers, s | Whole, s | GB/s |")
    print("|--:|--:|--:|--:|--:|--:|--:|--:|--:|--:|--:|")
    if it.table:
        line(it)
        return
    for size, block in ((1e12, 256e6), (1e15, 2e9)):
        for machines in (10, 100, 1000):
            it.bytes, it.block, it.machines = size, block, machines
            line(it)


if __name__ == "__main__":
    main()
