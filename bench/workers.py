#!/usr/bin/env python3
"""What several workers gain in a search over the whole grid of S2; not in the gate.

    bench/workers.py [ROUNDS]

The clock of a processor that is shared with other machines changes by half within seconds, and a
lone thread gets the fastest. So each run by several workers stands between two runs by one, its
gain is over the mean of these two, and the medians over all rounds are printed; beside them four
processes with one worker each, which share nothing but the machine. Build with bench/table.py.
"""
import pathlib
import statistics
import subprocess
import sys
import time

GRIDS = pathlib.Path(__file__).resolve().parent.parent / "crates/bench_grid/out/bench_grid"
ROUNDS = int(sys.argv[1]) if len(sys.argv) > 1 else 25
SEARCHES = 10
WAYS = {"2 workers": (2, 1), "4 workers": (4, 1), "16 workers": (16, 1), "4 processes": (1, 4)}


def cost(workers, processes):
    """The time of one search, in milliseconds."""
    text = f"S2 workers {workers}\n" * SEARCHES
    begin = time.perf_counter()
    running = []
    for _ in range(processes):
        process = subprocess.Popen([GRIDS], stdin=subprocess.PIPE, stdout=subprocess.DEVNULL, text=True)
        process.stdin.write(text)
        process.stdin.close()
        running.append(process)
    if any([process.wait() for process in running]):
        sys.exit("a search failed")
    return (time.perf_counter() - begin) * 1e3 / processes / SEARCHES


def main():
    costs = {way: [] for way in WAYS}
    gains = {way: [] for way in WAYS}
    before = cost(1, 1)
    for _ in range(ROUNDS):
        for way, (workers, processes) in WAYS.items():
            costs[way].append(cost(workers, processes))
            after = cost(1, 1)
            gains[way].append((before + after) / 2 / costs[way][-1])
            before = after
    print("| | a search | gain |\n|---|---|---|")
    for way in WAYS:
        print(f"| {way} | {statistics.median(costs[way]):.2f} ms | {statistics.median(gains[way]):.2f} |")


main()
