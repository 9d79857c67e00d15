#!/usr/bin/env python3
"""Runs the texts of bench/runs.py by one, two and four workers: bench/workers.py PROGRAM

A line says how many commits a second one worker makes, and then two and four workers in terms of that. Each figure is the
median of several runs, in turn by one, two and four workers; they are by the clock, so they differ from run to run.
"""
import statistics
import subprocess
import sys
import time

from runs import KINDS

# Each text with its size and the attempts of each node.
PLANS = {
    "ticking": (64, 1_000_000),
    "alone": (100_000, 1_000_000),
    "ring": (16, 20_000),
    "queue": (10_000, 1_000_000),
    "sequence": (10_000, 1_000_000),
    "waiting": (15, 100),
    "computing": (16, 1_000_000),
}

# How many workers a run has, and how many runs a median is of.
WORKERS = (1, 2, 4)
RUNS = 5


def rate(program, text, attempts, workers):
    """How many commits a second a run makes."""
    words = [program, "run", "--workers", str(workers), "--steps", "1000000", "--attempts", str(attempts)]
    began = time.perf_counter()
    report = subprocess.run(words, input=text, capture_output=True, text=True, check=True).stdout
    return int(report.rsplit("\n", 2)[-2].removeprefix("total ")) / (time.perf_counter() - began)


def main():
    """Prints the table."""
    program = sys.argv[1]
    print("| Text | Size | One worker, commits a second | " + " | ".join(f"{n} workers" for n in WORKERS[1:]) + " |")
    print("|---|---|---|" + "---|" * len(WORKERS[1:]))
    for kind, (size, attempts) in PLANS.items():
        text = "\n".join(KINDS[kind](size))
        rates = {workers: [] for workers in WORKERS}
        for _ in range(RUNS):
            for workers in WORKERS:
                rates[workers].append(rate(program, text, attempts, workers))
        one, *others = (statistics.median(rates[workers]) for workers in WORKERS)
        print(f"| `{kind}` | {size} | {one:,.0f} | " + " | ".join(f"{other / one:.2f}" for other in others) + " |")


if __name__ == "__main__":
    if len(sys.argv) != 2:
        sys.exit("usage: bench/workers.py PROGRAM")
    main()
