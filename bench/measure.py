#!/usr/bin/env python3
"""Runs the texts of bench/runs.py, and prints a table of what a commit costs: bench/measure.py PROGRAM

A line says how many commits the largest size makes, how many of them a second (by the clock, so it differs from run to
run), how many instructions a commit takes at two smaller sizes, and the ratio of the two. Instructions are counted by
`valgrind --tool=callgrind`. What the same text takes with no step and one attempt for each node is subtracted: the
reading, the check and the start.
"""
import os
import subprocess
import sys
import tempfile
import time
from dataclasses import dataclass

from runs import KINDS

# The greatest number of steps of a run, and of attempts of a node.
GREATEST = 1_000_000


@dataclass
class Plan:
    """What is measured of a kind of texts."""

    # The size that the clock measures, and the attempts of each node in it.
    size: int
    attempts: int
    # The two sizes whose instructions are counted, and the attempts of each node in them.
    counted: tuple[int, int]
    counted_attempts: int


PLANS = {
    "ticking": Plan(64, GREATEST, (8, 64), GREATEST),
    "alone": Plan(999_999, GREATEST, (1_000, 10_000), GREATEST),
    "choosing": Plan(100_000, GREATEST, (1_000, 10_000), GREATEST),
    "ring": Plan(16, 50_000, (2, 16), 1_000),
    "queue": Plan(10_000, GREATEST, (100, 1_000), GREATEST),
    "sequence": Plan(10_000, GREATEST, (100, 1_000), GREATEST),
    "waiting": Plan(63, 100, (7, 63), 10),
    "idling": Plan(63, 100, (7, 63), 10),
}


def command(program, steps, attempts):
    """The command line of a run."""
    return [program, "run", "--steps", str(steps), "--attempts", str(attempts)]


def commits_of(report):
    """The number of commits of a report, which its last line says."""
    return int(report.rsplit("\n", 2)[-2].removeprefix("total "))


def seconds_and_commits(words, text):
    """How long a run takes, and how many commits it makes."""
    began = time.perf_counter()
    report = subprocess.run(words, input=text, capture_output=True, text=True, check=True).stdout
    return time.perf_counter() - began, commits_of(report)


def instructions_and_commits(words, text):
    """How many instructions a run takes, and how many commits it makes."""
    with tempfile.TemporaryDirectory() as folder:
        counts = os.path.join(folder, "counts")
        tool = ["valgrind", "--tool=callgrind", f"--callgrind-out-file={counts}"]
        report = subprocess.run(tool + words, input=text, capture_output=True, text=True, check=True).stdout
        with open(counts) as lines:
            totals = [line for line in lines if line.startswith(("totals:", "summary:"))]
    return int(totals[-1].split()[1]), commits_of(report)


def instructions_a_commit(program, kind, size, attempts):
    """How many instructions a commit takes in a text of this size."""
    text = "\n".join(KINDS[kind](size))
    whole, commits = instructions_and_commits(command(program, GREATEST, attempts), text)
    around, _ = instructions_and_commits(command(program, 0, 1), text)
    return (whole - around) / commits


def main():
    if len(sys.argv) != 2:
        sys.exit("usage: bench/measure.py PROGRAM")
    program = os.path.abspath(sys.argv[1])
    print("| Text | Size | Commits | A second | Sizes | Instructions a commit | Ratio |")
    print("|---|---|---|---|---|---|---|")
    for kind, plan in PLANS.items():
        text = "\n".join(KINDS[kind](plan.size))
        seconds, commits = seconds_and_commits(command(program, GREATEST, plan.attempts), text)
        costs = [instructions_a_commit(program, kind, size, plan.counted_attempts) for size in plan.counted]
        print(
            f"| {kind} | {plan.size:,} | {commits:,} | {commits / seconds:,.0f} "
            f"| {plan.counted[0]:,} and {plan.counted[1]:,} | {costs[0]:,.0f} and {costs[1]:,.0f} "
            f"| {costs[1] / costs[0]:.2f} |",
            flush=True,
        )


main()
