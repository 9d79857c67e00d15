#!/usr/bin/env python3
"""Prints what a receive from a channel that keeps no order costs: bench/unordered.py PROGRAM

So many messages wait on the channel, and one receive is fired. A line says how many instructions that takes for each
message in front of the one that is taken, and how many for each that waits if there is no such message. Instructions
are counted by `valgrind --tool=callgrind`; what a receive of the first message takes is subtracted.
"""
import os
import subprocess
import sys
import tempfile

SIZES = (100, 1_000)


def text(size, taken):
    """A text in which so many messages wait on an unordered channel, and then this one is received."""
    return f"""\
automaton Source
  signature output send(m: Int, const 0, const 1)
  states sent: Int := 0
  transitions output send(m, 0, 1) pre m = sent eff sent := sent + 1
  schedule do while sent < {size} do fire send(sent, 0, 1) od od
automaton Taker
  signature input receive(m: Int, const 0, const 1) internal pause
  states last: Int := 0
  transitions input receive(m, 0, 1) eff last := m internal pause pre false
  schedule do while len(inbox(0)) < {size} do fire pause od; fire receive({taken}, 0, 1) od
system node 0: Source node 1: Taker channel 0 -> 1 unordered
"""


def instructions(program, source):
    """How many instructions a run takes."""
    with tempfile.TemporaryDirectory() as folder:
        counts = os.path.join(folder, "counts")
        tool = ["valgrind", "--tool=callgrind", f"--callgrind-out-file={counts}"]
        words = [program, "run", "--attempts", "10000"]
        subprocess.run(tool + words, input=source, capture_output=True, text=True, check=True)
        with open(counts) as lines:
            totals = [line for line in lines if line.startswith(("totals:", "summary:"))]
    return int(totals[-1].split()[1])


def main():
    if len(sys.argv) != 2:
        sys.exit("usage: bench/unordered.py PROGRAM")
    program = os.path.abspath(sys.argv[1])
    print("| Messages that wait | Instructions a message in front | Instructions a message, if none is equal |")
    print("|---|---|---|")
    for size in SIZES:
        first = instructions(program, text(size, 0))
        last = instructions(program, text(size, size - 1))
        missed = instructions(program, text(size, size))
        print(f"| {size:,} | {(last - first) / (size - 1):,.0f} | {(missed - first) / size:,.0f} |", flush=True)


main()
