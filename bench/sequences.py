#!/usr/bin/env python3
"""Runs the program made of bench/sequences.rt.txt, and prints how many instructions each operation takes at several lengths:

    bench/sequences.py PROGRAM

Instructions are counted by `valgrind --tool=callgrind`, as the difference of two runs that differ in how often the
operation is done.

To make the program, copy bench/sequences.rt.txt to a crate of its own (`crates/sequence_bench/src/main.rt`), add the line
`sequence_bench: ioa_values` to `crates.txt`, and let `rt run -- copy 1 1` build it in that folder.
"""
import re
import subprocess
import sys
import tempfile

LENGTHS = (10, 1_000, 10_000, 100_000)


def instructions(program, operation, length, times):
    """How many instructions the program takes."""
    with tempfile.NamedTemporaryFile() as counts:
        tool = ["valgrind", "--tool=callgrind", f"--callgrind-out-file={counts.name}"]
        words = [program, operation, str(length), str(times)]
        told = subprocess.run(tool + words, capture_output=True, text=True, check=True).stderr
    return int(re.search(r"Collected : (\d+)", told).group(1))


def of_one(program, operation, length, few, many):
    """How many instructions the operation takes each time."""
    more = instructions(program, operation, length, many) - instructions(program, operation, length, few)
    return round(more / (many - few))


def main():
    program = sys.argv[1]
    for operation in ("copy", "head", "append", "prepend", "tail", "join"):
        print(operation, [of_one(program, operation, length, 100, 300) for length in LENGTHS], flush=True)
    for operation in ("shrink", "queue"):
        print(operation, [of_one(program, operation, length, 0, length // 2) for length in LENGTHS], flush=True)
    grown = [instructions(program, "len", length, 0) - instructions(program, "len", 0, 0) for length in LENGTHS]
    print("grow", [round(more / length) for more, length in zip(grown, LENGTHS)])
    compared = [of_one(program, "compare", length, 1, 3) / length for length in LENGTHS]
    print("compare, for each item", [round(more) for more in compared])


main()
