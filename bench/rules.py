#!/usr/bin/env python3
"""Writes a text with one node of RULES rules, which takes a step by the last one STEPS times: bench/rules.py RULES STEPS

A step costs the difference of two runs under callgrind, of two numbers of steps, divided by the steps that one has more.
"""
import sys


def main():
    rules, steps = map(int, sys.argv[1:])
    names = [f"tick{number}" for number in range(rules)]
    lines = ["automaton Ticker", "  signature"]
    lines.append(",\n".join(f"    internal {name}" for name in names))
    lines += ["  states count: Int := 0", "  transitions"]
    lines += [f"    internal {name} eff count := count + 1" for name in names]
    lines += [
        "  schedule",
        "    states k: Int := 0",
        f"    do while k < {steps} do fire {names[-1]}; k := k + 1 od od",
        "system",
        "  node 0: Ticker",
    ]
    print("\n".join(lines))


main()
