#!/usr/bin/env python3
"""Writes a text whose steps are made while a collection has about so many items: bench/lengths.py KIND LENGTH STEPS

The kinds are: `beside`, a node that ticks and has a sequence and a set of LENGTH numbers, which no step touches;
`sequence`, a node that puts one item more behind a sequence of LENGTH numbers in each step, and takes the first one off;
`queue`, a node that sends to one that receives, while LENGTH messages wait on the channel, STEPS of each. So that it can
be seen what a step costs, run the text with two numbers of steps and take the difference: some thousands, since what a
report costs differs a little with how its last sequence is kept.
"""
import sys


def numbers(length):
    """A display of the numbers below LENGTH."""
    return "{" + ", ".join(map(str, range(length))) + "}"


def beside(length, steps):
    """A node that ticks beside collections that no step touches."""
    return f"""\
automaton Ticker
  signature internal tick
  states items: Seq[Int] := {numbers(length)}, members: Set[Int] := {numbers(length)}, count: Int := 0
  transitions internal tick eff count := count + 1
  schedule
    states k: Int := 0
    do while k < {steps} do fire tick; k := k + 1 od od
system
  node 0: Ticker"""


def sequence(length, steps):
    """A node whose sequence gets an item behind and loses the first one in each step."""
    return f"""\
automaton Keeper
  signature internal keep
  states items: Seq[Int] := {numbers(length)}
  transitions internal keep eff items := tail(items |- 7)
  schedule
    states k: Int := 0
    do while k < {steps} do fire keep; k := k + 1 od od
system
  node 0: Keeper"""


def queue(length, steps):
    """A node that sends, and one that waits until LENGTH messages are on the channel and then receives."""
    return f"""\
automaton Sender
  signature output send(m: Int, const 0, const 1)
  transitions output send(m, 0, 1)
  schedule
    states k: Int := 0
    do while k < {length + steps} do fire send(7, 0, 1); k := k + 1 od od
automaton Receiver
  signature internal wait, input receive(m: Int, const 0, const 1)
  states count: Int := 0
  transitions
    internal wait
    input receive(m, 0, 1) eff count := count + 1
  schedule
    states k: Int := 0
    do
      while k < {length} do fire wait; k := k + 1 od;
      while k < {length + steps} do fire receive(7, 0, 1); k := k + 1 od
    od
system
  node 0: Sender
  node 1: Receiver
  channel 0 -> 1"""


KINDS = {kind.__name__: kind for kind in (beside, sequence, queue)}

if __name__ == "__main__":
    if len(sys.argv) != 4 or sys.argv[1] not in KINDS or not (sys.argv[2] + sys.argv[3]).isdigit():
        sys.exit(f"usage: bench/lengths.py KIND LENGTH STEPS, with a KIND of {', '.join(KINDS)}")
    print(KINDS[sys.argv[1]](int(sys.argv[2]), int(sys.argv[3])))
