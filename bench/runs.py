#!/usr/bin/env python3
"""Writes a text to measure a run with: bench/runs.py KIND SIZE

What SIZE counts is said at each kind.
"""
import sys


def nodes(calls):
    """The system section that places these automata on the nodes, node 0 first."""
    return ["system"] + [f"  node {node}: {call}" for node, call in enumerate(calls)]


# Ticks as often as its parameter says.
TICKER = """\
automaton Ticker(ticks: Nat)
  signature internal tick
  states count: Int := 0
  transitions internal tick eff count := count + 1
  schedule
    states k: Nat := 0
    do while k < ticks do fire tick; k := k + 1 od od""".split("\n")

# Never fires. Each of its turns ends after 1,000 statements.
WAITER = """\
automaton Waiter
  schedule
    states k: Nat := 0
    do while true do k := k + 1 od od""".split("\n")

# Never fires. Each of its turns ends after 1,000 statements, which change nothing.
IDLER = """\
automaton Idler
  states go: Bool := false
  schedule
    states k: Nat := 0
    do while ~go do if go then k := 1 fi od od""".split("\n")

# Ticks as often as its parameter says, and performs about 1,000 statements before each tick.
COMPUTER = """\
automaton Computer(ticks: Nat)
  signature internal tick
  states count: Int := 0
  transitions internal tick eff count := count + 1
  schedule
    states k: Nat := 0, j: Nat := 0
    do while k < ticks do j := 0; while j < 495 do j := j + 1 od; fire tick; k := k + 1 od od""".split("\n")

# Sends a token on to the node after it, and takes one from the node before it.
STATION = """\
automaton Station(me, before, after: Nat)
  signature
    output send(token: Nat, const me, const after)
    input receive(token: Nat, const before, const me)
  states has: Bool := me = 0
  transitions
    output send(token, me, after) pre has eff has := false
    input receive(token, before, me) eff has := true
  schedule
    do while true do if has then fire send(0, me, after) else fire receive(0, before, me) fi od od""".split("\n")

# Sends the numbers below its parameter.
SENDER = """\
automaton Sender(messages: Nat)
  signature output send(m: Nat, const 0, const 1)
  transitions output send(m, 0, 1)
  schedule
    states k: Nat := 0
    do while k < messages do fire send(k, 0, 1); k := k + 1 od od
automaton Sleeper
  signature input receive(m: Nat, const 0, const 1)
  transitions input receive(m, 0, 1)""".split("\n")

# Keeps the numbers below its parameter in a sequence, and adds them up in its block.
ADDER = """\
automaton Adder(items: Nat)
  signature internal keep(item: Nat), internal finish(sum: Nat)
  states kept: Seq[Nat] := {}, total: Nat := 0
  transitions
    internal keep(item) eff kept := kept |- item
    internal finish(sum) eff total := sum
  schedule
    states k: Nat := 0, sum: Nat := 0, rest: Seq[Nat] := {}
    do
      while k < items do fire keep(k); k := k + 1 od;
      rest := kept;
      while rest ~= {} do sum := sum + head(rest); rest := tail(rest) od;
      fire finish(sum)
    od""".split("\n")


def ticking(size):
    """SIZE nodes, each of which ticks 1,000 times."""
    return TICKER + nodes(["Ticker(1000)"] * size)


def alone(size):
    """One node that ticks SIZE times."""
    return TICKER + nodes([f"Ticker({size})"])


def choosing(size):
    """One node that ticks SIZE times, and chooses its next count each time."""
    choice = "count := choose v: Int where v > count yield count + 1"
    chooser = [line.replace("count := count + 1", choice) for line in TICKER]
    return chooser + nodes([f"Ticker({size})"])


def ring(size):
    """SIZE nodes in a ring, which pass a token on without end."""
    stations = [f"Station({node}, {(node - 1) % size}, {(node + 1) % size})" for node in range(size)]
    channels = [f"  channel {node} -> {(node + 1) % size}" for node in range(size)]
    return STATION + nodes(stations) + channels


def queue(size):
    """A node that sends SIZE messages, which nobody receives."""
    return SENDER + nodes([f"Sender({size})", "Sleeper"]) + ["  channel 0 -> 1"]


def sequence(size):
    """A node whose sequence grows to SIZE items and is then added up."""
    return ADDER + nodes([f"Adder({size})"])


def waiting(size):
    """A node that ticks, beside SIZE nodes that wait."""
    return TICKER + WAITER + nodes(["Ticker(1000)"] + ["Waiter"] * size)


def idling(size):
    """A node that ticks, beside SIZE nodes that wait for a variable that nobody changes."""
    return TICKER + IDLER + nodes(["Ticker(1000)"] + ["Idler"] * size)


def computing(size):
    """SIZE nodes, each of which computes and ticks 100 times."""
    return COMPUTER + nodes(["Computer(100)"] * size)


KINDS = {
    kind.__name__: kind
    for kind in (ticking, alone, choosing, ring, queue, sequence, waiting, idling, computing)
}

if __name__ == "__main__":
    if len(sys.argv) != 3 or sys.argv[1] not in KINDS or not sys.argv[2].isdigit():
        sys.exit(f"usage: bench/runs.py KIND SIZE, with a KIND of {', '.join(KINDS)}")
    print("\n".join(KINDS[sys.argv[1]](int(sys.argv[2]))))
