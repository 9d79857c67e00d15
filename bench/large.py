#!/usr/bin/env python3
"""Writes a text of about a megabyte of one kind, to measure what its check costs beside its reading.

    bench/large.py variables     10,000 state variables with initial values
    bench/large.py tuples        60 tuple types, each with fields of the one before, and 8,000 entries of the last
    bench/large.py display       a set display of 100,000 numbers
    bench/large.py nodes         64 nodes of one automaton with a long schedule, and 256 channels
    bench/large.py entries       5,000 entries with their transitions
    bench/large.py many          2,500 entries with their transitions, 5,000 state variables, and 5,000 fires
    bench/large.py readings      an invariant that reads 60,000 state variables, of 64 nodes
    bench/large.py invariants    5,000 invariants, which read variables and a queue
    bench/large.py scripts       50,000 scripts, of which one is of a node that is there: the text is refused

An argument behind the kind divides the size, so that the growth can be seen: `bench/large.py variables 2`.
"""
import sys


def variables(part):
    count = 10_000 // part
    lines = ["automaton A", "  states"]
    lines += [f"    state_variable_of_a_long_name_{k}: Map[Int, Seq[Nat]] := {{}}," for k in range(count - 1)]
    lines += ["    last_of_all: Int := 1 + 2", "system", "  node 0: A"]
    return lines


def tuples(part):
    lines = ["type T0 = tuple of a_field_of_a_long_name: Int, b: Nat"]
    lines += [f"type T{k} = tuple of a_field_of_a_long_name: T{k - 1}, b: T{k - 1}" for k in range(1, 60)]
    lines += ["automaton A(start: T59)", "  signature"]
    entries = 8_000 // part
    lines += [f"    internal act{k}(one: T59, two: Set[T59])," for k in range(entries)]
    lines += ["  transitions"]
    lines += [f"    internal act{k}(one, two) pre one = start /\\ start \\in two" for k in range(entries)]
    lines += ["system"]
    return lines


def display(part):
    numbers = ", ".join(str(k * 7919 % 1_000_003) for k in range(100_000 // part))
    return ["automaton A", f"  states s: Set[Int] := {{{numbers}}}", "system"]


def nodes(part):
    lines = ["automaton A(me: Nat)", "  signature", "    output send(m: Int, const me, to: Nat)"]
    lines += ["    input receive(m: Int, from: Nat, const me)", "  states n: Int := 0", "  transitions"]
    lines += ["    output send(m, me, to) pre m = n eff n := n + 1", "    input receive(m, from, me) eff n := n + m"]
    fires = "; ".join(["fire send(n + 1000, me, 64)"] * (35_000 // part))
    lines += [f"  schedule do {fires} od", "system"]
    lines += [f"  node {k}: A({k})" for k in range(64)]
    lines += [f"  channel {k // 4} -> {(k // 4 + k % 4 + 1) % 64}" for k in range(256)]
    return lines


def entries(part):
    count = 5_000 // part
    lines = ["automaton A(limit: Int)", "  signature"]
    lines += [f"    internal an_action_with_a_name_{k}(value: Int, key: Nat)," for k in range(count)]
    lines += ["  states total: Int := 0", "  transitions"]
    lines += [
        f"    internal an_action_with_a_name_{k}(value, key) pre value < limit eff total := total + value * key"
        for k in range(count)
    ]
    lines += ["system", "  node 0: A(7)"]
    return lines


def many(part):
    entries, variables, fires = 2_500 // part, 5_000 // part, 5_000 // part
    lines = ["automaton A(limit: Int)", "  signature"]
    lines += ["    output send(m: Int, const 0, const 1),", "    input receive(m: Int, const 1, const 0),"]
    lines += [f"    internal an_action_with_a_name_{k}(value: Int, key: Nat)," for k in range(entries)]
    lines += ["  states"]
    lines += [f"    a_state_variable_with_a_name_{k}: Int := 0," for k in range(variables - 1)]
    lines += ["    total: Int := 0", "  transitions"]
    lines += ["    output send(m, 0, 1) pre m = total eff total := total + 1"]
    lines += ["    input receive(m, 1, 0) eff total := m"]
    lines += [
        f"    internal an_action_with_a_name_{k}(value, key) pre value < limit eff total := total + value * key"
        for k in range(entries)
    ]
    schedule = "; ".join(["fire send(total, 0, 1)"] * fires)
    lines += [f"  schedule do {schedule} od", "system"]
    return lines


def readings(part):
    count = 937 // part
    lines = ["automaton A", "  states", "    all: Set[Int] := {},"]
    lines += [f"    x{k}: Int := {k}," for k in range(count - 1)]
    lines += [f"    x{count - 1}: Int := 0", "system"]
    lines += [f"  node {k}: A" for k in range(64)]
    read = ", ".join(f"x{k}@{node}" for node in range(64) for k in range(count))
    lines += [f"invariant Whole: all@0 ~= {{{read}}}"]
    return lines


def invariants(part):
    lines = ["automaton A", "  signature output send(m: Int, const 0, const 1)", "  states n: Int := 0"]
    lines += ["  transitions output send(m, 0, 1) pre m = n", "automaton B"]
    lines += ["  signature input receive(m: Int, const 0, const 1)", "  states a_sum_of_messages: Int := 0"]
    lines += ["  transitions input receive(m, 0, 1) eff a_sum_of_messages := a_sum_of_messages + m"]
    lines += ["system node 0: A node 1: B channel 0 -> 1"]
    lines += [
        f"invariant An_invariant_with_a_name_{k}: n@0 + a_sum_of_messages@1 >= {k} - {k}"
        f" /\\ (len(queue(0, 1)) < {k + 1} \\/ head(queue(0, 1)) = n@0) /\\ a_sum_of_messages@1 * 2 >= n@0 - {k}"
        for k in range(5_000 // part)
    ]
    return lines


def scripts(part):
    lines = ["automaton A", "  signature input hit", "  states n: Int := 0", "  transitions input hit eff n := n + 1"]
    lines += ["system", "  node 0: A"]
    lines += [f"  script {k}: hit" for k in range(50_000 // part)]
    return lines


def main():
    kind, part = sys.argv[1], int(sys.argv[2]) if len(sys.argv) > 2 else 1
    kinds = [variables, tuples, display, nodes, entries, many, readings, invariants, scripts]
    print("\n".join({made.__name__: made for made in kinds}[kind](part)))


main()
