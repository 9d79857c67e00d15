#!/usr/bin/env python3
"""Writes large texts with one fault each, and says what it costs to refuse and to explain them, in instructions.

    bench/faults.py PROGRAM

PROGRAM is the built program. Counts with `valgrind --tool=callgrind`, which counts the same each time.
"""
import re
import subprocess
import sys
import tempfile

# As many as a megabyte holds.
DECLARATIONS = 5_000

AUTOMATON = """automaton A{number}(k: Int)
  signature internal p(x: Int)
  states n: Int := k, b: Bool := false
  transitions internal p(x) pre n < {name} /\\ ~b eff n := n + x; b := n > 3
  schedule do fire p(2); fire p(n + 1) od
"""

INVARIANTS = """invariant First: n@0 >= 0 /\\ n@1 < 7
invariant Last: (n@0 > 1 => b@0) /\\ (n@1 = {name} \\/ b@2) /\\ n@3 + n@4 > n@5 - 2 * n@6
"""


def declarations(last="x"):
    """Automata, the last of which reads this name in its guard."""
    names = ["x"] * (DECLARATIONS - 1) + [last]
    return "".join(AUTOMATON.format(number=number, name=name) for number, name in enumerate(names))


def section(nodes, bad=None, argument=None):
    """A system section of so many nodes, one of which has this argument."""
    arguments = [argument if node == bad else node for node in range(nodes)]
    return "system\n" + "".join(f"  node {node}: A{node}({it})\n" for node, it in enumerate(arguments))


def rules(count):
    """An automaton with so many rules, the last of which reads an unknown name."""
    names = ["x"] * (count - 1) + ["y"]
    signature = "".join(f"    internal p{number}(x: Int)\n" for number in range(count))
    transitions = "".join(
        f"    internal p{number}(x) pre n < {name} eff n := n + x\n" for number, name in enumerate(names)
    )
    head = f"automaton A\n  signature\n{signature}  states n: Int := 0\n  transitions\n{transitions}"
    return head + "  schedule do fire p0(1) od\nsystem node 0: A\n"


def readings(last):
    """An invariant that reads 937 state variables of each of 64 nodes, and then one more."""
    variables = "".join(f"    x{number}: Int := {number},\n" for number in range(937))
    nodes = "".join(f"  node {node}: A\n" for node in range(64))
    read = ", ".join(f"x{number}@{node}" for node in range(64) for number in range(937))
    head = f"automaton A\n  states\n    all: Set[Int] := {{}},\n{variables}    b: Bool := false\n"
    return head + f"system\n{nodes}invariant Whole: all@0 ~= {{{read}, {last}}}\n"


def texts():
    """Each text with what is wrong in it."""
    good = declarations()
    invariants = INVARIANTS.format(name="n@2")
    cut = good.rindex("states n: Int")
    bent = good[:cut] + good[cut:].replace(": Int", " Int", 1)
    outside = "9223372036854775807 + 1"
    return [
        ("an unknown name in the last declaration", declarations(last="y") + section(8)),
        ("an unexpected token in the last declaration", bent + section(8)),
        ("an unknown name in an invariant", good + section(8) + INVARIANTS.format(name="m@2")),
        ("sorts that differ in an invariant", good + section(8) + INVARIANTS.format(name="b@2")),
        ("an argument of a wrong sort of one of 60 nodes", good + section(60, 47, "true") + invariants),
        ("an argument without a value of one of 60 nodes", good + section(60, 33, outside) + invariants),
        ("an automaton with 4,950 rules", rules(4_950)),
        ("an automaton with 9,900 rules", rules(9_900)),
        ("an unknown name behind 59,968 readings", readings("y@63")),
        ("a reading of another sort behind 59,968", readings("b@63")),
    ]


def instructions(words, text):
    """How many instructions a command executes on a text that it refuses."""
    with tempfile.NamedTemporaryFile("w", suffix=".ioa") as file:
        file.write(text)
        file.flush()
        counted = ["valgrind", "--tool=callgrind", "--callgrind-out-file=/dev/null", *words, file.name]
        ran = subprocess.run(counted, stdout=subprocess.DEVNULL, stderr=subprocess.PIPE, text=True)
    if ran.returncode != 1:
        sys.exit(f"{' '.join(words)}: the text was to be refused with status 1, and not {ran.returncode}")
    return int(re.search(r"Collected : (\d+)", ran.stderr)[1])


def main():
    program = sys.argv[1]
    for what, text in texts():
        refused = instructions([program, "run"], text)
        explained = instructions([program, "explain"], text)
        print(f"{what}: {len(text)} bytes, {refused:,} refused, {explained:,} explained, {explained / refused:.2f}")


if __name__ == "__main__":
    main()
