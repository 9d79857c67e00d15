#!/usr/bin/env python3
"""Prints what a step on a set or a map costs: bench/collections.py PROGRAM

Each line is a step and, for each size, how many instructions it takes. A text first fills the collection, then makes the
step many times, and in the end empties the collection, so that no report has its members; what the same text takes
without the steps is subtracted. Instructions are counted by `valgrind --tool=callgrind`, so the same program and text
give the same number each time.
"""
import os
import subprocess
import sys
import tempfile

SIZES = [8, 500, 2_000, 16_000]
STEPS = 400

# What a step does: the collection, and the step's effect. The collection has the numbers from 0 up to the size, and `i`
# counts the steps.
KINDS = {
    "`m[k] := v`, a key that is there": ("map", "m[i] := i"),
    "`m[k] := v`, a new key": ("map", "m[i + {size}] := i"),
    "`m[k]`": ("map", "x := m[i]"),
    "`remove(m, k)`, a key that is there": ("map", "m := remove(m, i)"),
    "`insert(e, s)`, a new member": ("set", "s := insert(i + {size}, s)"),
    "`insert(e, s)`, a member": ("set", "s := insert(i, s)"),
    "`delete(e, s)`, a member": ("set", "s := delete(i, s)"),
    "`delete(e, s)`, no member": ("set", "s := delete(i + {size}, s)"),
    "`e \\in s`, no member": ("set", "b := i + {size} \\in s"),
    "`x := i`, beside either": ("set", "x := i"),
}


def text(kind, effect, size, steps):
    """The text that fills a collection of this kind, makes so many steps, and empties it."""
    fill = "m[n] := n" if kind == "map" else "s := insert(n, s)"
    return f"""\
automaton A
  signature internal fill, step, clear
  states
    m: Map[Nat, Int] := {{}}, s: Set[Nat] := {{}}, x: Int := 0, b: Bool := false, n: Nat := 0, i: Nat := 0
  transitions
    internal fill eff {fill}; n := n + 1
    internal step eff {effect.format(size=size)}; i := i + 1
    internal clear eff m := {{}}; s := {{}}
  schedule
    do
      while n < {size} do fire fill od;
      while i < {steps} do fire step od;
      fire clear
    od
system
  node 0: A
"""


def instructions(program, source):
    """How many instructions a run of a text takes."""
    with tempfile.TemporaryDirectory() as folder:
        counts = os.path.join(folder, "counts")
        words = ["valgrind", "--tool=callgrind", f"--callgrind-out-file={counts}"]
        words += [program, "run", "--steps", "1000000", "--attempts", "1000000"]
        subprocess.run(words, input=source, capture_output=True, text=True, check=True)
        with open(counts) as lines:
            totals = [line for line in lines if line.startswith(("totals:", "summary:"))]
    return int(totals[-1].split()[1])


def most_memory(program, source):
    """The most memory that a run of a text takes, in bytes."""
    with tempfile.TemporaryDirectory() as folder:
        told = os.path.join(folder, "told")
        words = ["valgrind", "--tool=massif", "--massif-out-file=" + told]
        words += [program, "run", "--steps", "1000000", "--attempts", "1000000"]
        subprocess.run(words, input=source, capture_output=True, text=True, check=True)
        with open(told) as lines:
            return max(int(line.split("=")[1]) for line in lines if line.startswith("mem_heap_B="))


def versions(count):
    """The text of a sequence of so many versions of a map of 2,000 entries, with one key changed at each."""
    return f"""\
automaton A
  signature internal fill, keep
  states m: Map[Nat, Int] := {{}}, all: Seq[Map[Nat, Int]] := {{}}, n: Nat := 0, i: Nat := 0
  transitions
    internal fill eff m[n] := n; n := n + 1
    internal keep eff m[mod(7 * i, 2000)] := i; all := all |- m; i := i + 1
  schedule
    do
      while n < 2000 do fire fill od;
      while i < {count} do fire keep od
    od
system
  node 0: A
"""


def main():
    program = sys.argv[1]
    print("| Step | " + " | ".join(f"{size:,}" for size in SIZES) + " |")
    print("|---|" + "---|" * len(SIZES))
    for name, (kind, effect) in KINDS.items():
        cells = []
        for size in SIZES:
            steps = min(STEPS, size)
            whole = instructions(program, text(kind, effect, size, steps))
            cells.append(f"{(whole - instructions(program, text(kind, effect, size, 0))) // steps:,}")
        print(f"| {name} | " + " | ".join(cells) + " |")
    more = most_memory(program, versions(1_000)) - most_memory(program, versions(0))
    print(f"1,000 versions of a map of 2,000 entries, one key changed at each, take {more:,} bytes")


if __name__ == "__main__":
    main()
