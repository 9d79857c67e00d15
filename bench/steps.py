#!/usr/bin/env python3
"""Writes a text in which node 0 sends to node 1 as often as is asked, and node 1 receives each message.

    bench/steps.py NODES CHANNELS FIRES

The nodes stand in a ring, of which the first CHANNELS channels are declared. All nodes but the first two do nothing,
so that texts of several sizes have the same steps: twice as many as FIRES. A step costs the difference of two runs of one
text, with `--attempts 11` and `--attempts 61` under callgrind, divided by the steps that one has more.
"""
import sys


def automaton(node, nodes, fires):
    """The automaton of a node, which sends to the next node and receives from the one before."""
    after, before = (node + 1) % nodes, (node - 1) % nodes
    fire = {0: f"fire send(n, {node}, {after})", 1: f"fire receive(r, {before}, {node})"}.get(node)
    lines = [
        f"automaton A{node}",
        "  signature",
        f"    output send(m: Int, const {node}, const {after})",
        f"    input receive(m: Int, const {before}, const {node})",
        "  states n: Int := 0, r: Int := 0",
        "  transitions",
        f"    output send(m, {node}, {after}) pre m = n eff n := n + 1",
        f"    input receive(m, {before}, {node}) eff r := m + 1",
    ]
    if fire and fires:
        lines.append("  schedule do " + "; ".join([fire] * fires) + " od")
    return lines


def main():
    nodes, channels, fires = map(int, sys.argv[1:])
    lines = [line for node in range(nodes) for line in automaton(node, nodes, fires)]
    lines.append("system")
    lines += [f"  node {node}: A{node}" for node in range(nodes)]
    lines += [f"  channel {node} -> {(node + 1) % nodes}" for node in range(channels)]
    print("\n".join(lines))


main()
